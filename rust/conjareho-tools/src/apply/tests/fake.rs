//! A kernel for tests: it keeps what requests make as they make it, dumps it, and notifies listeners of it.

use crate::apply::messages::{NLM_F_REPLACE, type_of};
use crate::netlink::attributes::put;
use crate::netlink::message::*;
use crate::netlink::{Kernel, Listener, Transport};
use std::cell::RefCell;
use std::collections::VecDeque;
use std::io;
use std::rc::Rc;
use std::time::Duration;

/// Port ids: of requests, of another program.
pub(crate) const OURS: u32 = 100;
pub(crate) const OTHER: u32 = 4242;

pub(crate) const ENOENT: i32 = 2;
pub(crate) const EEXIST: i32 = 17;
pub(crate) const EBUSY: i32 = 16;

const NLM_F_EXCL: u16 = 0x200;
const NLM_F_CREATE: u16 = 0x400;
const TC_H_ROOT: u32 = 0xFFFF_FFFF;

/// What a test does before the kernel answers a request that changes something: the number of the request, from 1, and the request. The
/// kernel answers with an error instead, if there is one; 0 keeps silent.
pub(crate) type Hook = Box<dyn FnMut(&mut State, usize, &[u8]) -> Option<i32>>;

pub(crate) type LinksHook = Box<dyn FnMut(&mut State, usize)>;

#[derive(Default)]
pub(crate) struct State {
    /// Index, name and MAC.
    pub(crate) devices: Vec<(u32, String, [u8; 6])>,
    /// What there is, each as the message that dumps it.
    pub(crate) objects: Vec<Vec<u8>>,
    /// The requests that changed something, or were refused.
    pub(crate) sent: Vec<Vec<u8>>,
    pub(crate) signal: Option<&'static str>,
    /// It takes changes, and doesn't make them.
    pub(crate) ignores_changes: bool,
    /// What is called when interfaces are asked for, with the number of the call.
    pub(crate) on_links: Option<LinksHook>,
    links_asked: usize,
    answers: VecDeque<Vec<u8>>,
    heard: [VecDeque<Vec<u8>>; 2],
}

/// A kernel, to which its ends share the way.
#[derive(Clone)]
pub(crate) struct Fake {
    pub(crate) state: Rc<RefCell<State>>,
    hook: Rc<RefCell<Hook>>,
}

/// An end of the way to it: 0 for requests, others for what is heard.
pub(crate) struct End {
    fake: Fake,
    role: usize,
}

/// A message about a qdisc, a class, a filter or a chain, as it is dumped.
pub(crate) fn object(kind: u16, header: Tcmsg, name: &str, options: &[(u16, u32)]) -> Vec<u8> {
    let mut body = tc_request(0, 0, header)[HEADER..].to_vec();
    put(&mut body, 1, &[name.as_bytes(), &[0]].concat());
    let mut list = Vec::new();
    for (kind, number) in options {
        put(&mut list, *kind, &number.to_ne_bytes());
    }
    put(&mut body, 2, &list);
    let mut message = request(kind, 0, &body);
    message[6..8].copy_from_slice(&2u16.to_ne_bytes());
    message
}

impl Fake {
    pub(crate) fn new(hook: Hook) -> Fake {
        let state = State {
            devices: vec![(7, "wan".to_string(), [2, 0, 0, 0, 0, 7]), (8, "ids".to_string(), [2, 0, 0, 0, 0, 8])],
            ..State::default()
        };
        Fake { state: Rc::new(RefCell::new(state)), hook: Rc::new(RefCell::new(hook)) }
    }

    pub(crate) fn kernel(&self) -> Kernel<End> {
        Kernel::over(End { fake: self.clone(), role: 0 })
    }

    pub(crate) fn listener(&self, number: usize) -> Listener<End> {
        Listener::over(End { fake: self.clone(), role: number })
    }

    fn answer(&self, message: &[u8]) {
        let Some(header) = header_of(message) else { panic!("a request without a header") };
        match header.kind {
            RTM_GETLINK => self.answer_links(header),
            kind if header.flags & NLM_F_DUMP == NLM_F_DUMP && kind % 4 == 2 => {
                self.state.borrow_mut().answer_dump(header, message)
            }
            _ => self.answer_change(header, message),
        }
    }

    fn answer_links(&self, header: Header) {
        let mut state = self.state.borrow_mut();
        state.links_asked += 1;
        if let Some(mut hook) = state.on_links.take() {
            let number = state.links_asked;
            hook(&mut state, number);
            state.on_links.get_or_insert(hook);
        }
        let links: Vec<Vec<u8>> = state.devices.iter().map(|(index, name, mac)| link(*index, name, mac)).collect();
        state.answer_all(header, links);
    }

    fn answer_change(&self, header: Header, message: &[u8]) {
        let mut state = self.state.borrow_mut();
        let message = &unflagged(message);
        state.sent.push(message.clone());
        let number = state.sent.len();
        let refused = (self.hook.borrow_mut())(&mut state, number, message);
        let error = match refused {
            Some(0) => return,
            Some(error) => error,
            None => state.change(header, message),
        };
        state.answers.push_back(answered(header, NLMSG_ERROR, &(-error).to_ne_bytes()));
    }
}

impl State {
    /// Notifies listeners of a change by this port.
    pub(crate) fn tell(&mut self, message: &[u8], port: u32) {
        let mut notice = message.to_vec();
        notice[12..16].copy_from_slice(&port.to_ne_bytes());
        self.heard.iter_mut().for_each(|heard| heard.push_back(notice.clone()));
    }

    fn answer_all(&mut self, header: Header, messages: Vec<Vec<u8>>) {
        let all = messages.into_iter().map(|mut message| {
            message[8..12].copy_from_slice(&header.sequence.to_ne_bytes());
            message[12..16].copy_from_slice(&OURS.to_ne_bytes());
            message
        });
        self.answers.extend(all);
        self.answers.push_back(answered(header, NLMSG_DONE, &[0; 4]));
    }

    fn answer_dump(&mut self, header: Header, message: &[u8]) {
        let asked = tcmsg_of(message).unwrap_or_default();
        let is_asked = |it: &&Vec<u8>| {
            let (found, own) = (tcmsg_of(it).unwrap_or_default(), header_of(it).map_or(0, |header| header.kind));
            own + 2 == header.kind
                && match own {
                    RTM_NEWQDISC => asked.index == 0 || found.index == asked.index,
                    RTM_NEWTCLASS => found.index == asked.index && found.handle >> 16 == asked.parent >> 16,
                    _ => found.index == asked.index && found.parent == asked.parent,
                }
        };
        let mut found: Vec<Vec<u8>> = self.objects.iter().filter(is_asked).cloned().collect();
        let has_filter = |it: &Vec<u8>| {
            let own = tcmsg_of(it).unwrap_or_default();
            type_of(it) == RTM_NEWTFILTER && (own.index, own.parent) == (asked.index, asked.parent)
        };
        // The chain that a filter makes.
        if header.kind == RTM_GETCHAIN && found.is_empty() && self.objects.iter().any(has_filter) {
            let place = Tcmsg { index: asked.index, parent: asked.parent & 0xffff_0000, ..Tcmsg::default() };
            let mut body = tc_request(0, 0, place)[HEADER..].to_vec();
            put(&mut body, 11, &[0; 4]);
            let mut chain = request(RTM_NEWCHAIN, 0, &body);
            chain[6..8].copy_from_slice(&2u16.to_ne_bytes());
            found.push(chain);
        }
        self.answer_all(header, found);
    }

    fn change(&mut self, header: Header, message: &[u8]) -> i32 {
        let Some(tcmsg) = tcmsg_of(message) else { return 22 };
        let at = self.objects.iter().position(|it| is_same(it, header.kind / 4 * 4, tcmsg));
        if header.kind % 4 == 0 {
            if at.is_some() && header.flags & NLM_F_EXCL != 0 {
                return EEXIST;
            }
            if at.is_none() && header.flags & NLM_F_CREATE == 0 {
                return ENOENT;
            }
            let mut made = message.to_vec();
            made[6..8].copy_from_slice(&2u16.to_ne_bytes());
            match at.filter(|_| header.flags & NLM_F_REPLACE != 0) {
                Some(_) if self.ignores_changes => {}
                Some(at) => self.objects[at] = made,
                None => self.objects.push(made),
            }
        } else if header.kind == RTM_DELQDISC {
            let before = self.objects.len();
            let is_root = tcmsg.parent == TC_H_ROOT;
            self.objects.retain(|it| !tcmsg_of(it).is_some_and(|it| it.index == tcmsg.index && is_below(it, is_root)));
            if self.objects.len() == before {
                return ENOENT;
            }
        } else if header.kind == RTM_NEWCHAIN + 1 || header.kind == RTM_NEWTFILTER + 1 && tcmsg.handle == 0 {
            // All filters of a chain, which have one here, or of a priority.
            let goes = |it: &Vec<u8>| {
                let own = tcmsg_of(it).unwrap_or_default();
                let is_of_priority = header.kind == RTM_NEWCHAIN + 1 || own.info >> 16 == tcmsg.info >> 16;
                type_of(it) == RTM_NEWTFILTER
                    && (own.index, own.parent) == (tcmsg.index, tcmsg.parent)
                    && is_of_priority
            };
            self.objects.retain(|it| !goes(it));
        } else {
            let Some(at) = at else { return ENOENT };
            self.objects.remove(at);
        }
        self.tell(message, OURS);
        0
    }
}

// A request without `NLA_F_NESTED`, which the kernel doesn't keep.
fn unflagged(message: &[u8]) -> Vec<u8> {
    let header = HEADER + if is_action(header_of(message).map_or(0, |header| header.kind)) { 4 } else { TCMSG };
    let mut made = message.to_vec();
    unflag(&mut made[header.min(message.len())..]);
    made
}

fn unflag(mut bytes: &mut [u8]) {
    while bytes.len() >= 4 {
        let len = usize::from(u16::from_ne_bytes([bytes[0], bytes[1]]));
        let (one, rest) = bytes.split_at_mut(len.next_multiple_of(4).min(bytes.len()));
        if u16::from_ne_bytes([one[2], one[3]]) & 0x8000 != 0 {
            one[3] &= 0x7F;
            unflag(&mut one[4..len]);
        }
        bytes = rest;
    }
}

// True for what goes with the root qdisc, or else with clsact.
fn is_below(header: Tcmsg, is_root: bool) -> bool {
    let is_clsact = header.handle == 0xFFFF_0000 || header.parent >> 16 == 0xFFFF && header.parent != TC_H_ROOT;
    is_clsact != is_root
}

fn is_same(message: &[u8], kind: u16, wanted: Tcmsg) -> bool {
    let own = header_of(message).map_or(0, |header| header.kind);
    let found = tcmsg_of(message).unwrap_or_default();
    own == kind
        && (found.index, found.handle) == (wanted.index, wanted.handle)
        && (own == RTM_NEWTCLASS || found.parent == wanted.parent)
        && (own != RTM_NEWTFILTER || found.info >> 16 == wanted.info >> 16)
}

fn answered(header: Header, kind: u16, body: &[u8]) -> Vec<u8> {
    let mut message = request(kind, 0, body);
    message[6..8].copy_from_slice(&0u16.to_ne_bytes());
    message[8..12].copy_from_slice(&header.sequence.to_ne_bytes());
    message[12..16].copy_from_slice(&OURS.to_ne_bytes());
    message
}

fn link(index: u32, name: &str, mac: &[u8; 6]) -> Vec<u8> {
    let mut body = vec![0; 16];
    body[4..8].copy_from_slice(&index.to_ne_bytes());
    // IFF_UP
    body[8..12].copy_from_slice(&1u32.to_ne_bytes());
    put(&mut body, 3, &[name.as_bytes(), &[0]].concat());
    put(&mut body, 1, mac);
    put(&mut body, 4, &1500u32.to_ne_bytes());
    request(RTM_NEWLINK, 0, &body)
}

impl Transport for End {
    fn port(&self) -> u32 {
        OURS + self.role as u32
    }

    fn most(&self) -> usize {
        1 << 20
    }

    fn room(&self) -> usize {
        1 << 20
    }

    fn send(&mut self, datagram: &[u8]) -> io::Result<usize> {
        for message in Messages::of(datagram) {
            let Ok((_, message)) = message else { panic!("a request that is cut") };
            self.fake.answer(message);
        }
        Ok(datagram.len())
    }

    fn receive(&mut self, into: &mut Vec<u8>, _wait: Option<Duration>) -> io::Result<u32> {
        let mut state = self.fake.state.borrow_mut();
        let next = if self.role == 0 { state.answers.pop_front() } else { state.heard[self.role - 1].pop_front() };
        match next {
            Some(datagram) => {
                *into = datagram;
                Ok(0)
            }
            None => Err(io::ErrorKind::TimedOut.into()),
        }
    }
}
