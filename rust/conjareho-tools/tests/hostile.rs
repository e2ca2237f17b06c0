//! A peer in the kernel's place that answers as a kernel does, and breaks its answers: dumps, requests, clearing and sending end with what an honest
//! kernel said or with an error, and nothing is sent twice. 3,000 runs; as many as `CONJAREHO_RUNS` says, from the seed `CONJAREHO_SEED` on.
#![cfg(target_os = "linux")]

use conjareho_tools::netlink::attributes::put;
use conjareho_tools::netlink::message::*;
use conjareho_tools::netlink::{Devices, Fault, Kernel, Listener, Transport, clear, state_of};
use conjareho_tools::requests::{Stream, send_all};
use conjareho_tools::save::save_of;
use conjareho_tools::shown::{lines_of, stream_of};
use std::cell::RefCell;
use std::collections::{BTreeMap, VecDeque};
use std::io;
use std::rc::Rc;
use std::sync::LazyLock;
use std::time::Duration;

const PORT: u32 = 4711;

/// SplitMix64.
struct Random(u64);

impl Random {
    fn next(&mut self) -> u64 {
        self.0 = self.0.wrapping_add(0x9e37_79b9_7f4a_7c15);
        let mut word = self.0;
        word = (word ^ (word >> 30)).wrapping_mul(0xbf58_476d_1ce4_e5b9);
        word = (word ^ (word >> 27)).wrapping_mul(0x94d0_49bb_1331_11eb);
        word ^ (word >> 31)
    }

    fn below(&mut self, limit: usize) -> usize {
        (self.next() % limit.max(1) as u64) as usize
    }

    fn one_in(&mut self, count: usize) -> bool {
        self.below(count) == 0
    }
}

/// How a peer misbehaves: one in so many datagrams; 0 for never.
#[derive(Clone, Copy, Default)]
struct Manners {
    breaks: usize,
    interrupts: usize,
    loses: usize,
    strangers: usize,
    refuses: usize,
    /// Dumps that are marked as interrupted.
    marks: usize,
}

/// A datagram, or the error of a receipt; with the port id of its sender.
type Receipt = Result<(u32, Vec<u8>), i32>;

/// A peer in the kernel's place.
struct Peer {
    random: Random,
    manners: Manners,
    receipts: VecDeque<Receipt>,
    /// How often each message that is no dump was taken, by its bytes without sequence number and port id.
    taken: Rc<RefCell<BTreeMap<Vec<u8>, usize>>>,
    /// The type of dumps that are refused, and the error.
    refused: Option<(u16, i32)>,
}

impl Peer {
    fn new(seed: u64, manners: Manners) -> Peer {
        Peer { random: Random(seed), manners, receipts: VecDeque::new(), taken: Rc::default(), refused: None }
    }

    fn happens(&mut self, count: usize) -> bool {
        count > 0 && self.random.one_in(count)
    }

    // The answer of an honest kernel, in datagrams.
    fn answer(&mut self, header: Header, request: &[u8]) -> Vec<Vec<u8>> {
        let kind = header.kind;
        if header.flags & NLM_F_DUMP != NLM_F_DUMP || kind % 4 != 2 {
            let errno: i32 = if self.happens(self.manners.refuses) { -2 } else { 0 };
            let found = if kind == RTM_GETTFILTER && errno == 0 {
                vec![stamped(&root(request), header.sequence)]
            } else {
                Vec::new()
            };
            return [found, vec![acknowledgement(header.sequence, errno)]].concat();
        }
        if let Some((_, errno)) = self.refused.filter(|(refused, _)| *refused == kind) {
            return vec![acknowledgement(header.sequence, errno)];
        }
        let mut datagrams: Vec<Vec<u8>> = dumped(kind, request)
            .chunks(3)
            .map(|some| stream_of(&some.iter().map(|it| stamped(it, header.sequence)).collect::<Vec<_>>()))
            .collect();
        let errno: i32 = if self.happens(self.manners.refuses) { [-12, -1][self.random.below(2)] } else { 0 };
        if self.happens(self.manners.marks) {
            datagrams.iter_mut().for_each(|datagram| datagram[6] |= NLM_F_DUMP_INTR as u8);
        }
        datagrams.push(stamped(&message(NLMSG_DONE, 2, &errno.to_ne_bytes()), header.sequence));
        datagrams
    }

    // Breaks a datagram: a byte, a length, its end, a flag.
    fn broken(&mut self, mut datagram: Vec<u8>) -> Vec<u8> {
        let at = self.random.below(datagram.len());
        match self.random.below(8) {
            0 => datagram.truncate(at),
            1 => datagram[at] ^= 1 << self.random.below(8),
            2 => datagram[at] = [0, 1, 0x7f, 0x80, 0xff][self.random.below(5)],
            3 => datagram[..4].copy_from_slice(
                &[0u32, 1, 15, 17, 0x7fff_ffff, 0x8000_0000, 0xffff_fff0, u32::MAX][self.random.below(8)].to_ne_bytes(),
            ),
            4 => datagram[7] |= 1,
            5 => datagram[6] |= NLM_F_DUMP_INTR as u8,
            6 => datagram.extend([7; 9]),
            _ => {
                datagram[4..6].copy_from_slice(&[0u16, 1, 2, 3, 4, 15, 36, 0xffff][self.random.below(8)].to_ne_bytes())
            }
        }
        datagram
    }

    fn post(&mut self, datagrams: Vec<Vec<u8>>) {
        for datagram in datagrams {
            if self.happens(self.manners.strangers) {
                let lie = self.broken(datagram.clone());
                self.receipts.push_back(Ok((1 + self.random.below(9000) as u32, lie)));
                self.receipts.push_back(Ok((PORT, datagram.clone())));
            }
            if self.happens(self.manners.interrupts) {
                self.receipts.push_back(Err(4));
            }
            if self.happens(self.manners.loses) {
                self.receipts.push_back(Err(105));
                continue;
            }
            let sent = if self.happens(self.manners.breaks) { self.broken(datagram) } else { datagram };
            self.receipts.push_back(Ok((0, sent)));
        }
    }
}

impl Transport for Peer {
    fn port(&self) -> u32 {
        PORT
    }

    fn most(&self) -> usize {
        4096
    }

    fn room(&self) -> usize {
        1 << 20
    }

    fn send(&mut self, datagram: &[u8]) -> io::Result<usize> {
        if self.happens(self.manners.interrupts) {
            return Err(io::ErrorKind::Interrupted.into());
        }
        if self.happens(self.manners.loses.saturating_mul(4)) {
            return Err(io::Error::from_raw_os_error(105));
        }
        let requests: Vec<(Header, &[u8])> =
            Messages::of(datagram).map(|message| message.expect("a whole request, as long as it says")).collect();
        for (header, request) in &requests {
            assert!(header.port == PORT && header.sequence != 0 && header.flags & NLM_F_REQUEST != 0);
            if header.flags & NLM_F_ACK != 0 {
                *self.taken.borrow_mut().entry([&request[..8], &request[HEADER..]].concat()).or_default() += 1;
            }
        }
        if self.happens(self.manners.breaks.saturating_mul(8)) {
            return Ok(self.random.below(datagram.len()));
        }
        // A dump that isn't over keeps the kernel busy; what is left of it comes as it is read, after the answers to all requests.
        let (mut now, mut later) = (Vec::new(), Vec::new());
        for (header, request) in requests {
            let is_dump = header.flags & NLM_F_DUMP == NLM_F_DUMP;
            if is_dump && !later.is_empty() {
                now.push(acknowledgement(header.sequence, -16));
                continue;
            }
            let mut answer = self.answer(header, request);
            if is_dump && answer.len() > 1 {
                later = answer.split_off(1);
            }
            now.append(&mut answer);
        }
        self.post(now);
        self.post(later);
        Ok(datagram.len())
    }

    fn receive(&mut self, into: &mut Vec<u8>, _wait: Option<Duration>) -> io::Result<u32> {
        match self.receipts.pop_front() {
            None => Err(io::ErrorKind::TimedOut.into()),
            Some(Err(errno)) => Err(io::Error::from_raw_os_error(errno)),
            Some(Ok((sender, datagram))) => {
                *into = datagram;
                Ok(sender)
            }
        }
    }
}

// ---- What the peer has

fn message(kind: u16, flags: u16, body: &[u8]) -> Vec<u8> {
    let mut message = request(kind, 0, body);
    message[6..8].copy_from_slice(&flags.to_ne_bytes());
    message
}

fn stamped(message: &[u8], sequence: u32) -> Vec<u8> {
    let mut message = message.to_vec();
    message[8..12].copy_from_slice(&sequence.to_ne_bytes());
    message[12..16].copy_from_slice(&PORT.to_ne_bytes());
    message
}

fn acknowledgement(sequence: u32, errno: i32) -> Vec<u8> {
    let mut body = errno.to_ne_bytes().to_vec();
    body.extend([20, 0, 0, 0, 36, 0, 5, 6, 0, 0, 0, 0, 0, 0, 0, 0]);
    put(&mut body, 1, b"it is broken\0");
    put(&mut body, 2, &20u32.to_ne_bytes());
    stamped(&message(NLMSG_ERROR, NLM_F_CAPPED | NLM_F_ACK_TLVS, &body), sequence)
}

fn link(index: u32, name: &str) -> Vec<u8> {
    let mut body = vec![0; 16];
    body[4..8].copy_from_slice(&index.to_ne_bytes());
    put(&mut body, 3, &[name.as_bytes(), &[0]].concat());
    put(&mut body, 1, &[2, 0, 0, 0, 0, index as u8]);
    put(&mut body, 4, &1500u32.to_ne_bytes());
    let mut names = Vec::new();
    put(&mut names, 53, format!("alt{index}\0").as_bytes());
    put(&mut body, 52, &names);
    message(RTM_NEWLINK, 2, &body)
}

fn object(kind: u16, index: i32, handle: u32, parent: u32, name: &str) -> Vec<u8> {
    let mut message = tc_request(kind, 0, Tcmsg { index, handle, parent, info: 0 });
    message[6..8].copy_from_slice(&2u16.to_ne_bytes());
    put(&mut message, 1, &[name.as_bytes(), &[0]].concat());
    if name == "clsact" {
        put(&mut message, 13, &22u32.to_ne_bytes());
    }
    let len = message.len() as u32;
    message[..4].copy_from_slice(&len.to_ne_bytes());
    message
}

const QDISCS: [(i32, u32, u32, &str); 6] = [
    (2, 0x1_0000, u32::MAX, "htb"),
    (2, 0x10_0000, 0x1_0010, "pfifo"),
    (2, 0xffff_0000, 0xffff_fff1, "clsact"),
    (3, 0, u32::MAX, "mq"),
    (3, 0, 1, "pfifo_fast"),
    (4, 0xffff_0000, 0xffff_fff1, "ingress"),
];

// The root tables of u32 below a qdisc and a class, which the kernel keeps together.
static ROOTS: LazyLock<BTreeMap<u32, u32>> =
    LazyLock::new(|| BTreeMap::from([(0x1_0000, 0x8000_0000), (0x1_0001, 0x8010_0000)]));

// A table of u32, or a key in it.
fn key(parent: u32, handle: u32) -> Vec<u8> {
    let mut message = object(RTM_NEWTFILTER, 2, handle, parent, "u32");
    let mut options = Vec::new();
    if handle & 0xf_ffff == 0 && handle != 0 {
        put(&mut options, 4, &1u32.to_ne_bytes());
    }
    put(&mut message, 2, &options);
    let len = message.len() as u32;
    message[..4].copy_from_slice(&len.to_ne_bytes());
    message
}

// The root table that a request asks for.
fn root(request: &[u8]) -> Vec<u8> {
    let parent = tcmsg_of(request).unwrap_or_default().parent;
    key(parent, ROOTS.get(&parent).copied().unwrap_or_default())
}

// What a dump has, as Linux answers it: qdiscs of all interfaces, classes and filters of what is asked for.
fn dumped(kind: u16, request: &[u8]) -> Vec<Vec<u8>> {
    let asked = tcmsg_of(request).unwrap_or_default();
    match kind {
        RTM_GETLINK => vec![link(1, "lo"), link(2, "wan"), link(3, "3a"), link(4, "2")],
        RTM_GETQDISC => QDISCS
            .iter()
            .map(|(index, handle, parent, name)| object(RTM_NEWQDISC, *index, *handle, *parent, name))
            .collect(),
        RTM_GETTCLASS => match (asked.index, asked.parent) {
            (2, 0x1_0000) => {
                (1..20).map(|number| object(RTM_NEWTCLASS, 2, 0x1_0000 + number, 0x1_0000, "htb")).collect()
            }
            (3, 0) => (1..5).map(|number| object(RTM_NEWTCLASS, 3, number, u32::MAX, "mq")).collect(),
            _ => Vec::new(),
        },
        RTM_GETTFILTER if ROOTS.contains_key(&asked.parent) => {
            [0, 0x8000_0000, 0x8000_0800, 0x8010_0000, 0x8010_0800].map(|handle| key(asked.parent, handle)).into()
        }
        RTM_GETTFILTER if asked.parent == 0xffff_fff2 => vec![object(RTM_NEWTFILTER, -1, 1, 22, "matchall")],
        RTM_GETCHAIN if asked.parent == 0xffff_fff2 => vec![object(RTM_NEWCHAIN, asked.index, 0, 0xffff_0000, "")],
        RTM_GETCHAIN if ROOTS.contains_key(&asked.parent) => vec![object(RTM_NEWCHAIN, 2, 0, 0x1_0000, "")],
        _ => Vec::new(),
    }
}

fn request_of(handle: u32) -> Vec<u8> {
    let mut request = object(RTM_NEWQDISC, 2, handle, u32::MAX, "pfifo");
    request[6..8].copy_from_slice(&(NLM_F_REQUEST | NLM_F_ACK).to_ne_bytes());
    request
}

// The stream of some requests that differ.
fn requests(random: &mut Random) -> Vec<Vec<u8>> {
    (0..1 + random.below(6) as u32).map(|number| request_of(number << 16)).collect()
}

fn runs() -> (u64, u64) {
    let number = |name: &str, otherwise| std::env::var(name).map_or(otherwise, |text| text.parse().expect("a number"));
    (number("CONJAREHO_RUNS", 3000), number("CONJAREHO_SEED", 1))
}

fn quiet() -> Listener<Peer> {
    Listener::over(Peer::new(0, Manners::default()))
}

// Dumps these interfaces, and shows what was dumped.
fn saved(peer: Peer, interfaces: &[u32]) -> Result<Vec<String>, Fault> {
    let dump = state_of(&mut Kernel::over(peer), &mut quiet(), interfaces)?;
    let shown = lines_of(&dump.messages)?;
    let devices: Vec<_> = dump.devices.iter().filter(|device| interfaces.contains(&device.index)).collect();
    let text = save_of(&devices, &dump.devices, &shown.text).expect("lines are JSON");
    let lines: Vec<String> = shown.text.lines().map(str::to_string).collect();
    assert_eq!(text.lines().count(), lines.len() + 2);
    assert!(text.ends_with(&format!("{{\"end\":{}}}\n", lines.len())));
    Ok(lines)
}

// Lines without sequence numbers, which differ between dumps.
fn without_sequences(lines: Vec<String>) -> Vec<String> {
    let cut = |line: &String| line.split("\"fits\"").nth(1).unwrap_or(line).to_string();
    lines.iter().map(cut).collect()
}

#[test]
fn honest() {
    let lines = saved(Peer::new(1, Manners::default()), &[2, 3]).expect("nothing is broken");
    // Five qdiscs, nineteen classes of htb and four of mq, a chain and a filter of a shared block, two chains with a priority of u32, a table and a
    // key; each once.
    assert_eq!(lines.len(), 5 + 19 + 4 + 2 + 2 * 4);
    let lines = saved(Peer::new(1, Manners::default()), &[2, 4]).expect("nothing is broken");
    assert_eq!(lines.len(), 4 + 19 + 2 + 1 + 2 * 4, "the filter of the block that both have is there once");
}

#[test]
fn interruptions_and_strangers_change_nothing() {
    let honest = without_sequences(saved(Peer::new(1, Manners::default()), &[2, 3]).expect("nothing is broken"));
    let (runs, first) = runs();
    for seed in first..first + runs / 10 {
        let manners = Manners { interrupts: 2, strangers: 2, ..Manners::default() };
        let lines = saved(Peer::new(seed, manners), &[2, 3]).unwrap_or_else(|fault| panic!("seed {seed}: {fault}"));
        assert_eq!(without_sequences(lines), honest, "seed {seed}");
    }
}

#[test]
fn a_dump_that_is_refused_or_lost_is_an_error() {
    let (runs, first) = runs();
    for seed in first..first + runs / 10 {
        let refusing = Manners { refuses: 20, ..Manners::default() };
        match saved(Peer::new(seed, refusing), &[2]) {
            // Without an answer about root tables, a priority has those of the other too.
            Ok(lines) => assert!([32, 34, 36].contains(&lines.len()), "seed {seed}: {}", lines.len()),
            Err(Fault::Refused(refusal) | Fault::Cut(refusal)) => {
                assert!(["ENOMEM", "EPERM"].contains(&refusal.name().as_str()), "seed {seed}: {refusal}")
            }
            Err(fault) => panic!("seed {seed}: {fault}"),
        }
        let losing = Manners { loses: 40, ..Manners::default() };
        if let Ok(lines) = saved(Peer::new(seed, losing), &[2]) {
            assert_eq!(lines.len(), 32, "seed {seed}");
        }
    }
}

#[test]
fn a_dump_of_actions_without_rights_is_an_error() {
    for errno in [-1, -12] {
        let mut peer = Peer::new(1, Manners::default());
        peer.refused = Some((RTM_GETACTION, errno));
        assert!(matches!(saved(peer, &[2]), Err(Fault::Refused(_))), "error {errno}");
    }
    // The kernel lacks the kind.
    for errno in [-2, -22] {
        let mut peer = Peer::new(1, Manners::default());
        peer.refused = Some((RTM_GETACTION, errno));
        assert_eq!(saved(peer, &[2]).expect("others are dumped").len(), 32, "error {errno}");
    }
}

#[test]
fn an_interrupted_dump_is_repeated() {
    let honest = without_sequences(saved(Peer::new(1, Manners::default()), &[2, 3]).expect("nothing is broken"));
    let (runs, first) = runs();
    let mut repeated = 0;
    for seed in first..first + runs / 10 {
        match saved(Peer::new(seed, Manners { marks: 9, ..Manners::default() }), &[2, 3]) {
            Ok(lines) => {
                repeated += 1;
                assert_eq!(without_sequences(lines), honest, "seed {seed}");
            }
            Err(fault) => assert!(matches!(fault, Fault::Changing(8)), "seed {seed}: {fault}"),
        }
    }
    assert!(repeated > 0);
}

/// Says one thing each time that it is asked what was heard.
struct Chatter {
    says: Receipt,
    is_done: bool,
}

impl Transport for Chatter {
    fn port(&self) -> u32 {
        PORT
    }

    fn most(&self) -> usize {
        0
    }

    fn room(&self) -> usize {
        0
    }

    fn send(&mut self, _datagram: &[u8]) -> io::Result<usize> {
        Err(io::ErrorKind::Unsupported.into())
    }

    fn receive(&mut self, into: &mut Vec<u8>, _wait: Option<Duration>) -> io::Result<u32> {
        self.is_done = !self.is_done;
        match &self.says {
            _ if !self.is_done => Err(io::ErrorKind::TimedOut.into()),
            Err(errno) => Err(io::Error::from_raw_os_error(*errno)),
            Ok((sender, datagram)) => {
                *into = datagram.clone();
                Ok(*sender)
            }
        }
    }
}

#[test]
fn only_changes_of_what_is_dumped_count() {
    let dumps = |says: Receipt| {
        let mut listener = Listener::over(Chatter { says, is_done: false });
        match state_of(&mut Kernel::over(Peer::new(1, Manners::default())), &mut listener, &[2]) {
            Ok(_) => true,
            Err(Fault::Changing(8)) => false,
            Err(fault) => panic!("{fault}"),
        }
    };
    let qdisc = |index| object(RTM_NEWQDISC, index, 1 << 16, u32::MAX, "pfifo");
    let filter = |block| object(RTM_NEWTFILTER, -1, 1, block, "u32");
    assert!(dumps(Ok((0, qdisc(3)))), "another interface");
    assert!(dumps(Ok((0, filter(23)))), "a block of another interface");
    assert!(dumps(Ok((77, qdisc(2)))), "what isn't from the kernel");
    assert!(!dumps(Ok((0, qdisc(2)))), "this interface");
    assert!(!dumps(Ok((0, filter(22)))), "a block of this interface");
    assert!(!dumps(Ok((0, message(RTM_NEWACTION, 0, &[0; 4])))), "an action");
    assert!(!dumps(Err(105)), "lost notifications");
}

#[test]
fn broken_answers() {
    let (runs, first) = runs();
    for seed in first..first + runs {
        let mut random = Random(seed);
        let manners =
            Manners { breaks: 2 + random.below(60), interrupts: 9, loses: 50, strangers: 20, refuses: 20, marks: 0 };
        let _ = saved(Peer::new(seed, manners), &[2, 4]);
        let _ = Devices::of(&mut Kernel::over(Peer::new(seed, manners)));
        each_once(seed, manners, &mut random);
        clears_once(seed, manners);
        hears(seed, manners, &mut random);
    }
}

// Sends a stream: each request is taken at most once, and all of them if nothing failed.
fn each_once(seed: u64, manners: Manners, random: &mut Random) {
    let requests = requests(random);
    let bytes = stream_of(&requests);
    let Ok(stream) = Stream::of(&bytes, 4096, false) else { panic!("seed {seed}: a stream isn't read") };
    let peer = Peer::new(seed, manners);
    let taken = peer.taken.clone();
    let sent = send_all(&mut Kernel::over(peer), &stream, |_| ());
    assert!(taken.borrow().values().all(|times| *times == 1), "seed {seed}: something was sent twice");
    assert!(sent.is_err() || taken.borrow().len() == requests.len(), "seed {seed}: something wasn't sent");
}

fn clears_once(seed: u64, manners: Manners) {
    let peer = Peer::new(seed, manners);
    let taken = peer.taken.clone();
    let cleared = clear(&mut Kernel::over(peer), 2);
    assert!(taken.borrow().values().all(|times| *times == 1), "seed {seed}: something was deleted twice");
    assert!(
        cleared.is_err() || manners.breaks > 0 || taken.borrow().len() == 2,
        "seed {seed}: something wasn't deleted"
    );
}

// Notifications, whole and broken.
fn hears(seed: u64, manners: Manners, random: &mut Random) {
    let mut peer = Peer::new(seed, manners);
    let notices: Vec<Vec<u8>> =
        (0..random.below(20)).map(|_| object(RTM_NEWQDISC, 2, 1 << 16, u32::MAX, "tbf")).collect();
    peer.post(notices);
    if let Ok(heard) = Listener::over(peer).heard() {
        let _ = heard.is_change(&[2], &[22]);
    }
}

#[test]
fn streams() {
    let (runs, first) = runs();
    for seed in first..first + runs {
        let mut peer = Peer::new(seed, Manners::default());
        let bytes = stream_of(&requests(&mut Random(seed)));
        let broken = peer.broken(bytes);
        let _ = Stream::of(&broken, 4096, seed % 2 == 0);
    }
}

#[test]
fn nothing_of_a_stream_with_something_else_is_sent() {
    let whole = request_of(1 << 16);
    let is_taken = |messages: &[Vec<u8>], any| Stream::of(&stream_of(messages), 4096, any).is_ok();
    assert!(is_taken(std::slice::from_ref(&whole), false));
    assert!(
        is_taken(&[whole.clone(), link(2, "wan"), message(NLMSG_DONE, 0, &[])], false),
        "what a dump has besides is left out"
    );
    assert!(
        !is_taken(&[whole.clone(), request(RTM_NEWLINK, 0, &[0; 16])], false),
        "a request that changes an interface"
    );
    assert!(is_taken(&[whole.clone(), request(RTM_NEWLINK, 0, &[0; 16])], true), "with --any");
    assert!(!is_taken(&[whole, request(RTM_NEWQDISC, 0, &[0; 5000])], false), "a request that is too long");
}
