//! The kernel, what is heard of others' changes, and signals.

use super::compare::key_of;
use super::messages::{as_new, deletes, kind_of, replaces, type_of};
use super::named::named;
use crate::netlink::message::{
    NLM_F_DUMP, RTM_GETQDISC, RTM_NEWQDISC, RTM_NEWTCLASS, RTM_NEWTFILTER, Tcmsg, tc_request,
};
use crate::netlink::{Device, Devices, Dump, Fault, Kernel, Listener, Notice, Refusal, Transport, state_of};
use crate::save::save_of;
use crate::shown::lines_of;
use std::fmt;

/// How often the kernel is asked again for what changed meanwhile.
const MOST_TRIES: u32 = 8;

/// Why restoring ends before its end.
#[derive(Debug)]
pub(crate) enum Stop {
    /// The kernel refuses to do this.
    Refused { what: String, refusal: Refusal },
    /// A socket failed.
    Fault(Fault),
    /// A signal came.
    Signal(&'static str),
    /// Another program, with this port id, changed this; the kernel without a request, if it is 0.
    Other { port: u32, what: String },
    /// An interface isn't the one that it was.
    Moved(String),
    /// What is there isn't what is wanted.
    Differs(Vec<String>),
    /// There is no plan, since these can't be made.
    Unplanned(Vec<String>),
    /// Nobody said that it is to stay.
    Unconfirmed(String),
    /// The request that asks for this isn't whole, is about something that isn't to change, or deletes or changes what isn't there.
    NotAccepted(String),
}

impl From<Fault> for Stop {
    fn from(fault: Fault) -> Stop {
        Stop::Fault(fault)
    }
}

impl fmt::Display for Stop {
    fn fmt(&self, f: &mut fmt::Formatter<'_>) -> fmt::Result {
        match self {
            Stop::Refused { what, refusal } => write!(f, "the kernel refused to {what}: {refusal}"),
            Stop::Fault(fault) => fault.fmt(f),
            Stop::Signal(name) => write!(f, "{name} came"),
            Stop::Other { port: 0, what } => write!(f, "the kernel changed it meanwhile: {what}"),
            Stop::Other { port, what } => {
                write!(f, "another program (netlink port {port}) changed it meanwhile: {what}")
            }
            Stop::Moved(how) | Stop::Unconfirmed(how) => f.write_str(how),
            Stop::Unplanned(why) => f.write_str(&why.join("; ")),
            Stop::NotAccepted(what) => {
                write!(
                    f,
                    "the request to {what} isn't one for what is asked for, so it isn't sent: please report this, with what -n prints"
                )
            }
            Stop::Differs(how) => write!(f, "what is there isn't what was wanted: {}", how.join("; ")),
        }
    }
}

/// The signal that came, if one did.
pub(crate) type Signal<'s> = &'s dyn Fn() -> Option<&'static str>;

/// What restoring works with.
pub(crate) struct World<'s, T, L> {
    pub(crate) kernel: Kernel<T>,
    // Hears changes during a dump.
    dumps: Listener<L>,
    // Hears all changes from the dump of what was there before.
    watch: Listener<L>,
    signal: Signal<'s>,
}

/// The interfaces and shared blocks that others aren't to change meanwhile.
#[derive(Clone, Debug, Default)]
pub(crate) struct Place {
    pub(crate) devices: Vec<Device>,
    pub(crate) blocks: Vec<u32>,
}

impl Place {
    pub(crate) fn indices(&self) -> Vec<u32> {
        self.devices.iter().map(|device| device.index).collect()
    }

    /// What a request or a notification is about, with the names of interfaces.
    pub(crate) fn what_of(&self, message: &[u8]) -> String {
        let verb = if deletes(message) { "deleting " } else { "" };
        format!("{verb}{}", self.object_of(message))
    }

    /// What a request asks for: `make class htb 1:10 dev wan parent 1:1`.
    pub(crate) fn asked_by(&self, request: &[u8]) -> String {
        let verb = match (deletes(request), replaces(request)) {
            (true, _) => "delete",
            (_, true) => "change",
            _ => "make",
        };
        format!("{verb} {}", self.object_of(request))
    }

    fn object_of(&self, message: &[u8]) -> String {
        let new = as_new(message);
        let Some(key) = key_of(&new) else { return format!("a message of type {}", type_of(message)) };
        let text = named(&self.devices, key);
        let has_kind = matches!(type_of(&new), RTM_NEWQDISC | RTM_NEWTCLASS | RTM_NEWTFILTER);
        // As in lines, the kind is the second word.
        match (kind_of(message).filter(|kind| has_kind && !kind.is_empty()), text.split_once(' ')) {
            (Some(kind), Some((object, rest))) => format!("{object} {} {rest}", String::from_utf8_lossy(kind)),
            _ => text,
        }
    }
}

impl<'s, T: Transport, L: Transport> World<'s, T, L> {
    pub(crate) fn new(kernel: Kernel<T>, dumps: Listener<L>, watch: Listener<L>, signal: Signal<'s>) -> Self {
        World { kernel, dumps, watch, signal }
    }

    /// What interfaces have, from which on all changes are heard.
    pub(crate) fn first_dump(&mut self, interfaces: &[u32]) -> Result<Dump, Fault> {
        for _ in 0..MOST_TRIES {
            self.watch.heard()?;
            let dump = state_of(&mut self.kernel, &mut self.dumps, interfaces)?;
            if !self.watch.heard()?.is_change(interfaces, &dump.blocks) {
                return Ok(dump);
            }
        }
        Err(Fault::Changing(MOST_TRIES))
    }

    /// What interfaces have.
    pub(crate) fn dump(&mut self, interfaces: &[u32]) -> Result<Dump, Fault> {
        state_of(&mut self.kernel, &mut self.dumps, interfaces)
    }

    /// The lines of what interfaces have, without a head.
    pub(crate) fn lines(&mut self, interfaces: &[u32]) -> Result<String, Fault> {
        Ok(lines_of(&self.dump(interfaces)?.messages)?.text)
    }

    /// The qdiscs of all interfaces.
    pub(crate) fn qdiscs(&mut self) -> Result<Vec<Vec<u8>>, Fault> {
        for _ in 0..MOST_TRIES {
            match self.kernel.dump(&tc_request(RTM_GETQDISC, NLM_F_DUMP, Tcmsg::default())) {
                Err(Fault::Interrupted | Fault::Lost) => {}
                qdiscs => return qdiscs,
            }
        }
        Err(Fault::Changing(MOST_TRIES))
    }

    /// The signal that came, if one did.
    pub(crate) fn check_signal(&self) -> Result<(), Stop> {
        match (self.signal)() {
            Some(name) => Err(Stop::Signal(name)),
            None => Ok(()),
        }
    }

    /// The error is that another program changed something since the last look.
    pub(crate) fn look(&mut self, place: &Place) -> Result<(), Stop> {
        let ours = self.kernel.port();
        self.look_for(place, |port| port != 0 && port != ours)
    }

    /// The error is that something changed since the last look. Before the first request not even the kernel changes something because of one.
    pub(crate) fn look_before(&mut self, place: &Place) -> Result<(), Stop> {
        self.look_for(place, |_| true)
    }

    // The error is that somebody with such a port id changed something since the last look.
    fn look_for(&mut self, place: &Place, is_other: impl Fn(u32) -> bool) -> Result<(), Stop> {
        let heard = self.watch.heard()?;
        if heard.lost {
            return Err(Stop::Fault(Fault::Lost));
        }
        let is_others = |notice: &&Notice| is_other(notice.port) && notice.concerns(&place.indices(), &place.blocks);
        match heard.notices.iter().find(is_others) {
            Some(notice) => Err(Stop::Other { port: notice.port, what: place.what_of(&notice.message) }),
            None => Ok(()),
        }
    }

    /// An error if an interface has another name, index or address than it had.
    pub(crate) fn check_devices(&mut self, place: &Place) -> Result<(), Stop> {
        let devices = Devices::of(&mut self.kernel)?;
        for device in &place.devices {
            let (name, index) = (&device.name, device.index);
            let today = devices
                .at(index)
                .ok_or_else(|| Stop::Moved(format!("there is no interface {name} ({index}) any more")))?;
            if today.name != *name {
                return Err(Stop::Moved(format!("interface {index} was {name}, and is {} now", today.name)));
            }
            if today.mac != device.mac {
                return Err(Stop::Moved(format!(
                    "{name} has another MAC: {} for {}",
                    today.mac_text(),
                    device.mac_text()
                )));
            }
        }
        Ok(())
    }
}

/// The save of a dump of these interfaces, and whether the codec refuses a message of it.
pub(crate) fn text_of(dump: &Dump, interfaces: &[u32]) -> Result<(String, bool), Fault> {
    let devices: Vec<&Device> = interfaces.iter().filter_map(|index| dump.devices.at(*index)).collect();
    let shown = lines_of(&dump.messages)?;
    Ok((save_of(&devices, &dump.devices, &shown.text)?, shown.has_refused))
}
