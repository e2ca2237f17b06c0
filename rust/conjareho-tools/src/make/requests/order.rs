//! Requests in order: each after all that it needs.

use crate::user::prelude::*;

use crate::forms_json::Tables;
use crate::host::io::Write;
use crate::make::lines::{Encoding, NetlinkHeader, Output};
use crate::make::messages::{BuiltMessage, Forms};
use crate::make::requests::complaint::Complaint;
use crate::make::requests::facts::{DumpFacts, facts_of};
use crate::make::requests::lines::{
    Dumped, Lines, Reading, Remark, RemarkKind, Source, complain, lines_of, read_lines,
};
use crate::make::requests::now::{Counts, Single, now_of, singles_of, unlisted_in};
use crate::make::requests::restore::{Dump, dump_of, restored};
use crate::nla_frames::{NLA_TYPE_MASK, Nla, ParseableBytes};
use crate::plan::restored::{
    Dependencies, Fate, Item, Key, Named, Now, Order, Reason, Step, circle, dependencies_of, dependencies_of_actions,
    fate_of_action, has_action, ingress_of, made_by_filters, name_of_action, newest_first, offloaded_by, plan,
    shared_action,
};
use crate::restore::{Object, RestoreError, RootTable, actions_of_filter, notice_of, root_table};
use crate::streams::Stop;
use crate::tc_action_messages::{TcActionMessage, TcActionMessageAttribute};
use crate::tc_actions::{TcAction, TcActionAttribute};
use crate::tc_messages::TcMessage;

/// The request for what a line shows.
pub struct LineRequest {
    /// The number of the line, from 1.
    pub number: u64,
    /// The values of its netlink header.
    pub given: NetlinkHeader,
    /// The message after that.
    pub bytes: Vec<u8>,
}

impl LineRequest {
    /// The netlink message, with zeros up to a multiple of four.
    ///
    /// # Errors
    ///
    /// [`Stop::Write`] if it is too long, or has no message type.
    pub fn netlink(&self) -> Result<Vec<u8>, Stop> {
        let mut output = Output::new(Encoding::Stream);
        output.put(&self.given, &self.bytes).map_err(|_| Stop::Write)?;
        let mut bytes = Vec::new();
        output.write(&mut bytes)?;
        Ok(bytes)
    }
}

/// The requests that lines become.
pub struct Restored {
    /// The requests, each after the requests that it needs.
    pub requests: Vec<LineRequest>,
    /// Remarks on the lines.
    pub remarks: Vec<Remark>,
    /// True if something is wrong with all of them, so that there are no requests.
    pub is_void: bool,
}

// The dumps of lines, and the requests that restore them.
struct Requests {
    // What a plan has to know of each dump; its place is an index of `lines`.
    dependencies: Vec<Dependencies>,
    // The line of each dump, and its request if there is one.
    lines: Vec<Planned>,
    // Where the last filter of basic or bpf is among them, of each chain and priority.
    last: Vec<(Key, usize)>,
    // What isn't restored although there is a request, by the numbers of the lines.
    notices: Vec<(u64, String)>,
}

// A dump of a line.
struct Planned {
    // The number of the line.
    number: u64,
    // Its request.
    made: Option<BuiltMessage>,
}

// What all dumps show, and what there is now.
#[derive(Clone, Copy)]
struct Known<'a> {
    // The root tables of u32.
    roots: &'a [RootTable],
    // The interfaces that have ingress.
    ingress: &'a [i32],
    // The actions that dumps have by themselves.
    listed: &'a [Named],
    // The actions that only their filters can make.
    by_filters: &'a [Key],
    now: Option<&'a Now>,
    replaces_actions: bool,
}

impl Requests {
    // No dumps and no requests.
    fn new() -> Requests {
        Requests { dependencies: Vec::new(), lines: Vec::new(), last: Vec::new(), notices: Vec::new() }
    }

    // Keeps the request of a dump, or of each of its actions.
    fn keep(&mut self, known: Known<'_>, dump: &Dumped) -> Result<(), Complaint> {
        let kind = dump_of(dump.made.given.kind)?;
        if kind == Dump::Actions {
            let singles = singles_of(&dump.made, Counts::Kept)?;
            if !singles.is_empty() {
                return self.keep_actions(known, dump.number, &singles);
            }
        }
        let (fate, made) = fate_of(restored(known.roots, &dump.made))?;
        let fate = fate_by_actions(known, kind, &dump.made, fate)?;
        self.put(known, kind, dump.number, &dump.made, fate, made)
    }

    fn keep_actions(&mut self, known: Known<'_>, number: u64, singles: &[Single]) -> Result<(), Complaint> {
        for single in singles {
            let (fate, made) = fate_of(restored(known.roots, &single.made))?;
            let (fate, made) = fate_of_single(known, single, fate, made);
            self.put(known, Dump::Actions, number, &single.made, fate, made)?;
        }
        Ok(())
    }

    fn put(
        &mut self,
        known: Known<'_>,
        kind: Dump,
        number: u64,
        dump: &BuiltMessage,
        fate: Fate,
        made: Option<BuiltMessage>,
    ) -> Result<(), Complaint> {
        let place = self.lines.len();
        self.lines.try_push(Planned { number, made })?;
        match kind {
            Dump::Of(object) => {
                let message = TcMessage::parse(&dump.bytes)?;
                if let (Fate::Request, Some(notice)) = (&fate, notice_of(object, &message)) {
                    self.notices.try_push((number, crate::user::formatted(format_args!("{notice}"))?))?;
                }
                let group = newest_first(object, known.ingress, &message);
                let dependencies = dependencies_of(place, fate, object, known.ingress, &message)?;
                Ok(self.put_ranked(dependencies, group)?)
            }
            Dump::Actions => {
                let message = TcActionMessage::parse(&dump.bytes)?;
                let dependencies = dependencies_of_actions(place, fate, &message)?;
                Ok(self.dependencies.try_push(dependencies)?)
            }
        }
    }

    // Puts a dump. Of filters that the kernel keeps newest first the one dumped before waits for this one.
    fn put_ranked(&mut self, dump: Dependencies, group: Option<Key>) -> Result<(), AllocError> {
        let mut dump = dump;
        if let (Some(group), Fate::Request) = (group, &dump.fate) {
            let place = self.dependencies.len();
            if let Some(before) = self.rank(group, place)? {
                if let Some(newer) = self.dependencies.get_mut(before) {
                    newer.needs.try_extend(&dump.objects)?;
                }
            }
            dump.provides.try_extend(&dump.objects)?;
        }
        self.dependencies.try_push(dump)?;
        Ok(())
    }

    // Makes this dump the last of a group, and returns the last one before.
    fn rank(&mut self, group: Key, place: usize) -> Result<Option<usize>, AllocError> {
        for (known, last) in self.last.iter_mut() {
            if *known == group {
                let before = *last;
                *last = place;
                return Ok(Some(before));
            }
        }
        self.last.try_push((group, place))?;
        Ok(None)
    }
}

// The flags of a request that changes what is there: `NLM_F_REQUEST`, `NLM_F_ACK`, `NLM_F_REPLACE` and `NLM_F_CREATE` of `linux/netlink.h`.
const CHANGE_FLAGS: u16 = 0x505;

// The fate of an action, given the present actions, and its request.
fn fate_of_single(
    known: Known<'_>,
    single: &Single,
    fate: Fate,
    made: Option<BuiltMessage>,
) -> (Fate, Option<BuiltMessage>) {
    match (fate, made) {
        (Fate::Request, Some(made)) => {
            let (fate, made) = fate_by_now(known, single.name, made);
            (fate_by_filters(known, single.name, fate), made)
        }
        (fate, made) => (fate, made),
    }
}

fn fate_by_now(known: Known<'_>, name: Option<Named>, made: BuiltMessage) -> (Fate, Option<BuiltMessage>) {
    match (known.now, name) {
        (Some(now), Some(name)) => {
            let mut made = made;
            let fate = fate_of_action(now, known.replaces_actions, name, &made.bytes);
            if fate == Fate::Change {
                made.given.flags = CHANGE_FLAGS;
            }
            (fate, Some(made))
        }
        _ => (Fate::Request, Some(made)),
    }
}

// The fate of an action that is to be made or changed, or is there already. An action that only its filters can make is refused: one that is
// there has the offload flag of its filter, and Linux refuses it in a filter without the flag.
fn fate_by_filters(known: Known<'_>, name: Option<Named>, fate: Fate) -> Fate {
    match name {
        Some(name) if has_action(known.by_filters, name) => Fate::Refused(Reason::Offload(name)),
        _ => fate,
    }
}

// The fate of a filter, given the actions that it shares.
fn fate_by_actions(known: Known<'_>, kind: Dump, dump: &BuiltMessage, fate: Fate) -> Result<Fate, Complaint> {
    match (known.now, kind, &fate) {
        (Some(now), Dump::Of(Object::Filter), Fate::Request) => {
            let filter = TcMessage::parse(&dump.bytes)?;
            match unlisted_in(now, known.listed, &dump.given, filter)? {
                Some(name) => Ok(Fate::Refused(Reason::NoDump(name))),
                None => Ok(fate),
            }
        }
        _ => Ok(fate),
    }
}

// The fate of a dump regardless of others, and its request.
fn fate_of(made: Result<BuiltMessage, Complaint>) -> Result<(Fate, Option<BuiltMessage>), Complaint> {
    match made {
        Ok(made) => Ok((Fate::Request, Some(made))),
        Err(Complaint::Restore(RestoreError::MadeByKernel)) => Ok((Fate::Made, None)),
        Err(Complaint::Restore(error)) => Ok((Fate::Refused(Reason::Restore(error)), None)),
        Err(complaint) => Err(complaint),
    }
}

/// Makes the requests for what lines show, except for actions that exist already.
///
/// # Errors
///
/// A [`Stop`].
pub fn requests_by_now<T: Tables>(
    forms: Forms<T>,
    replaces_actions: bool,
    now: &[u8],
    lines: Lines,
) -> Result<Restored, Stop> {
    let mut there = lines_of_now(forms, None, now)?;
    let now = now_of(&mut there)?;
    let all = with_remarks(lines, there);
    requests_by(all, Some(&now), replaces_actions)
}

/// The requests of dumps, each with its netlink header, as `requests_of` makes them from lines. Lines are numbered from 1.
///
/// # Errors
///
/// A [`Stop`].
pub fn requests_of_dumps(dumps: Vec<(NetlinkHeader, Vec<u8>)>) -> Result<Restored, Stop> {
    let lines = lines_of(dumps);
    requests_by(lines, None, false)
}

/// The lines of what there is now.
///
/// # Errors
///
/// A [`Stop`].
pub fn lines_of_now<T: Tables>(forms: Forms<T>, index: Option<i32>, text: &[u8]) -> Result<Lines, Stop> {
    let reading = Reading { source: Source::Now, index, names: None };
    let mut reader = text;
    read_lines(forms, reading, &mut reader)
}

// Lines, with what is said of others.
fn with_remarks(lines: Lines, others: Lines) -> Lines {
    let mut lines = lines;
    lines.is_void |= others.is_void;
    lines.remarks.extend(others.remarks);
    lines
}

/// The requests of what lines hold.
///
/// # Errors
///
/// A [`Stop`].
pub fn requests_by(lines: Lines, now: Option<&Now>, replaces_actions: bool) -> Result<Restored, Stop> {
    let Lines { dumps, mut remarks, is_void, .. } = lines;
    if dumps.is_empty() {
        return Ok(Restored { requests: Vec::new(), remarks, is_void });
    }
    let mut requests = Requests::new();
    keep_all(&dumps, now, replaces_actions, &mut requests, &mut remarks)?;
    let Requests { dependencies, lines, notices, .. } = requests;
    for (number, notice) in notices {
        say(&mut remarks, number, RemarkKind::Notice, notice)?;
    }
    let plan = plan(dependencies)?;
    let is_void = say_left(&lines, &plan.unordered, &mut remarks)? || is_void;
    let mut requests = requests_in_order(lines, &plan.sorted, &mut remarks)?;
    if is_void {
        requests.clear();
    }
    Ok(Restored { requests, remarks, is_void })
}

// Keeps the request of each dump.
fn keep_all(
    dumps: &[Dumped],
    now: Option<&Now>,
    replaces_actions: bool,
    requests: &mut Requests,
    remarks: &mut Vec<Remark>,
) -> Result<(), AllocError> {
    let DumpFacts { roots, ingress, listed, shared, offloaded } = facts_of(dumps, remarks);
    let by_filters = made_by_filters(shared, &offloaded);
    let known =
        Known { roots: &roots, ingress: &ingress, listed: &listed, by_filters: &by_filters, now, replaces_actions };
    for dump in dumps {
        if let Err(complaint) = requests.keep(known, dump) {
            complain(Source::Wanted, dump.number, &complaint, remarks);
        }
    }
    Ok(())
}

fn say(remarks: &mut Vec<Remark>, number: u64, kind: RemarkKind, text: String) -> Result<(), AllocError> {
    remarks.try_push(Remark { source: Source::Wanted, number, kind, text })?;
    Ok(())
}

// Says why each of these isn't made. True if nothing may be made then.
fn say_left(lines: &[Planned], left: &[Step<Item, Key>], remarks: &mut Vec<Remark>) -> Result<bool, AllocError> {
    let mut is_void = false;
    if !left.is_empty() {
        let around = circle(left)?;
        for step in left {
            let reason = reason_of(&step.item, &around.unordered);
            is_void = is_void || is_of_all(reason);
            say_reason(lines, step.item.place, reason, remarks)?;
        }
    }
    Ok(is_void)
}

// True for a reason for which no request at all is made: an action can't be changed, or not be made by its own request.
fn is_of_all(reason: &Reason) -> bool {
    matches!(reason, Reason::Held(_) | Reason::NoDump(_) | Reason::Offload(_))
}

fn say_reason(lines: &[Planned], place: usize, reason: &Reason, remarks: &mut Vec<Remark>) -> Result<(), AllocError> {
    if let Some(planned) = lines.get(place) {
        let text = crate::user::formatted(format_args!("{reason}"))?;
        say(remarks, planned.number, RemarkKind::Complaint, text)?;
    }
    Ok(())
}

// Why a dump isn't made: its own reason, or that something it needs isn't made, which may need the dump in turn.
fn reason_of<'a>(item: &'a Item, around: &[Step<usize, Key>]) -> &'a Reason {
    match &item.fate {
        Fate::Refused(reason) => reason,
        _ => {
            if is_around(item.place, around) {
                &Reason::Circle
            } else {
                &Reason::Needs
            }
        }
    }
}

fn is_around(place: usize, around: &[Step<usize, Key>]) -> bool {
    for step in around {
        if step.item == place {
            return true;
        }
    }
    false
}

/// The notice on a dump that another request makes.
pub const MADE_BY_ANOTHER: &str = "made by another request";

// The notice on an action that is there as it is wanted.
const THERE: &str = "there already";

// The requests in their order, and notices on what needs none.
fn requests_in_order(
    lines: Vec<Planned>,
    order: &[Step<Item, Key>],
    remarks: &mut Vec<Remark>,
) -> Result<Vec<LineRequest>, AllocError> {
    let mut lines = lines;
    let mut requests = Vec::new();
    for step in order {
        if let Some(planned) = lines.get_mut(step.item.place) {
            match &step.item.fate {
                Fate::Request | Fate::Change => put_request(planned, &mut requests)?,
                Fate::There => say_made(planned.number, THERE, remarks)?,
                Fate::Made | Fate::Refused(_) => say_made(planned.number, MADE_BY_ANOTHER, remarks)?,
            }
        }
    }
    Ok(requests)
}

fn say_made(number: u64, text: &str, remarks: &mut Vec<Remark>) -> Result<(), AllocError> {
    say(remarks, number, RemarkKind::Made, fallible::text(text)?)
}

// Puts the request of a line.
fn put_request(planned: &mut Planned, requests: &mut Vec<LineRequest>) -> Result<(), AllocError> {
    if let Some(made) = planned.made.take() {
        requests.try_push(LineRequest { number: planned.number, given: made.given, bytes: made.bytes })?;
    }
    Ok(())
}
