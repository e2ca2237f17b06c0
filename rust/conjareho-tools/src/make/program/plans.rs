//! The requests that lead from what there is now to what is wanted.

use crate::user::prelude::*;

use crate::forms_json::Tables;
use crate::host::io::BufRead;
use crate::make::lines::{NetlinkHeader, packet_at};
use crate::make::messages::{BuiltMessage, Forms};
use crate::make::program::plan_complaint::PlanComplaint;
use crate::make::requests::blocks::blocks_of;
use crate::make::requests::complaint::Complaint;
use crate::make::requests::lines::{
    Dumped, Lines, Reading, Remark, Source, complain, has_complaint, lines_of, read_lines,
};
use crate::make::requests::order::{LineRequest, Restored};
use crate::make::requests::restore::{Dump, dump_of};
use crate::nla_frames::ParseableBytes;
use crate::plan::objects::{
    DELETE_FLAGS, Dump as ParsedDump, Label, Model, PlanRequest, Planned, State, StateError, model_between,
    plan_between, state_after, state_of,
};
use crate::restore::RTM_NEWACTION;
use crate::streams::Stop;
use crate::tc_action_messages::TcActionMessage;
use crate::tc_capture::{MessageType, Time};
use crate::tc_changes::{Key, Plan, PlanError, Rules};
use crate::tc_messages::TcMessage;
use std::collections::HashMap;

// The number of the line of each object.
type Numbers = HashMap<Key, u64>;

// The dumps of lines, and the numbers of these lines.
struct Parsed {
    dumps: Vec<ParsedDump>,
    numbers: Vec<u64>,
}

/// The requests that lead from the present dumps to the wanted ones, each dump with its netlink header. Lines are numbered from 1. `rules` has
/// the changes that the kernel makes in place. Only the interfaces, the blocks and the actions change that a wanted dump or one of `keys` is of:
/// all else stays. There are no requests if something is wrong with a dump, or if something can't be made.
///
/// # Errors
///
/// A [`Stop`].
pub fn plan_of_dumps<R: Rules>(
    rules: &R,
    keys: &[Key],
    now: Vec<(NetlinkHeader, Vec<u8>)>,
    want: Vec<(NetlinkHeader, Vec<u8>)>,
) -> Result<Restored, Stop> {
    let now = lines_of(now);
    let want = lines_of(want);
    plan_by(rules, keys, now, want)
}

/// The wanted lines. One of an interface that the present lines aren't of is wrong, so that no other interface loses what it has.
pub(crate) fn of_interfaces(now: &Lines, want: Lines) -> Result<Lines, AllocError> {
    let known = interfaces_of(now)?;
    let mut others = Vec::new();
    for dump in &want.dumps {
        if let Some(index) = interface_of(&dump.made) {
            if !known.is_empty() && !known.contains(&index) {
                others.try_push((dump.number, index))?;
            }
        }
    }
    let mut want = want;
    for (number, index) in others {
        want.fail_with(Source::Wanted, number, &Complaint::OtherInterface(index))?;
    }
    Ok(want)
}

// The interfaces of lines: those of their dumps, and those in the first line of a save. None if there is neither.
fn interfaces_of(lines: &Lines) -> Result<Vec<i32>, AllocError> {
    let mut known = Vec::new();
    if let Some(devices) = &lines.devices {
        known.try_extend(devices)?;
    }
    for dump in &lines.dumps {
        if let Some(index) = interface_of(&dump.made) {
            if !known.contains(&index) {
                known.try_push(index)?;
            }
        }
    }
    Ok(known)
}

/// The interfaces of which something is wanted, or that are in the first line of the save, and the blocks that only these have now, as keys.
pub(crate) fn named_by(now: &Lines, want: &Lines) -> Result<Vec<Key>, AllocError> {
    let named = interfaces_of(want)?;
    let mut keys = Vec::new();
    for index in &named {
        keys.try_push(Key::Place { index: *index, parent: 0 })?;
    }
    let mut own = Vec::new();
    let mut others = Vec::new();
    for dump in &now.dumps {
        if let Some(index) = interface_of(&dump.made) {
            let blocks = blocks_of(&dump.made)?;
            if named.contains(&index) {
                own.try_extend(&blocks)?;
            } else {
                others.try_extend(&blocks)?;
            }
        }
    }
    for number in own {
        if !others.contains(&number) {
            keys.try_push(Key::Block { number })?;
        }
    }
    Ok(keys)
}

// The interface of a dump (`tcm_ifindex`). Actions have none, nor has what is in a block that interfaces share.
fn interface_of(made: &BuiltMessage) -> Option<i32> {
    match (made.given.holds, made.bytes.as_slice()) {
        (MessageType::Tc, [_, _, _, _, a, b, c, d, ..]) => {
            let index = i32::from_le_bytes([*a, *b, *c, *d]);
            if index == -1 { None } else { Some(index) }
        }
        _ => None,
    }
}

/// The requests that lead from the present lines to the wanted ones, using the changes that the kernel makes in place.
pub(crate) fn plan_by<R: Rules>(rules: &R, keys: &[Key], now: Lines, want: Lines) -> Result<Restored, Stop> {
    let is_void = now.is_void || want.is_void;
    let mut remarks = Vec::new();
    let requests = requests_between(rules, keys, now, want, &mut remarks)?;
    Ok(restored_by(requests, remarks, is_void))
}

// These requests, or none if something is wrong.
fn restored_by(requests: Vec<LineRequest>, remarks: Vec<Remark>, is_void: bool) -> Restored {
    if has_complaint(&remarks) || is_void {
        return Restored { requests: Vec::new(), remarks, is_void: true };
    }
    Restored { requests, remarks, is_void: false }
}

// The requests of a plan between what lines show. What is wrong is said.
fn requests_between<R: Rules>(
    rules: &R,
    keys: &[Key],
    now: Lines,
    want: Lines,
    remarks: &mut Vec<Remark>,
) -> Result<Vec<LineRequest>, Stop> {
    let found = state_in(Source::Now, None, now, remarks)?;
    match found {
        Some(shown) => requests_after(rules, keys, &shown.0, &shown.1, want, remarks),
        None => {
            state_in(Source::Wanted, None, want, remarks)?;
            Ok(Vec::new())
        }
    }
}

// The requests of a plan from a state to what lines show.
fn requests_after<R: Rules>(
    rules: &R,
    keys: &[Key],
    now: &State,
    was: &Numbers,
    want: Lines,
    remarks: &mut Vec<Remark>,
) -> Result<Vec<LineRequest>, Stop> {
    let found = state_in(Source::Wanted, Some(now), want, remarks)?;
    match found {
        Some(shown) => {
            let (want, is) = shown;
            Ok(requests_to(rules, keys, now, was, want, &is, remarks)?)
        }
        None => Ok(Vec::new()),
    }
}

// The requests of a plan between states, with the numbers of lines. Why there is none is said.
fn requests_to<R: Rules>(
    rules: &R,
    keys: &[Key],
    now: &State,
    was: &Numbers,
    want: State,
    is: &Numbers,
    remarks: &mut Vec<Remark>,
) -> Result<Vec<LineRequest>, AllocError> {
    match plan_between(rules, keys, now, want) {
        Ok(planned) => Ok(line_requests(planned, was, is, remarks)?),
        Err(PlanError::OutOfMemory) => Err(AllocError),
        Err(PlanError::State(key) | PlanError::Weak(key)) => {
            complain(Source::Now, number_of(&key, was), &PlanComplaint::Unready(Label(key)), remarks);
            Ok(Vec::new())
        }
        Err(PlanError::Wanted(key)) => {
            complain(Source::Wanted, number_of(&key, is), &PlanComplaint::Unready(Label(key)), remarks);
            Ok(Vec::new())
        }
        Err(PlanError::Elsewhere(key)) => {
            complain(Source::Now, number_of(&key, was), &PlanComplaint::Elsewhere(Label(key)), remarks);
            Ok(Vec::new())
        }
    }
}

// The number of the line of an object, or 0.
fn number_of(key: &Key, numbers: &Numbers) -> u64 {
    numbers.get(key).copied().unwrap_or(0)
}

/// The state that dumps show, each with its netlink header; `None` if something is wrong with one. After another state, qdiscs whose handles the kernel
/// chose have the handles that the same places have there.
///
/// # Errors
///
/// A [`Stop`].
pub fn state_of_dumps(there: Option<&State>, dumps: Vec<(NetlinkHeader, Vec<u8>)>) -> Result<Option<State>, Stop> {
    let lines = lines_of(dumps);
    let is_void = lines.is_void;
    let mut remarks = Vec::new();
    let found = state_in(Source::Now, there, lines, &mut remarks)?;
    Ok(state_alone(found).filter(|_| !is_void && !has_complaint(&remarks)))
}

/// The model of a kernel that goes through the steps of the plan of [`plan_of_dumps`]; `None` if there is no plan.
///
/// # Errors
///
/// A [`Stop`].
pub fn model_of_dumps<R: Rules>(
    rules: &R,
    keys: &[Key],
    now: Vec<(NetlinkHeader, Vec<u8>)>,
    want: Vec<(NetlinkHeader, Vec<u8>)>,
) -> Result<Option<Model>, Stop> {
    let Some(now) = state_of_dumps(None, now)? else { return Ok(None) };
    let Some(want) = state_of_dumps(Some(&now), want)? else { return Ok(None) };
    match model_between(rules, keys, &now, &want) {
        Ok(model) => Ok(model),
        Err(PlanError::OutOfMemory) => Err(Stop::from(AllocError)),
        Err(_) => Ok(None),
    }
}

/// The state that lines show.
pub struct LineState {
    /// `None` if something is wrong with a line.
    pub state: Option<State>,
    /// The names of interfaces that a save has, by index.
    pub names: Vec<(u32, String)>,
    /// Remarks on the lines.
    pub remarks: Vec<Remark>,
}

/// The state that lines of JSON show, which are a whole dump or a save. After another state, qdiscs whose handles the kernel chose have the
/// handles that the same places have there.
///
/// # Errors
///
/// A [`Stop`].
pub fn state_of_lines<T: Tables, R: BufRead>(
    forms: Forms<T>,
    there: Option<&State>,
    reader: &mut R,
) -> Result<LineState, Stop> {
    let reading = Reading { source: Source::Wanted, index: None, names: None };
    let mut lines = read_lines(forms, reading, reader)?;
    let names = match lines.names.take() {
        Some(names) => names,
        None => Vec::new(),
    };
    let is_void = lines.is_void;
    let mut remarks = Vec::new();
    let found = state_in(Source::Wanted, there, lines, &mut remarks)?;
    let state = if is_void || has_complaint(&remarks) { None } else { state_alone(found) };
    Ok(LineState { state, names, remarks })
}

// The state without the numbers of lines.
fn state_alone(found: Option<(State, Numbers)>) -> Option<State> {
    let (state, _numbers) = found?;
    Some(state)
}

// The state that lines show, and the numbers of their lines. What is wrong with them is said.
fn state_in(
    source: Source,
    there: Option<&State>,
    lines: Lines,
    remarks: &mut Vec<Remark>,
) -> Result<Option<(State, Numbers)>, AllocError> {
    let Lines { dumps, remarks: said, .. } = lines;
    remarks.extend(said);
    let parsed = parsed_dumps(source, &dumps, remarks)?;
    state_by(source, there, parsed, remarks)
}

// The dumps of lines. A line that has none is wrong.
fn parsed_dumps(source: Source, dumps: &[Dumped], remarks: &mut Vec<Remark>) -> Result<Parsed, AllocError> {
    let mut parsed = Parsed { dumps: Vec::new(), numbers: Vec::new() };
    for dump in dumps {
        parsed = with_dump(source, dump, parsed, remarks)?;
    }
    Ok(parsed)
}

// Dumps, and that of one more line.
fn with_dump(source: Source, dump: &Dumped, parsed: Parsed, remarks: &mut Vec<Remark>) -> Result<Parsed, AllocError> {
    match parsed_dump(&dump.made) {
        Ok(shown) => with_shown(parsed, shown, dump.number),
        Err(complaint) => {
            complain(source, dump.number, &complaint, remarks);
            Ok(parsed)
        }
    }
}

// Dumps, and one more.
fn with_shown(parsed: Parsed, shown: ParsedDump, number: u64) -> Result<Parsed, AllocError> {
    let mut parsed = parsed;
    parsed.dumps.try_push(shown)?;
    parsed.numbers.try_push(number)?;
    Ok(parsed)
}

// The state that dumps show, and the numbers of their lines.
fn state_by(
    source: Source,
    there: Option<&State>,
    parsed: Parsed,
    remarks: &mut Vec<Remark>,
) -> Result<Option<(State, Numbers)>, AllocError> {
    let Parsed { dumps, numbers } = parsed;
    match state_shown(there, dumps) {
        Ok(state) => {
            let numbers = numbers_of(&state, &numbers)?;
            Ok(Some((state, numbers)))
        }
        Err(StateError::OutOfMemory) => Err(AllocError),
        Err(error) => {
            let number = number_at(&numbers, error.place());
            complain(source, number, &PlanComplaint::State(error), remarks);
            Ok(None)
        }
    }
}

fn state_shown(there: Option<&State>, dumps: Vec<ParsedDump>) -> Result<State, StateError> {
    match there {
        Some(now) => state_after(dumps, now),
        None => state_of(dumps),
    }
}

// `NLM_F_DUMP_INTR` of `linux/netlink.h`.
const NLM_F_DUMP_INTR: u16 = 0x10;

fn parsed_dump(made: &BuiltMessage) -> Result<ParsedDump, Complaint> {
    if made.given.flags & NLM_F_DUMP_INTR != 0 {
        return Err(Complaint::Interrupted);
    }
    let dump = dump_of(made.given.kind)?;
    match dump {
        Dump::Of(object) => {
            let message = TcMessage::parse(&made.bytes)?;
            Ok(ParsedDump::Of(object, message))
        }
        Dump::Actions => {
            let actions = TcActionMessage::parse(&made.bytes)?;
            Ok(ParsedDump::Actions(actions))
        }
    }
}

fn number_at(numbers: &[u64], place: Option<usize>) -> u64 {
    match place {
        Some(place) => numbers.get(place).copied().unwrap_or(0),
        None => 0,
    }
}

fn numbers_of(state: &State, numbers: &[u64]) -> Result<Numbers, AllocError> {
    let mut found = HashMap::new();
    for (object, origin) in state.objects.iter().zip(state.origins.iter()) {
        found.insert(object.key, number_at(numbers, Some(origin.place)));
    }
    Ok(found)
}

// The requests of a plan, with the numbers of lines. What can't be made is said.
fn line_requests(
    planned: Planned,
    was: &Numbers,
    is: &Numbers,
    remarks: &mut Vec<Remark>,
) -> Result<Vec<LineRequest>, AllocError> {
    let Planned { plan, requests } = planned;
    match plan {
        Plan::Steps(_) => requests_sent(requests, was, is),
        Plan::Refused(keys) => {
            say_unmade(&keys, is, remarks)?;
            Ok(Vec::new())
        }
    }
}

// That the objects of these keys can't be made.
fn say_unmade(keys: &[Key], is: &Numbers, remarks: &mut Vec<Remark>) -> Result<(), AllocError> {
    for key in keys {
        let number = number_of(key, is);
        let complaint = PlanComplaint::Unmade(Label(*key));
        complain(Source::Wanted, number, &complaint, remarks);
    }
    Ok(())
}

// Requests of a plan, with the numbers of lines.
fn requests_sent(requests: Vec<PlanRequest>, was: &Numbers, is: &Numbers) -> Result<Vec<LineRequest>, AllocError> {
    let mut made = Vec::new();
    for request in requests {
        made.try_push(line_request(was, is, request))?;
    }
    Ok(made)
}

// `RTM_DELACTION` of `linux/rtnetlink.h`.
const RTM_DELACTION: u16 = 49;

// A request, with the number of the line of now that it deletes, or of the line that is wanted.
fn line_request(was: &Numbers, is: &Numbers, request: PlanRequest) -> LineRequest {
    let numbers = if request.flags == DELETE_FLAGS { was } else { is };
    let holds = match request.message_type {
        RTM_NEWACTION | RTM_DELACTION => MessageType::Action,
        _ => MessageType::Tc,
    };
    LineRequest {
        number: number_of(&request.key, numbers),
        given: NetlinkHeader {
            holds,
            kind: Some(request.message_type),
            flags: request.flags,
            sequence: 0,
            port: 0,
            packet: packet_at(Time { seconds: 0, nanoseconds: 0 }),
        },
        bytes: request.message,
    }
}
