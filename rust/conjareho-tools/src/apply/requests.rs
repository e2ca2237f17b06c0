//! The requests that make what lines or dumps show: those that `tcmake --request --stream` makes of the same lines.

use super::messages::payload_of;
use crate::forms_kinds::{ACTION_MESSAGE, TC_MESSAGE, TcTables};
use crate::netlink::message::{Header, header_of, is_action};
use crate::streams::Stop;
use crate::tc_capture::{MessageType, Time};
use crate::make::program::order::{RequestOptions, requests_of};
use crate::make::lines::{NetlinkHeader, packet_at};
use crate::make::messages::Forms;
use crate::make::requests::lines::RemarkKind;
use crate::make::requests::order::{Restored, requests_of_dumps};
use std::collections::BTreeSet;

/// The head of a save, a line before those that complaints number.
pub(crate) const LINES_BEFORE: u64 = 1;

/// What is to be made.
#[derive(Clone, Copy, Default, Debug)]
pub(crate) struct Asked<'a> {
    /// A save, or lines of JSON without a head.
    pub(crate) text: &'a str,
    /// The interfaces of today by the names of the save's head.
    pub(crate) names: Option<&'a [(u32, &'a str)]>,
    /// The interface of all lines instead of theirs.
    pub(crate) index: Option<u32>,
}

/// Requests, and what is said of lines.
#[derive(Clone, PartialEq, Eq, Default, Debug)]
pub(crate) struct Made {
    pub(crate) requests: Vec<Vec<u8>>,
    /// What can't be made, with the numbers of the lines.
    pub(crate) complaints: Vec<String>,
    /// The numbers of these lines.
    pub(crate) unmade: BTreeSet<u64>,
    /// What is made, and what of it no dump shows.
    pub(crate) notices: Vec<String>,
    /// Nothing may be sent, not even what can be made.
    pub(crate) is_void: bool,
}

/// The requests that make what lines say.
pub(crate) fn requests(wanted: &Asked<'_>) -> Made {
    let forms = Forms { table: TcTables, tc: TC_MESSAGE, action: ACTION_MESSAGE };
    let options = RequestOptions {
        index: wanted.index.and_then(|index| i32::try_from(index).ok()),
        now: None,
        plans: false,
        replaces_actions: false,
        names: wanted.names,
    };
    let restored = requests_of(forms, &options, &mut wanted.text.as_bytes());
    restored.and_then(|restored| planned(restored, 0)).unwrap_or_else(|_| no_memory())
}

/// The requests that make what was dumped: those of its lines in a save, whose numbers complaints have.
pub(crate) fn requests_of_dump(messages: &[Vec<u8>]) -> Made {
    requests_of_dumps(dumps_of(messages))
        .and_then(|restored| planned(restored, LINES_BEFORE))
        .unwrap_or_else(|_| no_memory())
}

/// Messages, each as its netlink header and what follows it.
pub(crate) fn dumps_of(messages: &[Vec<u8>]) -> Vec<(NetlinkHeader, Vec<u8>)> {
    messages.iter().filter_map(|message| Some((given_of(message)?, payload_of(message).to_vec()))).collect()
}

// What the netlink header of a dumped message has.
fn given_of(message: &[u8]) -> Option<NetlinkHeader> {
    let Header { kind, flags, sequence, port, .. } = header_of(message)?;
    let holds = if is_action(kind) { MessageType::Action } else { MessageType::Tc };
    let packet = packet_at(Time { seconds: 0, nanoseconds: 0 });
    Some(NetlinkHeader { holds, kind: Some(kind), flags, sequence, port, packet })
}

fn no_memory() -> Made {
    Made { complaints: vec!["out of memory".to_string()], is_void: true, ..Made::default() }
}

// The requests, and what is said of lines, of which there are some before the first.
fn planned(restored: Restored, lines_before: u64) -> Result<Made, Stop> {
    let mut plan = Made { is_void: restored.is_void, ..Made::default() };
    for remark in &restored.remarks {
        let number = remark.number + lines_before;
        let place = if remark.number == 0 { String::new() } else { format!("line {number}: ") };
        let said = format!("{place}{}", remark.text);
        match remark.kind {
            RemarkKind::Complaint => {
                plan.complaints.push(said);
                plan.unmade.insert(number);
            }
            RemarkKind::Notice => plan.notices.push(said),
            RemarkKind::Made => {}
        }
    }
    for request in &restored.requests {
        plan.requests.push(request.netlink()?);
    }
    Ok(plan)
}
