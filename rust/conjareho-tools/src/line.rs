//! The line of JSON about a message: `tcshow --json` and `tcsave` write it, `tcmake`, `tcapply` and `tcshow` itself read it.
//!
//! ```json
//! {"time":"1764028801.250000000","packet":3,"type":"RTM_NEWQDISC","flags":2,"seq":1,"fits":true,"settled":true,"canonical":true,"message":{}}
//! ```
//!
//! [`Line`] is all of it but the message, in the order of its fields. Written, a member that is [`Member::Missing`] is left out. Read, each
//! is there, or missing, or [`Member::Wrong`], and who reads it says what is wrong: [`Line`] itself takes every object. The message is bytes,
//! shown by the proved forms: [`with_message`] appends its JSON.
#![deny(clippy::unwrap_used, clippy::indexing_slicing, clippy::panic, clippy::arithmetic_side_effects)]

mod answer;
mod fault;
mod member;
#[cfg(test)]
mod tests;
mod time;
mod verdict;

use std::collections::BTreeMap;

use serde::de::{Error as _, IgnoredAny};
use serde::{Deserialize, Deserializer, Serialize};
use serde_json::Value;

use crate::fallible::AllocError;
use crate::forms_json::{Form, Shown};
use crate::forms_kinds::{ACTION_MESSAGE, TC_MESSAGE, TcTables};
use crate::tc_capture::{MessageType, rtm_of};

pub(crate) use answer::{AnswerLine, Reason};
pub(crate) use fault::Fault;
pub(crate) use member::Member;
pub(crate) use time::Seconds;
pub(crate) use verdict::{Verdict, is_refused};

/// What a line says about its message.
#[derive(Default, Serialize, Deserialize)]
#[serde(default)]
pub(crate) struct Line {
    #[serde(flatten)]
    pub(crate) origin: Origin,
    #[serde(flatten)]
    pub(crate) header: Header,
    /// The message can be written: no payload has more than 65,531 bytes.
    #[serde(skip_serializing_if = "Member::is_missing")]
    pub(crate) fits: Member<bool>,
    /// Writing and reading don't change the message.
    #[serde(skip_serializing_if = "Member::is_missing")]
    pub(crate) settled: Member<bool>,
    /// The bytes are those that the message is written as.
    #[serde(skip_serializing_if = "Member::is_missing")]
    pub(crate) canonical: Member<bool>,
    #[serde(flatten)]
    pub(crate) fault: Fault,
    /// Read elsewhere, as JSON.
    #[serde(skip_serializing)]
    message: IgnoredAny,
    /// Members that no line has.
    #[serde(flatten)]
    unknown: BTreeMap<String, Value>,
}

/// The packet that a message came in.
#[derive(Default, Serialize, Deserialize)]
#[serde(default)]
pub(crate) struct Origin {
    /// The time of capture.
    #[serde(skip_serializing_if = "Member::is_missing")]
    pub(crate) time: Member<Seconds>,
    /// The packet's number in the capture, from 1.
    #[serde(skip_serializing_if = "Member::is_missing")]
    pub(crate) packet: Member<u64>,
    /// The packet type of the cooked header, unless it is `PACKET_OUTGOING`.
    #[serde(skip_serializing_if = "Member::is_missing")]
    pub(crate) packet_type: Member<u16>,
}

/// A netlink header (`struct nlmsghdr`) without its length.
#[derive(Default, Serialize, Deserialize)]
#[serde(default)]
pub(crate) struct Header {
    #[serde(rename = "type", skip_serializing_if = "Member::is_missing")]
    pub(crate) kind: Member<TypeName>,
    #[serde(skip_serializing_if = "Member::is_missing")]
    pub(crate) flags: Member<u16>,
    #[serde(skip_serializing_if = "Member::is_missing")]
    pub(crate) seq: Member<u32>,
    #[serde(skip_serializing_if = "Member::is_missing")]
    pub(crate) portid: Member<u32>,
}

/// The name of a message type, such as `RTM_NEWQDISC`. Only names of traffic control are read.
#[derive(Clone, Copy, PartialEq, Eq, Debug, Serialize)]
pub(crate) struct TypeName(pub(crate) &'static str);

impl<'de> Deserialize<'de> for TypeName {
    fn deserialize<D: Deserializer<'de>>(from: D) -> Result<TypeName, D::Error> {
        let name = String::deserialize(from)?;
        let mut all = TC_TYPES.filter_map(rtm_of).map(|rtm| rtm.name);
        all.find(|it| *it == name).map(TypeName).ok_or_else(|| D::Error::custom("no type of traffic control"))
    }
}

/// The numbers among which the types of traffic control are: `RTM_NEWQDISC` to `RTM_GETCHAIN` (`linux/rtnetlink.h`).
const TC_TYPES: std::ops::RangeInclusive<u16> = 36..=102;

impl TypeName {
    /// Its number (`nlmsg_type`), and what its messages hold. `None` for an answer of the kernel.
    pub(crate) fn number(self) -> Option<(u16, MessageType)> {
        TC_TYPES
            .filter_map(|number| Some((number, rtm_of(number)?)))
            .find(|(_, rtm)| rtm.name == self.0)
            .map(|(number, rtm)| (number, rtm.holds))
    }
}

impl Line {
    /// A line that says where a message comes from.
    pub(crate) fn from(origin: Origin, header: Header) -> Line {
        Line { origin, header, ..Line::default() }
    }

    /// What JSON says beside its member `message`. The error is that it is no object.
    pub(crate) fn of(json: &Value) -> Result<Line, serde_json::Error> {
        Line::deserialize(json)
    }

    /// The first member, by name, that this line may not have. Details of a fault are those of a refused message.
    pub(crate) fn stray(&self) -> Option<&str> {
        let unknown = self.unknown.keys().map(String::as_str).next();
        let detail = if self.fault.refused.is_missing() { self.fault.first_detail() } else { None };
        unknown.into_iter().chain(detail).min()
    }
}

/// A line, and as its last member the message. The text of the message is appended: as a `RawValue` it would be read once more.
pub(crate) fn with_message(line: &Line, holds: MessageType, payload: &[u8]) -> Result<String, AllocError> {
    let mut json = serde_json::to_string(line).map_err(|_| AllocError)?;
    json.pop();
    if json.len() > 1 {
        json.push(',');
    }
    json.push_str("\"message\":");
    json.push_str(&crate::jsontext::to_string(&shown(holds, payload))?);
    json.push('}');
    Ok(json)
}

/// The form of a message.
pub(crate) fn form_of(holds: MessageType) -> Form {
    match holds {
        MessageType::Tc => TC_MESSAGE,
        MessageType::Action => ACTION_MESSAGE,
    }
}

// A message as JSON: bytes that have no tree as hex.
fn shown(holds: MessageType, payload: &[u8]) -> Shown<'_, TcTables> {
    Shown { table: TcTables, form: form_of(holds), bytes: payload }
}
