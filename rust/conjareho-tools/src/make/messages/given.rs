//! The netlink header and the packet that a line states for its message.

use serde_json::Value;

use crate::forms_text::ReadError;
use crate::line::{Line, TypeName};
use crate::make::lines::{NetlinkHeader, OUTGOING, PacketOf, packet_at};
use crate::make::messages::error::LineError;
use crate::make::messages::members::{missing, or_wrong};
use crate::tc_capture::{MessageType, Time};

const NO_TIME: Time = Time { seconds: 0, nanoseconds: 0 };

/// What a line says of its message. A message that is a line of its own says nothing of itself.
pub(crate) fn line_in(json: &Value) -> Result<Line, LineError> {
    if json.get("message").is_none() {
        return without_message(json).map_or_else(|| Ok(Line::default()), Err);
    }
    let line = Line::of(json).map_err(|_| LineError::Read(ReadError::NotJson { line: 1, column: 0 }))?;
    match line.stray() {
        Some(name) => Err(LineError::Unknown(name.to_owned())),
        None => Ok(line),
    }
}

/// The header and the packet of the message of a line.
pub(crate) fn given_of(line: &Line, message: &Value) -> Result<NetlinkHeader, LineError> {
    let (kind, holds) = type_in(line, message)?;
    let flags = or_wrong("flags", &line.header.flags, "a number from 0 to 65535")?.unwrap_or(0);
    let sequence = or_wrong("seq", &line.header.seq, "a number from 0 to 4294967295")?.unwrap_or(0);
    let port = or_wrong("portid", &line.header.portid, "a number from 0 to 4294967295")?.unwrap_or(0);
    Ok(NetlinkHeader { holds, kind, flags, sequence, port, packet: packet_of(line)? })
}

/// True if the line is an answer of the kernel.
#[must_use]
pub fn is_answer(json: &Value) -> bool {
    json.get("type").and_then(Value::as_str) == Some("NLMSG_ERROR")
}

// What a line is that `tcshow` writes and that holds no message.
fn without_message(json: &Value) -> Option<LineError> {
    let has = |name| json.get(name).is_some();
    if has("refused") {
        Some(LineError::Refused)
    } else if has("summary") {
        Some(LineError::Summary)
    } else if has("note") {
        Some(LineError::Note)
    } else {
        None
    }
}

// The packet of a line; without a number it is one of its own.
fn packet_of(line: &Line) -> Result<PacketOf, LineError> {
    let number = or_wrong("packet", &line.origin.packet, "the number of a packet")?;
    let time = or_wrong("time", &line.origin.time, "seconds, a point and nine digits")?.map_or(NO_TIME, |time| time.0);
    let packet_type =
        or_wrong("packet_type", &line.origin.packet_type, "a number from 0 to 65535")?.unwrap_or(OUTGOING);
    Ok(PacketOf { number, packet_type, ..packet_at(time) })
}

const TYPES: &str =
    "RTM_NEWQDISC, RTM_DELQDISC, RTM_GETQDISC, the same of TCLASS, TFILTER, ACTION or CHAIN, or NLMSG_ERROR";

// The message type, and what the payload is; a line without a type shows that by its header.
fn type_in(line: &Line, message: &Value) -> Result<(Option<u16>, MessageType), LineError> {
    match or_wrong("type", &line.header.kind, TYPES)?.and_then(TypeName::number) {
        Some((kind, holds)) => Ok((Some(kind), holds)),
        None if message.get("raw").is_some() => Err(missing("type", "a message type, since the message is raw")),
        None => Ok((None, holds_by_header(message))),
    }
}

// What a message of this JSON is: the header of an action message has no interface.
fn holds_by_header(message: &Value) -> MessageType {
    match message.get("header") {
        Some(header) if header.get("index").is_none() => MessageType::Action,
        _ => MessageType::Tc,
    }
}
