//! Lines of an input, and the dumps in them.

use std::io::BufRead;

use serde_json::Value;

use crate::fallible::AllocError;
use crate::forms_json::Tables;
use crate::make::lines::{LineContent, LineStatus, NetlinkHeader, content_of, next_line};
use crate::make::messages::{
    Actual, BuiltMessage, Forms, LineError, Making, is_answer, is_of_save, json_in, made_of_json,
};
use crate::make::requests::complaint::Complaint;
use crate::make::requests::names::{Interfaces, mapped};
pub use crate::make::requests::remarks::{Remark, RemarkKind, Source, complain, has_complaint};
use crate::make::requests::save::{Names, Save};
use crate::streams::Stop;
use crate::tc_capture::MessageType;

/// A dump, and the number of its line.
pub struct Dumped {
    pub number: u64,
    pub made: BuiltMessage,
}

/// The messages of lines, and remarks on them.
#[derive(Default)]
pub struct Lines {
    pub dumps: Vec<Dumped>,
    pub remarks: Vec<Remark>,
    /// True if something is wrong with all of them.
    pub is_void: bool,
    /// The names of interfaces, if the first line of a save has them.
    pub names: Option<Names>,
    /// The interfaces that they are of, if the first line of a save has them.
    pub devices: Option<Vec<i32>>,
}

/// How lines are read.
#[derive(Clone, Copy)]
pub struct Reading<'a> {
    pub source: Source,
    /// The interface of dumps, instead of their own.
    pub index: Option<i32>,
    /// The interfaces of now.
    pub names: Option<&'a [(u32, &'a str)]>,
}

impl Lines {
    /// Keeps what is wrong with a line.
    ///
    /// # Errors
    ///
    /// Memory ran out, also for the line.
    pub fn fail_with(&mut self, source: Source, number: u64, complaint: &Complaint) -> Result<(), AllocError> {
        if complaint.is_no_memory() {
            return Err(AllocError);
        }
        self.is_void = self.is_void || complaint.is_of_all() || source == Source::Now;
        complain(source, number, complaint, &mut self.remarks);
        Ok(())
    }
}

/// Dumps as lines, which are numbered from 1.
#[must_use]
pub fn lines_of(dumps: Vec<(NetlinkHeader, Vec<u8>)>) -> Lines {
    let made = dumps.into_iter().map(|(given, bytes)| BuiltMessage { given, bytes, settled: Vec::new() });
    Lines { dumps: (1..).zip(made).map(|(number, made)| Dumped { number, made }).collect(), ..Lines::default() }
}

/// Reads all lines of an input, and keeps what is dumped.
///
/// # Errors
///
/// A [`Stop`].
pub fn read_lines<T: Tables, R: BufRead>(forms: Forms<T>, reading: Reading<'_>, reader: &mut R) -> Result<Lines, Stop> {
    let mut lines = Lines::default();
    let mut save = Save::new();
    for number in 1.. {
        let mut line = Vec::new();
        let dump = match next_line(reader, &mut line)? {
            LineStatus::End => break,
            LineStatus::TooLong => Err(without_json(&mut save, number, LineError::LongLine)),
            LineStatus::Whole => dump_in(forms, reading, &mut save, line, number),
        };
        match dump {
            Ok(made) => lines.dumps.extend(made.map(|made| Dumped { number, made })),
            Err(complaint) => lines.fail_with(reading.source, number, &complaint)?,
        }
    }
    if let Some((number, fault)) = save.fault_at_end() {
        lines.fail_with(reading.source, number, &Complaint::Save(fault))?;
    }
    if reading.names.is_some() && save.names().is_none() {
        lines.fail_with(reading.source, 1, &Complaint::NoNames)?;
    }
    let (names, devices) = save.into_interfaces();
    lines.devices = devices.map(|devices| devices_now(reading, names.as_ref(), &devices));
    lines.names = names;
    Ok(lines)
}

// The present indices of interfaces that a save is of, without those that aren't there.
fn devices_now(reading: Reading<'_>, names: Option<&Names>, devices: &[i32]) -> Vec<i32> {
    let now = |device: &i32| match (reading.names, names) {
        (Some(now), Some(saved)) => Interfaces { saved, now }.present(*device),
        _ => Some(reading.index.unwrap_or(*device)),
    };
    devices.iter().filter_map(now).collect()
}

// The dump of a line, which may be blank.
fn dump_in<T: Tables>(
    forms: Forms<T>,
    reading: Reading<'_>,
    save: &mut Save,
    line: Vec<u8>,
    number: u64,
) -> Result<Option<BuiltMessage>, Complaint> {
    match content_of(&line) {
        LineContent::ManyValues => return Err(without_json(save, number, LineError::ManyValues)),
        LineContent::Blank => return Ok(None),
        LineContent::Text => {}
    }
    let json = json_in(line).map_err(|error| without_json(save, number, error))?;
    if save.take(number, &json)? || is_answer(&json) {
        return Ok(None);
    }
    match (reading.names, save.names()) {
        (Some(now), Some(saved)) => {
            let json = json_now(json, Interfaces { saved, now })?;
            as_dump(made_of_json(forms, &json, Making::Restored)?, None)
        }
        _ => as_dump(made_of_json(forms, &json, Making::Restored)?, reading.index),
    }
}

// The complaint about a line that isn't read as JSON: that it comes after the end, or this one.
fn without_json(save: &mut Save, number: u64, error: LineError) -> Complaint {
    match save.take_line(number) {
        Ok(()) => Complaint::Line(error),
        Err(fault) => Complaint::Save(fault),
    }
}

// The JSON of a line with the present indices. The other is freed before it is read.
fn json_now(json: Value, interfaces: Interfaces<'_>) -> Result<Value, Complaint> {
    let text = serde_json::to_vec(&json).map_err(|_| AllocError)?;
    let mapped = mapped(&text, interfaces)?;
    if mapped == text {
        return Ok(json);
    }
    drop(json);
    drop(text);
    Ok(json_in(mapped)?)
}

/// The dump of a line by itself, of this interface if one is given. An answer of the kernel has none, nor has the request of a dump, which
/// captures of dumps have. The first and the last line of a save are refused, since they are to be compared with the others.
///
/// # Errors
///
/// A [`Complaint`].
pub fn dump_in_line<T: Tables>(
    forms: Forms<T>,
    index: Option<i32>,
    line: Vec<u8>,
) -> Result<Option<BuiltMessage>, Complaint> {
    let json = json_in(line)?;
    if is_of_save(&json) {
        return Err(Complaint::LineByLine);
    }
    if is_answer(&json) {
        return Ok(None);
    }
    as_dump(made_of_json(forms, &json, Making::Restored)?, index)
}

fn as_dump(made: BuiltMessage, index: Option<i32>) -> Result<Option<BuiltMessage>, Complaint> {
    if is_dump(&made.given)? { Ok(Some(with_index(made, index))) } else { Ok(None) }
}

// Flags of `linux/netlink.h`.
const NLM_F_REQUEST: u16 = 1;

// Its bits are those of `NLM_F_REPLACE` and `NLM_F_EXCL` where the type isn't a GET.
const NLM_F_DUMP: u16 = 0x300;

// True of a dump, false of the request of one. The types of rtnetlink go in fours: NEW, DEL, GET and SET.
fn is_dump(given: &NetlinkHeader) -> Result<bool, Complaint> {
    let flags = given.flags;
    if flags & NLM_F_REQUEST == 0 {
        return Ok(true);
    }
    if flags & NLM_F_DUMP == NLM_F_DUMP && given.kind.is_some_and(|kind| kind % 4 == 2) {
        return Ok(false);
    }
    Err(Complaint::Line(LineError::Member {
        name: "flags",
        found: Actual::Number(u64::from(flags)),
        wanted: "those of a dump, without NLM_F_REQUEST (1)",
    }))
}

// A message of this interface, if one is given; what is in a block that interfaces share has none (its index is -1).
fn with_index(mut made: BuiltMessage, index: Option<i32>) -> BuiltMessage {
    // `tcm_ifindex` of `struct tcmsg`.
    if let (MessageType::Tc, Some(index), Some(place)) = (made.given.holds, index, made.bytes.get_mut(4..8)) {
        if *place != [0xff; 4] {
            place.copy_from_slice(&index.to_le_bytes());
        }
    }
    made
}
