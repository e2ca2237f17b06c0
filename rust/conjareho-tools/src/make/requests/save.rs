//! The first and the last line of a save: `{"save":1,"names":{"2":"wan"},..}` and `{"end":39}`.

use std::fmt;

use serde_json::Value;

use crate::make::messages::{is_end, is_head, number_of, wrong};
use crate::make::requests::complaint::Complaint;

/// Why a save isn't taken.
#[derive(Clone, Copy)]
pub enum SaveFault {
    /// Its last line isn't there.
    NoEnd,
    /// A last line, and no first one.
    NoHead,
    /// A first line that isn't the first.
    LateHead,
    /// A line after the last one.
    AfterEnd,
    /// It has another number of lines between the two than the last one says.
    Count { found: u64, wanted: u64 },
}

impl fmt::Display for SaveFault {
    fn fmt(&self, f: &mut fmt::Formatter<'_>) -> fmt::Result {
        match self {
            SaveFault::NoEnd => f.write_str("the save is cut: its last line, with /end, is missing"),
            SaveFault::NoHead => f.write_str("the last line of a save, whose first line is missing"),
            SaveFault::LateHead => f.write_str("the first line of a save after other lines"),
            SaveFault::AfterEnd => f.write_str("a line after the last line of a save"),
            SaveFault::Count { found, wanted } => {
                write!(f, "/end: found {wanted}, wanted {found}, the number of lines between it and the first")
            }
        }
    }
}

/// The names of interfaces when they were saved, by their indices.
pub type Names = Vec<(u32, String)>;

/// How far a save was read.
pub(crate) struct Save {
    // The names in its first line, if it has one.
    names: Option<Names>,
    // The interfaces that it is of, by its first line.
    devices: Option<Vec<i32>>,
    // How many lines were read that aren't blank, after the first line of a save.
    lines: u64,
    // The number of the last line that was read; 0 before the first.
    last: u64,
    // True after the last line of a save.
    is_ended: bool,
}

impl Save {
    /// Nothing is read yet.
    pub(crate) fn new() -> Save {
        Save { names: None, devices: None, lines: 0, last: 0, is_ended: false }
    }

    /// The names in the first line of a save.
    pub(crate) fn names(&self) -> Option<&Names> {
        self.names.as_ref()
    }

    /// The names of interfaces in the first line of a save, and the indices of those that it is of, if it has them.
    pub(crate) fn into_interfaces(self) -> (Option<Names>, Option<Vec<i32>>) {
        (self.names, self.devices)
    }

    /// Takes a line that isn't blank, and that isn't read as JSON. Fails after the last line of a save.
    pub(crate) fn take_line(&mut self, number: u64) -> Result<(), SaveFault> {
        self.last = number;
        self.lines = self.lines.saturating_add(1);
        if self.is_ended {
            return Err(SaveFault::AfterEnd);
        }
        Ok(())
    }

    /// Takes a line of JSON. True if it is the first or the last line of a save.
    pub(crate) fn take(&mut self, number: u64, json: &Value) -> Result<bool, Complaint> {
        if is_head(json) {
            self.take_head(number, json)?;
            return Ok(true);
        }
        if is_end(json) {
            self.take_end(number, json)?;
            return Ok(true);
        }
        self.take_line(number)?;
        Ok(false)
    }

    fn take_head(&mut self, number: u64, json: &Value) -> Result<(), Complaint> {
        let is_first = self.last == 0;
        self.last = number;
        if !is_first {
            return Err(Complaint::Save(SaveFault::LateHead));
        }
        self.names = Some(names_in(json)?);
        self.devices = devices_in(json);
        Ok(())
    }

    fn take_end(&mut self, number: u64, json: &Value) -> Result<(), Complaint> {
        self.last = number;
        if self.is_ended {
            return Err(Complaint::Save(SaveFault::AfterEnd));
        }
        if self.names.is_none() {
            return Err(Complaint::Save(SaveFault::NoHead));
        }
        self.is_ended = true;
        match count_in(json)? {
            Some(wanted) if wanted != self.lines => {
                let found = self.lines;
                Err(Complaint::Save(SaveFault::Count { found, wanted }))
            }
            _ => Ok(()),
        }
    }

    /// The fault at the end of the input, if there is one, and the number of the last line.
    pub(crate) fn fault_at_end(&self) -> Option<(u64, SaveFault)> {
        if self.names.is_some() && !self.is_ended { Some((self.last, SaveFault::NoEnd)) } else { None }
    }
}

// The number of lines that the last line of a save says; none of one that says true.
fn count_in(json: &Value) -> Result<Option<u64>, Complaint> {
    match json.get("end") {
        Some(held) if held.as_bool() == Some(true) => Ok(None),
        _ => Ok(number_of(json, "end", u64::MAX, "a number of lines, or true")?),
    }
}

// The names in the first line of a save.
fn names_in(json: &Value) -> Result<Names, Complaint> {
    if number_of(json, "save", 1, "1, the form of saves that is known")? != Some(1) {
        return Err(Complaint::Save(SaveFault::LateHead));
    }
    let Some(held) = json.get("names") else {
        return Ok(Names::new());
    };
    let name = |(index, name): (&String, &Value)| Some((index.parse().ok()?, name.as_str()?.to_owned()));
    let names = held.as_object().and_then(|members| members.iter().map(name).collect());
    names.ok_or_else(|| Complaint::Line(wrong("names", held, NAMES)))
}

// The indices of the interfaces in the first line of a save.
fn devices_in(json: &Value) -> Option<Vec<i32>> {
    let index = |device: &Value| i32::try_from(device.get("index")?.as_i64()?).ok();
    Some(json.get("devs")?.as_object()?.values().filter_map(index).collect())
}

const NAMES: &str = "names of interfaces by their indices";
