//! The file of a save: a head, a line of JSON for each object, and an end with their number.

use crate::netlink::devices::is_name;
use ::serde_json::Value;
use std::collections::{BTreeMap, BTreeSet};
use std::fmt;
use std::ops::Range;

/// The version of saves that is read: `save` of the head.
const VERSION: u64 = 1;

/// What some editors put before a text.
const BOM: char = '\u{FEFF}';

/// A save, as it was read.
#[derive(Debug)]
pub(crate) struct Save {
    /// All of it.
    pub(crate) text: String,
    // Where its lines are; without blank ones, the head and the end.
    lines: Vec<Range<usize>>,
    /// What its head says. Saves of older versions have none.
    pub(crate) head: Option<Head>,
}

impl Save {
    /// The lines of its objects.
    pub(crate) fn lines(&self) -> impl Iterator<Item = &str> {
        self.lines.iter().map(|place| &self.text[place.clone()])
    }
}

/// What the head of a save says.
#[derive(Debug)]
pub(crate) struct Head {
    /// The interfaces that were saved.
    pub(crate) devs: Vec<Device>,
    /// The name of each interface that the save has by index.
    pub(crate) names: BTreeMap<i32, String>,
}

/// An interface, as it was when it was saved.
#[derive(Clone, PartialEq, Eq, Debug)]
pub(crate) struct Device {
    pub(crate) name: String,
    pub(crate) index: i32,
    pub(crate) mac: Option<String>,
    pub(crate) mtu: Option<u64>,
    pub(crate) txqueuelen: Option<u64>,
    /// The numbers of queues for sending and for receiving.
    pub(crate) queues: Option<(u64, u64)>,
}

/// Why a file isn't taken for a save.
#[derive(PartialEq, Eq, Debug)]
pub(crate) enum FileError {
    /// It has no line. The save of an interface without anything has a head and an end.
    Empty,
    /// It isn't UTF-8.
    NoText,
    /// Its head is of another version.
    Version(u64),
    /// It begins with a byte order mark.
    Bom,
    /// Its first line is to be a head, and isn't JSON, for this reason.
    NoJson(String),
    /// Its head lacks this, or has something else in its place.
    Head(&'static str),
    /// Its head has this interface by an index for which it has another name.
    OtherName { dev: String, index: i32, name: String },
    /// Its head has this name for several indices.
    SameName(String),
    /// Its head has a name that isn't UTF-8, as it was written.
    NoName(String),
    /// A head that isn't the first line, by its number.
    SecondHead(usize),
    /// It has a head and no end.
    NoEnd,
    /// Its end isn't its last line, by its number.
    LineAfterEnd(usize),
    /// Its end is neither a number nor `true`.
    End,
    /// Its end has another number of lines than there are.
    Count { said: u64, found: usize },
}

impl fmt::Display for FileError {
    fn fmt(&self, f: &mut fmt::Formatter<'_>) -> fmt::Result {
        match self {
            FileError::Empty => {
                f.write_str("it is empty; the save of an interface without anything has a head and an end")
            }
            FileError::NoText => f.write_str("it isn't UTF-8"),
            FileError::Version(number) => write!(f, "a save of version {number}; this program reads version {VERSION}"),
            FileError::Bom => {
                f.write_str("it begins with a byte order mark (U+FEFF), which is no part of a save: take it out")
            }
            FileError::NoJson(why) => write!(f, "line 1: the head isn't JSON: {why}"),
            FileError::Head(wanted) => write!(f, "line 1: the head lacks {wanted}"),
            FileError::OtherName { dev, index, name } => {
                write!(f, "line 1: devs has {dev} as interface {index}, and names has {name} as that one")
            }
            FileError::SameName(name) => write!(f, "line 1: several interfaces have the name {name}"),
            FileError::NoName(name) => {
                write!(f, "line 1: the name {name} wasn't UTF-8 (it has U+FFFD), so another interface may have it too")
            }
            FileError::SecondHead(number) => write!(f, "line {number}: a second head"),
            FileError::NoEnd => f.write_str("its end is missing: the save was cut"),
            FileError::LineAfterEnd(number) => write!(f, "line {number}: a line after the end"),
            FileError::End => f.write_str("its end is neither a number of lines nor true"),
            FileError::Count { said, found } => {
                write!(
                    f,
                    "its end counts {said} lines, and there are {found}: it was cut, or edited (an edited save ends with {{\"end\":true}})"
                )
            }
        }
    }
}

/// Reads a save. Its objects aren't looked at.
pub(crate) fn read_save(bytes: Vec<u8>) -> Result<Save, FileError> {
    let text = String::from_utf8(bytes).map_err(|_| FileError::NoText)?;
    if text.starts_with(BOM) {
        return Err(FileError::Bom);
    }
    let mut lines = Vec::new();
    let (mut head, mut end, mut is_first, mut place) = (None, None, true, 0);
    for (at, line) in text.split_inclusive('\n').enumerate() {
        let begin = place;
        place += line.len();
        if line.trim().is_empty() {
            continue;
        }
        if end.is_some() {
            return Err(FileError::LineAfterEnd(at + 1));
        }
        match mark_of(line, is_first)? {
            Some(Mark::Head(value)) if is_first => head = Some(head_of(&value)?),
            Some(Mark::Head(_)) => return Err(FileError::SecondHead(at + 1)),
            Some(Mark::End(value)) => end = Some(value),
            None => lines.push(begin..begin + line.trim_end().len()),
        }
        is_first = false;
    }
    if is_first {
        return Err(FileError::Empty);
    }
    check_end(head.is_some(), end, lines.len())?;
    Ok(Save { text, lines, head })
}

// A line that is no object.
enum Mark {
    Head(Value),
    End(Value),
}

// A line that isn't JSON is an object's, and complained of as such, unless it is the first one and would be a head.
fn mark_of(line: &str, is_first: bool) -> Result<Option<Mark>, FileError> {
    let is_head = line.contains("\"save\"");
    if !is_head && !line.contains("\"end\"") {
        return Ok(None);
    }
    let value: Value = match ::serde_json::from_str(line) {
        Ok(value) => value,
        Err(error) if is_head && is_first => return Err(FileError::NoJson(error.to_string())),
        Err(_) => return Ok(None),
    };
    let Some(object) = value.as_object() else { return Ok(None) };
    if object.contains_key("save") {
        return Ok(Some(Mark::Head(value)));
    }
    Ok(object.get("end").filter(|_| object.len() == 1).map(|end| Mark::End(end.clone())))
}

fn check_end(has_head: bool, end: Option<Value>, found: usize) -> Result<(), FileError> {
    match end {
        None if has_head => Err(FileError::NoEnd),
        None | Some(Value::Bool(true)) => Ok(()),
        Some(value) => match value.as_u64() {
            Some(said) if said == found as u64 => Ok(()),
            Some(said) => Err(FileError::Count { said, found }),
            None => Err(FileError::End),
        },
    }
}

fn head_of(value: &Value) -> Result<Head, FileError> {
    match value["save"].as_u64() {
        Some(VERSION) => {}
        Some(number) => return Err(FileError::Version(number)),
        None => return Err(FileError::Head("a version")),
    }
    let devs = value["devs"].as_object().ok_or(FileError::Head("devs"))?;
    let devs = devs
        .iter()
        .map(|(name, it)| device_of(name, it))
        .collect::<Option<Vec<_>>>()
        .ok_or(FileError::Head("the index of an interface"))?;
    let names = value["names"].as_object().ok_or(FileError::Head("names"))?;
    let names = names.iter().map(|(index, name)| Some((index.parse().ok()?, name.as_str()?.to_string())));
    let mut names = names.collect::<Option<BTreeMap<_, _>>>().ok_or(FileError::Head("names by index"))?;
    for dev in &devs {
        let name: &String = names.entry(dev.index).or_insert_with(|| dev.name.clone());
        if *name != dev.name {
            let (dev, index, name) = (dev.name.clone(), dev.index, name.clone());
            return Err(FileError::OtherName { dev, index, name });
        }
    }
    check_names(&names)?;
    Ok(Head { devs, names })
}

// Each name is one interface's.
fn check_names(names: &BTreeMap<i32, String>) -> Result<(), FileError> {
    let mut seen = BTreeSet::new();
    for name in names.values() {
        if !is_name(name) {
            return Err(FileError::NoName(name.clone()));
        }
        if !seen.insert(name) {
            return Err(FileError::SameName(name.clone()));
        }
    }
    Ok(())
}

fn device_of(name: &str, value: &Value) -> Option<Device> {
    let queues = value["queues"].as_array().and_then(|them| Some((them.first()?.as_u64()?, them.get(1)?.as_u64()?)));
    Some(Device {
        name: name.to_string(),
        index: i32::try_from(value["index"].as_i64()?).ok().filter(|index| *index > 0)?,
        mac: value["mac"].as_str().map(str::to_string),
        mtu: value["mtu"].as_u64(),
        txqueuelen: value["txqueuelen"].as_u64(),
        queues,
    })
}

#[cfg(test)]
mod tests {
    use super::*;

    const HEAD: &str = r#"{"save":1,"devs":{"wan":{"index":2,"mac":"02:00:00:00:00:01","mtu":1500,"txqueuelen":1000,"queues":[4,4]}},"names":{"2":"wan","3":"ids"}}"#;

    fn error_of(text: &str) -> FileError {
        read_save(text.as_bytes().to_vec()).expect_err("refused")
    }

    #[test]
    fn reads_a_head_and_counts_lines() {
        let save =
            read_save(format!("{HEAD}\n{{\"a\":1}}\n\n{{\"b\":2}}\r\n{{\"end\":2}}\n").into_bytes()).expect("read");
        let head = save.head.as_ref().expect("a head");
        assert_eq!(head.devs[0].queues, Some((4, 4)));
        assert_eq!(head.names[&3], "ids");
        assert_eq!(save.lines().collect::<Vec<_>>(), ["{\"a\":1}", "{\"b\":2}"]);
    }

    #[test]
    fn refuses_what_was_cut() {
        assert_eq!(error_of(""), FileError::Empty);
        assert_eq!(error_of(" \n\n"), FileError::Empty);
        assert_eq!(error_of(HEAD), FileError::NoEnd);
        assert_eq!(error_of(&format!("{HEAD}\n{{\"a\":1}}\n")), FileError::NoEnd);
        assert_eq!(error_of(&format!("{HEAD}\n{{\"a\":1}}\n{{\"end\":2}}\n")), FileError::Count { said: 2, found: 1 });
        assert_eq!(error_of(&format!("{HEAD}\n{{\"end\":0}}\n{{\"a\":1}}\n")), FileError::LineAfterEnd(3));
        assert_eq!(error_of(&format!("{HEAD}\n{HEAD}\n{{\"end\":0}}\n")), FileError::SecondHead(2));
        assert_eq!(error_of(&format!("{HEAD}\n{{\"end\":\"2\"}}\n")), FileError::End);
        assert_eq!(error_of("{\"save\":2}\n{\"end\":0}\n"), FileError::Version(2));
        assert_eq!(read_save(b"\xff".to_vec()).expect_err("refused"), FileError::NoText);
    }

    #[test]
    fn refuses_a_head_that_says_two_things() {
        let of =
            |names: &str| error_of(&format!("{}\n{{\"end\":0}}\n", HEAD.replace(r#"{"2":"wan","3":"ids"}"#, names)));
        let other = FileError::OtherName { dev: "wan".to_string(), index: 2, name: "lan".to_string() };
        assert_eq!(other.to_string(), "line 1: devs has wan as interface 2, and names has lan as that one");
        assert_eq!(of(r#"{"2":"lan","3":"ids"}"#), other);
        assert_eq!(of(r#"{"2":"wan","3":"wan"}"#), FileError::SameName("wan".to_string()));
        assert_eq!(of(r#"{"3":"wan"}"#), FileError::SameName("wan".to_string()), "its own name is left out");
        assert_eq!(of("{\"2\":\"wan\",\"3\":\"a\u{fffd}\"}"), FileError::NoName("a\u{fffd}".to_string()));
        let swapped = HEAD.replace(r#"{"wan":{"#, r#"{"a\ufffd":{"#).replace(r#""2":"wan""#, r#""2":"a\ufffd""#);
        assert_eq!(error_of(&format!("{swapped}\n{{\"end\":0}}\n")), FileError::NoName("a\u{fffd}".to_string()));
    }

    #[test]
    fn refuses_a_head_that_is_no_json() {
        assert_eq!(error_of(&format!("\u{feff}{HEAD}\n{{\"end\":0}}\n")), FileError::Bom);
        let deep = format!("{{\"save\":1,\"devs\":{}", "[".repeat(1000));
        for head in [HEAD.replace("\"devs\"", "\0\"devs\""), HEAD[..40].to_string(), deep] {
            let error = error_of(&format!("{head}\n{{\"a\":1}}\n{{\"end\":1}}\n"));
            assert!(error.to_string().starts_with("line 1: the head isn't JSON: "), "{error}");
        }
    }

    #[test]
    fn takes_an_edited_save_and_an_older_one() {
        assert!(read_save(format!("{HEAD}\n{{\"a\":1}}\n{{\"end\":true}}\n").into_bytes()).is_ok());
        assert!(read_save(format!("{HEAD}\n{{\"end\":0}}").into_bytes()).is_ok());
        assert!(read_save(b"{\"a\":1}\n".to_vec()).expect("read").head.is_none());
    }
}
