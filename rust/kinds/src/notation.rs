//! The notation of the tables, which `kinds/README.md` describes.

use crate::{Fault, File};
use std::collections::BTreeMap;

/// A layout of bytes.
#[derive(Clone, PartialEq, Debug)]
pub(crate) enum Form {
    /// `u8` to `u64`, `s8` to `s64`, `be16` to `be64`.
    Number(String),
    /// `u32 enum NAME`: the number and the name.
    Enum(String, String),
    /// `u32 bits NAME`: the number and the name.
    Bits(String, String),
    /// `kind`, or a form of `LEAVES`.
    Leaf(String),
    Bytes(usize),
    Pad(usize),
    Struct(String),
    List(List),
    Choice(String),
    Array(Box<Form>),
    Times(usize, Box<Form>),
    Indexed(Box<Form>),
    ByKind(ByKind),
}

/// `list`, `nested`, `inforce` or `own`, the name of the list, and the object in JSON that holds each of its attributes.
#[derive(Clone, PartialEq, Debug)]
pub(crate) struct List {
    pub how: String,
    pub name: String,
    pub layer: String,
}

/// `options of qdisc filter else OptionsRaw hex`: `options` or `statistics`, the sorts of kinds, and what kinds without a table have.
#[derive(Clone, PartialEq, Debug)]
pub(crate) struct ByKind {
    pub what: String,
    pub sorts: Vec<String>,
    pub other: String,
    pub form: Box<Form>,
}

/// A line of a block. Which of its fields are set depends on the block.
#[derive(Default)]
pub(crate) struct Line {
    pub name: String,
    pub form: Option<Form>,
    pub number: i64,
    /// The kernel's name of the attribute, number or flag.
    pub kernel: String,
    pub unit: String,
    /// The block `names` that has names for the number.
    pub names: String,
    /// The columns after the unit by their words, and the number of `=N` by `=`.
    pub columns: BTreeMap<String, String>,
    pub comment: String,
    /// The bytes that a line of a choice starts with, as hex.
    pub prefix: String,
    pub length: Option<usize>,
}

/// A block: its file, its sort (`struct`, `list`, `qdisc`, ..), the names after that, the comment before it, and its lines.
pub(crate) struct Block {
    pub file: String,
    pub sort: String,
    pub names: Vec<String>,
    pub about: String,
    pub lines: Vec<Line>,
}

#[derive(Default)]
pub(crate) struct Tables {
    pub blocks: Vec<Block>,
    /// Each file with its first comment.
    pub files: Vec<(String, String)>,
    /// The forms of `form NAME FORM`.
    pub aliases: BTreeMap<String, Form>,
    /// The forms of `message NAME FORM`.
    pub messages: Vec<Form>,
}

/// The numbers, and the Rust types of their values.
pub(crate) const NUMBERS: &[(&str, &str)] = &[
    ("u8", "u8"),
    ("u16", "u16"),
    ("u32", "u32"),
    ("u64", "u64"),
    ("s8", "i8"),
    ("s16", "i16"),
    ("s32", "i32"),
    ("s64", "i64"),
    ("be16", "u16"),
    ("be32", "u32"),
    ("be64", "u64"),
];
pub(crate) const LEAVES: &[&str] = &["kind", "handle", "flag", "bool", "text", "bare", "hex", "mac", "ipv4", "ipv6"];
pub(crate) const KINDS: &[&str] = &["qdisc", "filter", "action"];
const BLOCKS: &[&str] = &["struct", "list", "enum", "bits", "names", "choice"];

/// The words of a line that are left.
struct Words<'a>(&'a [&'a str]);

impl<'a> Words<'a> {
    fn next(&mut self) -> Result<&'a str, Fault> {
        let (first, rest) = self.0.split_first().ok_or("a word is missing")?;
        self.0 = rest;
        Ok(first)
    }

    /// Takes the next word if it is this one.
    fn takes(&mut self, word: &str) -> bool {
        let found = self.0.first() == Some(&word);
        self.0 = &self.0[usize::from(found)..];
        found
    }
}

fn number(text: &str) -> Result<i64, Fault> {
    let parsed = match (text.strip_prefix("0x"), text.strip_prefix("1<<")) {
        (Some(hex), _) => i64::from_str_radix(hex, 16).ok(),
        (_, Some(bit)) => bit.parse().ok().and_then(|bit| 1i64.checked_shl(bit)),
        _ => text.parse().ok(),
    };
    parsed.ok_or_else(|| format!("no number: {text}"))
}

fn count(text: &str) -> Result<usize, Fault> {
    usize::try_from(number(text)?).map_err(|e| format!("{text}: {e}"))
}

/// The columns of a line: words and their values, and `=` with the number of `=N`. `None` if a word has no value.
fn columns<'a>(mut words: &[&'a str]) -> Option<Vec<(&'a str, &'a str)>> {
    let mut found = Vec::new();
    while let [word, rest @ ..] = words {
        words = rest;
        if let Some(number) = word.strip_prefix('=') {
            found.push(("=", number));
        } else {
            let (value, rest) = rest.split_first().filter(|(value, _)| !value.starts_with('='))?;
            found.push((*word, *value));
            words = rest;
        }
    }
    Some(found)
}

impl Line {
    /// Reads the words after the form: columns, after a unit if the words don't pair without it.
    fn read_columns(&mut self, words: &[&str]) {
        let (unit, after) = words.split_first().unwrap_or((&"", &[]));
        let (unit, found) = columns(words).map_or_else(|| (*unit, columns(after).unwrap_or_default()), |found| ("", found));
        self.columns = found.iter().map(|(word, value)| (word.to_string(), value.to_string())).collect();
        (self.unit, self.names) = (unit.to_string(), self.column("names").to_string());
    }

    /// What a column says. Empty without the column.
    pub(crate) fn column(&self, word: &str) -> &str {
        self.columns.get(word).map_or("", String::as_str)
    }
}

/// Reads all blocks of the files.
pub(crate) fn read(files: &[File]) -> Result<Tables, Fault> {
    let mut tables = Tables::default();
    // A form may be used in a file before that which names it.
    for (path, text) in files {
        tables.read_lines(path, text, |tables, line| tables.read_alias(line))?;
    }
    for (path, text) in files {
        let about = text.lines().next().unwrap_or("").trim_start_matches(['#', ' ']);
        tables.files.push((path.clone(), about.to_string()));
        let (mut about, mut is_open) = (Vec::new(), false);
        tables.read_lines(path, text, |tables, line| tables.read_line(line, &mut about, &mut is_open))?;
    }
    Ok(tables)
}

/// A line of a file without its comment, the comment, and the place of the line.
struct Text<'a> {
    path: &'a str,
    at: usize,
    is_indented: bool,
    words: Vec<&'a str>,
    comment: &'a str,
}

impl Tables {
    fn read_lines(&mut self, path: &str, text: &str, mut read: impl FnMut(&mut Tables, Text<'_>) -> Result<(), Fault>) -> Result<(), Fault> {
        for (at, line) in text.lines().enumerate() {
            let (front, comment) = line.split_once('#').unwrap_or((line, ""));
            let words = front.split_whitespace().collect();
            let text = Text { path, at, is_indented: line.starts_with(' '), words, comment: comment.trim() };
            read(self, text).map_err(|why| format!("{path}:{}: {why}", at + 1))?;
        }
        Ok(())
    }

    fn read_alias(&mut self, line: Text<'_>) -> Result<(), Fault> {
        if let ["form", name, form @ ..] = line.words.as_slice() {
            let form = self.form(&mut Words(form))?;
            self.aliases.insert(name.to_string(), form);
        }
        Ok(())
    }

    /// Reads a line, with the comments at the margin before it, and whether it may belong to a block.
    fn read_line(&mut self, line: Text<'_>, about: &mut Vec<String>, is_open: &mut bool) -> Result<(), Fault> {
        match line.words.as_slice() {
            [] if line.at > 0 && !line.comment.is_empty() && !line.is_indented => about.push(line.comment.to_string()),
            [] => about.clear(),
            [sort, names @ ..] if !line.is_indented => {
                *is_open = BLOCKS.contains(sort) || KINDS.contains(sort);
                if *is_open {
                    let names = names.iter().map(|name| name.to_string()).collect();
                    self.blocks.push(Block { file: line.path.to_string(), sort: sort.to_string(), names, about: about.join(" "), lines: Vec::new() });
                } else if let ["message", _, form @ ..] = line.words.as_slice() {
                    let form = self.form(&mut Words(form))?;
                    self.messages.push(form);
                }
                about.clear();
            }
            words if *is_open => {
                let sort = self.blocks.last().map_or("", |block| &block.sort);
                let read = self.line_of(sort, &mut Words(words))?;
                let block = self.blocks.last_mut().ok_or("no block")?;
                block.lines.extend(read.map(|read| Line { comment: line.comment.to_string(), ..read }));
            }
            _ => {}
        }
        Ok(())
    }

    /// A line of a block, or nothing if the reader doesn't know it.
    fn line_of(&self, sort: &str, words: &mut Words<'_>) -> Result<Option<Line>, Fault> {
        let mut line = Line::default();
        if KINDS.contains(&sort) {
            line.name = words.next()?.to_string();
            match &*line.name {
                "options" => {}
                "statistics" => line.kernel = words.next()?.to_string(),
                _ => return Ok(None),
            }
        } else if ["list", "enum", "bits", "names"].contains(&sort) {
            line.number = number(words.next()?)?;
            line.kernel = words.next()?.to_string();
            line.name = words.next()?.to_string();
        } else {
            line.name = words.next()?.to_string();
        }
        if ["enum", "bits", "names"].contains(&sort) {
            return Ok(Some(line));
        }
        if words.takes("starts") {
            line.prefix = words.next()?.to_string();
        }
        if words.takes("length") {
            line.length = Some(count(words.next()?)?);
        }
        line.form = Some(self.form(words)?);
        line.read_columns(words.0);
        Ok(Some(line))
    }

    /// The form at the front of the words.
    fn form(&self, words: &mut Words<'_>) -> Result<Form, Fault> {
        let is_struct = words.takes("struct");
        let word = words.next()?;
        if let Some((inner, times)) = word.strip_suffix(']').and_then(|word| word.split_once('[')) {
            let inner = if is_struct { Form::Struct(inner.to_string()) } else { self.form(&mut Words(&[inner]))? };
            return Ok(if times.is_empty() { Form::Array(inner.into()) } else { Form::Times(count(times)?, inner.into()) });
        }
        if is_struct {
            return Ok(Form::Struct(word.to_string()));
        }
        if NUMBERS.iter().any(|(name, _)| *name == word) {
            return number_form(word.to_string(), words);
        }
        Ok(match word {
            "bytes" => Form::Bytes(count(words.next()?)?),
            "pad" => Form::Pad(count(words.next()?)?),
            "choice" => Form::Choice(words.next()?.to_string()),
            "indexed" => Form::Indexed(self.form(words)?.into()),
            "list" | "nested" | "inforce" | "own" => {
                let name = words.next()?.to_string();
                let layer = if words.takes("in") { words.next()? } else { "" };
                Form::List(List { how: word.to_string(), name, layer: layer.to_string() })
            }
            "options" | "statistics" => self.by_kind(word.to_string(), words)?,
            _ if LEAVES.contains(&word) => Form::Leaf(word.to_string()),
            _ => self.aliases.get(word).cloned().ok_or_else(|| format!("no such form: {word}"))?,
        })
    }

    fn by_kind(&self, what: String, words: &mut Words<'_>) -> Result<Form, Fault> {
        let mut sorts = Vec::new();
        words.takes("of");
        while !words.takes("else") {
            sorts.push(words.next()?.to_string());
        }
        Ok(Form::ByKind(ByKind { what, sorts, other: words.next()?.to_string(), form: self.form(words)?.into() }))
    }
}

fn number_form(width: String, words: &mut Words<'_>) -> Result<Form, Fault> {
    Ok(match (words.takes("enum"), words.takes("bits")) {
        (true, _) => Form::Enum(width, words.next()?.to_string()),
        (_, true) => Form::Bits(width, words.next()?.to_string()),
        _ => Form::Number(width),
    })
}
