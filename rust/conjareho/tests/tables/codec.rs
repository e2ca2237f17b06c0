//! The attributes and records that the codec has, each with its type, name and form, beside those of a table.

use crate::definitions::{Definitions, Laid, Wire};
use crate::kinds::Lists;
use crate::look::{fields_at, number, shown_row, told};
use conjareho::forms::{Form, Number, Part, Row, Tables};
use std::collections::BTreeMap;

/// The codec's definitions, and by a heading of `codec.txt` the lines below it.
pub struct Codec {
    pub definitions: Definitions,
    sections: BTreeMap<&'static str, Vec<&'static str>>,
}

/// How a number is laid out.
fn laid(kind: Number) -> Laid {
    match kind {
        Number::U8 | Number::I8 => Laid::Little(1),
        Number::U16 | Number::I16 => Laid::Little(2),
        Number::U32 | Number::I32 => Laid::Little(4),
        Number::U64 | Number::I64 => Laid::Little(8),
        Number::U16Be => Laid::Big(2),
        Number::U32Be => Laid::Big(4),
        Number::U64Be => Laid::Big(8),
    }
}

fn width(laid: &Laid) -> usize {
    match laid {
        Laid::Little(n) | Laid::Big(n) | Laid::Named(n, _) | Laid::Octets(n) | Laid::Pad(n) => *n,
    }
}

/// The number names at a place, each with its number.
fn names_at(table: impl Tables, place: usize) -> Vec<(u64, &'static str)> {
    match table.part(place) {
        Part::Names(names) => names.iter().map(|it| (it.number, it.name)).collect(),
        _ => Vec::new(),
    }
}

/// A form of a record's field: how it is laid out, and as `codec.txt` has it.
fn field(table: impl Tables, form: Form) -> (Laid, String) {
    match form {
        Form::Number(kind) => (laid(kind), number(kind).to_string()),
        Form::Named(kind, at) => {
            let names = names_at(table, at);
            let numbers = names.iter().map(|(number, _)| *number).collect();
            (Laid::Named(width(&laid(kind)), numbers), format!("{} names {names:?}", number(kind)))
        }
        Form::Handle => (Laid::Little(4), told(form)),
        Form::Ipv4 => (Laid::Octets(4), told(form)),
        form => (Laid::Pad(0), told(form)),
    }
}

/// The layout of a record, and its lines as `codec.txt` has them; up to an array after them.
fn record(table: impl Tables, form: Form) -> (Vec<Laid>, Vec<String>) {
    let (mut layout, mut lines) = (Vec::new(), Vec::new());
    let mut put = |name: &str, form: Form| {
        let (laid, text) = field(table, form);
        layout.push(laid);
        lines.push(format!("{name} {text}"));
    };
    let mut brackets = Vec::new();
    let mut count = 0;
    for it in fields_at(table, form) {
        match it.form {
            Form::Array(_) => {}
            Form::Record(_) => {
                brackets.push((count, format!("{{ {}", it.name)));
                for inner in fields_at(table, it.form) {
                    put(inner.name, inner.form);
                    count += 1;
                }
                brackets.push((count, "}".to_string()));
            }
            form => {
                put(it.name, form);
                count += 1;
            }
        }
    }
    // Padding has a width and no name.
    for (laid, line) in layout.iter_mut().zip(&mut lines) {
        if let Some((_, width)) = line.split_once(" pad").filter(|(_, width)| width.parse::<usize>().is_ok()) {
            *laid = Laid::Pad(width.parse().expect("a width"));
            *line = format!("pad {width}");
        }
    }
    for (at, bracket) in brackets.into_iter().rev() {
        lines.insert(at, bracket);
    }
    (layout, lines)
}

/// What a form is on the wire.
fn wire(table: impl Tables, form: Form) -> Wire {
    match form {
        Form::Number(kind) | Form::Named(kind, _) => match laid(kind) {
            Laid::Big(n) => Wire::Big(n),
            laid => Wire::Little(width(&laid)),
        },
        Form::Handle => Wire::Little(4),
        Form::Mac => Wire::Octets(6),
        Form::Ipv4 => Wire::Octets(4),
        Form::Ipv6 => Wire::Octets(16),
        Form::Bytes(n) => Wire::Octets(n),
        Form::Flag => Wire::Presence,
        Form::Truth => Wire::Truth,
        Form::Text => Wire::Text,
        Form::Bare => Wire::Warning,
        Form::Record(_) => Wire::Record(record(table, form).0),
        _ => Wire::Kept,
    }
}

fn look(form: Form) -> String {
    match form {
        Form::Record(_) | Form::List(_) | Form::Indexed(_) | Form::Choice(_) => "nested".to_string(),
        form => told(form),
    }
}

impl Codec {
    pub fn read() -> Self {
        let mut sections: BTreeMap<&str, Vec<&str>> = BTreeMap::new();
        let mut heading = "";
        for line in include_str!("codec.txt").lines().filter(|line| !line.is_empty() && !line.starts_with('#')) {
            match line.split(' ').collect::<Vec<_>>().as_slice() {
                ["names", name, ..] => {
                    let names = line.split(' ').skip(2).collect();
                    sections.insert(name, names);
                }
                ["list" | "record" | "kinds", _] => heading = line,
                _ => sections.entry(heading).or_default().push(line),
            }
        }
        Self { definitions: Definitions::read(), sections }
    }

    pub fn lines(&self, heading: &str) -> &[&'static str] {
        self.sections.get(heading).unwrap_or_else(|| panic!("codec.txt has no {heading}"))
    }

    /// The known kinds, each with the name of its options.
    pub fn kinds(&self, name: &str) -> Vec<(&'static str, &'static str)> {
        self.lines(&format!("kinds {name}")).iter().filter_map(|line| line.split_once(' ')).collect()
    }

    /// What rows have otherwise than a list of the codec. The attribute that sets a kind has no row.
    fn list_faults(&self, table: impl Tables, list: &str, rows: &[Row<'static>]) -> Vec<String> {
        let mut lines: BTreeMap<u16, (&str, &str)> = BTreeMap::new();
        for line in self.lines(&format!("list {list}")) {
            let [n, name, form] = line.split(' ').collect::<Vec<_>>()[..] else { panic!("{line}") };
            lines.insert(n.parse().expect("a type"), (name, form));
        }
        let mut faults = Vec::new();
        let sets_kind = |n: u16| n == 1 && ["attributes", "action_attributes"].contains(&list);
        for said in self.definitions.list(list) {
            for n in (said.first..=said.last).filter(|n| !sets_kind(*n)) {
                let (name, form) = lines.remove(&n).unwrap_or_else(|| panic!("codec.txt has no type {n} of {list}"));
                let is_any = form == "any" || said.is_unread;
                let found = shown_row(rows, n).map(|row| {
                    let is = if said.wire == Wire::Kept { Wire::Kept } else { wire(table, row.form) };
                    (row.word, row.name, is, if is_any { form.to_string() } else { look(row.form) })
                });
                let wanted = (n + said.flags, name, said.wire.clone(), form.to_string());
                if found.as_ref() != Some(&wanted) {
                    faults.push(format!("{list}: {found:?} is not {wanted:?}"));
                }
            }
        }
        // A message's options are compared by kind.
        lines.retain(|n, _| (list, *n) != ("attributes", 2));
        faults.extend(lines.keys().map(|n| format!("{list}: the codec has no type {n}")));
        faults
    }

    /// The lines of a record, with its numbers beside their names.
    fn record_lines(&self, record: &str) -> Vec<String> {
        let spelled = |line: &&str| match line.split_once(" names ") {
            Some((front, list)) => {
                let names = self.lines(list).iter().copied();
                let pairs: Vec<_> = self.definitions.numbers(list).into_iter().zip(names).collect();
                format!("{front} names {pairs:?}")
            }
            None => line.to_string(),
        };
        self.lines(&format!("record {record}")).iter().map(spelled).collect()
    }

    /// What the record of a form has otherwise than one of the codec.
    fn record_faults(&self, table: impl Tables, name: &str, form: Form) -> Vec<String> {
        let layout = match name {
            "flags_pair" => vec![Laid::Little(4), Laid::Little(4)],
            name => self.definitions.layout(name),
        };
        let (found, wanted) = (record(table, form), (layout, self.record_lines(name)));
        if found == wanted { Vec::new() } else { vec![format!("{name}: {found:?} is not {wanted:?}")] }
    }

    /// All that a table has otherwise than the codec.
    pub fn faults(&self, table: impl Tables) -> Vec<String> {
        let lists = Lists::of(table);
        let of_lists = lists.all().into_iter().flat_map(|(name, rows)| self.list_faults(table, name, &rows));
        let of_records = lists.records().into_iter().flat_map(|(name, form)| self.record_faults(table, name, form));
        of_lists.chain(of_records).collect()
    }
}
