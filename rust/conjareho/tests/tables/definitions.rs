//! The definitions of the codec in `crates/tc_canon/specs`: the attributes of each list with what they are on the wire, and the layouts of records.

use std::collections::BTreeMap;
use std::path::Path;

/// A field of a record on the wire.
#[derive(Clone, Debug, PartialEq)]
pub enum Laid {
    Little(usize),
    Big(usize),
    /// A number of so many bytes, of which these have names.
    Named(usize, Vec<u64>),
    Octets(usize),
    Pad(usize),
}

/// What a value is on the wire. Bytes that the codec keeps may be anything; lists are compared by themselves.
#[derive(Clone, Debug, PartialEq)]
pub enum Wire {
    Little(usize),
    Big(usize),
    Octets(usize),
    Text,
    /// A text without a NUL at its end.
    Warning,
    Presence,
    Truth,
    Record(Vec<Laid>),
    Kept,
}

/// Attributes of a list: the first and the last type, the flags in their words, and what they are on the wire.
pub struct Attributes {
    pub first: u16,
    pub last: u16,
    pub flags: u16,
    pub wire: Wire,
    /// They are written and never read.
    pub is_unread: bool,
}

/// The text of each definition, by its name, without comments and parentheses.
pub struct Definitions(BTreeMap<String, String>);

const FILES: [&str; 6] = [
    "Layouts.antt",
    "Tables/Actions.antt",
    "Tables/Flower.antt",
    "Tables/Messages.antt",
    "Tables/Options.antt",
    "Tables/Statistics.antt",
];

fn count(word: &str) -> usize {
    word.parse().unwrap_or_else(|_| panic!("{word} is no number"))
}

fn type_in(word: &str) -> u16 {
    word.parse().unwrap_or_else(|_| panic!("{word} is no type"))
}

/// The name and the text of the definition in a paragraph, if there is one.
fn definition(paragraph: &str) -> Option<(String, String)> {
    let lines = paragraph.lines().map(|line| line.split("--").next().unwrap_or(""));
    let text = lines.collect::<Vec<_>>().join(" ").replace(['(', ')'], " ");
    let (head, body) = text.split_once('=')?;
    let name = head.split_once("abbrev pub ")?.1.split(' ').next()?;
    Some((name.to_string(), body.to_string()))
}

impl Definitions {
    pub fn read() -> Self {
        let folder = Path::new(env!("CARGO_MANIFEST_DIR")).join("../../crates/tc_canon/specs");
        let text = |name: &str| std::fs::read_to_string(folder.join(name)).expect("a file of definitions");
        let texts: Vec<String> = FILES.into_iter().map(text).collect();
        Self(texts.iter().flat_map(|text| text.split("\n\n")).filter_map(definition).collect())
    }

    fn text(&self, name: &str) -> &str {
        self.0.get(name).unwrap_or_else(|| panic!("no definition of {name}"))
    }

    /// The words of each item of a list.
    fn items(&self, name: &str, between: char) -> Vec<Vec<&str>> {
        self.text(name).split(between).map(|item| item.split_whitespace().collect()).collect()
    }

    pub fn numbers(&self, name: &str) -> Vec<u64> {
        self.items(name, '∷').iter().filter_map(|words| words.first()?.parse().ok()).collect()
    }

    /// The kinds that have a table.
    pub fn kinds(&self, name: &str) -> Vec<&str> {
        self.text(name).split('"').skip(1).step_by(2).collect()
    }

    pub fn layout(&self, name: &str) -> Vec<Laid> {
        let mut fields = Vec::new();
        for words in self.items(name, '∷') {
            let words = match words.as_slice() {
                ["generic_then", rest @ ..] => {
                    fields.extend(self.layout("generic_then"));
                    rest
                }
                words => words,
            };
            match words {
                ["little", n] => fields.push(Laid::Little(count(n))),
                ["big", n] => fields.push(Laid::Big(count(n))),
                ["named", n, names] => fields.push(Laid::Named(count(n), self.numbers(names))),
                ["octets", n] => fields.push(Laid::Octets(count(n))),
                ["pad", n] => fields.push(Laid::Pad(count(n))),
                ["[]" | "fields"] => {}
                words => panic!("{name} has {words:?}"),
            }
        }
        fields
    }

    fn wire(&self, class: &[&str]) -> Wire {
        match class {
            ["le", n] | ["masked", n, _] => Wire::Little(count(n)),
            ["be", n] => Wire::Big(count(n)),
            ["array", n] => Wire::Octets(count(n)),
            ["text"] => Wire::Text,
            ["warning"] => Wire::Warning,
            ["presence"] => Wire::Presence,
            ["truth"] => Wire::Truth,
            ["fields", layout] => Wire::Record(self.layout(layout)),
            ["selector"] => Wire::Record(self.layout("selector_head")),
            ["pair"] => Wire::Record(vec![Laid::Little(4), Laid::Little(4)]),
            ["raw" | "xstats"] | ["list_of", ..] => Wire::Kept,
            [name] => self.wire(&self.text(name).split_whitespace().collect::<Vec<_>>()),
            class => panic!("no class {class:?}"),
        }
    }

    fn attributes(&self, first: &str, last: &str, flags: u16, class: &[&str]) -> Attributes {
        Attributes { first: type_in(first), last: type_in(last), flags, wire: self.wire(class), is_unread: false }
    }

    /// The attributes of a list but a message's options, which depend on the kind.
    pub fn list(&self, name: &str) -> Vec<Attributes> {
        let row = |words: &Vec<&str>| match words.as_slice() {
            ["at", n, class @ ..] => Some(self.attributes(n, n, 0, class)),
            ["from", first, last, class @ ..] => Some(self.attributes(first, last, 0, class)),
            ["nested", n, class @ ..] => Some(self.attributes(n, n, 0x8000, class)),
            ["unread", n, class @ ..] => Some(Attributes { is_unread: true, ..self.attributes(n, n, 0, class) }),
            ["options", ..] | ["others"] => None,
            words => panic!("{name} has {words:?}"),
        };
        self.items(name, '▹').iter().filter_map(row).collect()
    }
}
