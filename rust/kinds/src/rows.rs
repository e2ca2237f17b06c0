//! The rows of blocks, which a visitor is shown with each value: units, names, and how a line for people writes it.

use crate::names::constant;
use crate::notation::{Block, ByKind, Form, KINDS, Line, List, Tables};
use crate::uses::{bits_of, rust_number};
use std::collections::BTreeMap;

/// Records of what each object counts, and the fields that each line with statistics has.
const COUNTS: &[&str] = &["tc_stats", "gnet_stats_basic", "gnet_stats_queue", "gnet_stats_rate_est", "gnet_stats_rate_est64"];
const COUNTED: &[&str] = &["bytes", "packets", "drops", "overlimits", "backlog", "qlen", "bps", "pps"];
/// Units, and the variants of `Unit`.
const UNITS: &[(&str, &str)] = &[
    ("bytes", "Bytes"),
    ("packets", "Packets"),
    ("bytes/s", "BytesPerSecond"),
    ("packets/s", "PacketsPerSecond"),
    ("kbit/s", "KilobitsPerSecond"),
    ("ns", "Nanoseconds"),
    ("us", "Microseconds"),
    ("ms", "Milliseconds"),
    ("s", "Seconds"),
    ("ticks", "Ticks"),
    ("clock_t", "ClockTicks"),
    ("percent", "Percent"),
    ("probability", "Probability"),
    ("ifindex", "Interface"),
    ("log2", "Power"),
    ("hex", "Hex"),
    ("net_hex", "NetworkHex"),
    ("u32_handle", "U32Handle"),
];

/// How a line writes a member: the word, the style, what belongs to it, and when it is left out, without statistics and with them.
struct Written {
    word: String,
    style: &'static str,
    with: String,
    left: String,
    detailed: String,
}

pub(crate) struct Rows<'a> {
    tables: &'a Tables,
    /// The records and lists that are statistics wherever they are, by sort and name.
    statistics: Vec<(&'static str, String)>,
}

impl<'a> Rows<'a> {
    pub(crate) fn of(tables: &'a Tables) -> Self {
        Rows { tables, statistics: statistics(tables) }
    }

    /// The table of a block's rows, in the order of its lines; of a block with names its names.
    pub(crate) fn table(&self, block: &Block) -> String {
        let Some(name) = block.names.first() else { return String::new() };
        let (what, items): (&str, Vec<String>) = match &*block.sort {
            "struct" | "list" | "choice" => {
                let lines = block.lines.iter().filter(|line| line.form.is_some());
                ("Row", lines.map(|line| self.row(block, line)).collect())
            }
            "enum" | "bits" | "names" => ("Name", block.lines.iter().map(|line| named(&block.sort, line)).collect()),
            _ => return String::new(),
        };
        table(what, &place(&block.sort, name), &items)
    }

    /// The table of what depends on the kind, in the order of these lines, and last of that of kinds without a table.
    pub(crate) fn by_kind(&self, name: &str, by: &ByKind, lines: &[&Line]) -> String {
        let is_options = by.what == "options";
        let style = if is_options { "Flat" } else { "Statistics" };
        let mut items: Vec<String> = Vec::new();
        for line in lines {
            // Statistics are in an object of their own.
            let own = if is_options { "Options" } else { &*line.kernel };
            let form = line.form.as_ref();
            items.push(literal(own, "", &people(own), layer(form), "None", "None", &plain(if is_options { style } else { "Flat" })));
        }
        let other_style = if matches!(*by.form, Form::Leaf(_)) { "Bytes" } else { style };
        items.push(literal(&by.other, "", &people(&by.other), "", "None", "None", &plain(other_style)));
        table("Row", name, &items)
    }

    fn row(&self, block: &Block, line: &Line) -> String {
        let unit = match (line.column("names").is_empty(), unit_of(line)) {
            (false, "Hex") if width(line) == Some(2) => "LongHex",
            (_, unit) => unit,
        };
        let own = if block.sort == "struct" { line.name.clone() } else { people(&line.name) };
        let label = Some(line.column("as")).filter(|it| !it.is_empty()).map_or(own, str::to_string);
        literal(&line.name, &line.kernel, &label, layer(line.form.as_ref()), unit, &names(line), &self.written(block, line))
    }

    fn is_statistics(&self, block: &Block) -> bool {
        self.statistics.iter().any(|(sort, name)| *sort == block.sort && block.names.first() == Some(name))
    }

    fn written(&self, block: &Block, line: &Line) -> Written {
        let (name, word) = (block.names.first().map_or("", String::as_str), line.column("tc"));
        if name == "tc_u32_key" && ["mask", "val"].contains(&&*line.name) {
            let (word, style, with) = if line.name == "mask" { ("match", "Key", "val") } else { ("", "KeyValue", "off") };
            return Written { word: word.to_string(), with: with.to_string(), ..plain(style) };
        }
        let (own, style, with) = self.style(block, line, word);
        let left = self.left_out(block, line, word);
        let detailed = if line.column("=").ends_with(';') { "Never".to_string() } else { left.clone() };
        Written { word: own, style, with, left, detailed }
    }

    fn left_out(&self, block: &Block, line: &Line, word: &str) -> String {
        let name = block.names.first().map_or("", String::as_str);
        let always = word == "-" || word.starts_with('^') || ["-List", "-keys"].contains(&word);
        if always {
            return "Always".to_string();
        }
        if name == "tc_u32_key" && line.name == "offmask" {
            return "Equal(0)".to_string();
        }
        if let (false, Some(width)) = (line.column("mask").is_empty(), width(line)) {
            return format!("Equal({})", 8 * width);
        }
        let number = line.column("=").trim_end_matches(';');
        if let Some(Ok(most)) = number.strip_prefix("0-").map(str::parse::<u64>) {
            return format!("Below({})", most.saturating_add(1));
        }
        if !number.is_empty() {
            return format!("Equal({number})");
        }
        let is_number = matches!(line.form, Some(Form::Number(_))) && line.names.is_empty();
        let is_counted = self.is_statistics(block) && is_number && (!COUNTS.contains(&name) || word.is_empty());
        if is_counted || word.starts_with(';') && !is_group(line) { "Equal(0)".to_string() } else { "Never".to_string() }
    }

    /// The word, the style and what belongs to it, by the column `tc`.
    fn style(&self, block: &Block, line: &Line, word: &str) -> (String, &'static str, String) {
        let name = block.names.first().map_or("", String::as_str);
        let with_word = |word: &str, style| (word.to_string(), style, String::new());
        match &line.form {
            Some(Form::ByKind(by)) => return with_word("", if by.what == "options" { "Flat" } else { "Statistics" }),
            Some(Form::Indexed(inner)) if matches!(&**inner, Form::List(List { how, .. }) if how == "own") => return with_word("", "Actions"),
            // The options of an action of this kind.
            Some(Form::List(List { name, .. })) if name == "police" && block.file.starts_with("filters/") => return with_word("police", "Actions"),
            Some(Form::Array(_)) if name == "tc_u32_sel" => return with_word("", "Keys"),
            Some(Form::Struct(of)) if of == "tc_ratespec" && !word.is_empty() => return (word.to_string(), "Rate", self.replacing(block, word)),
            _ => {}
        }
        if name == "tc_ratespec" && line.name == "rate" {
            return with_word(word, "OfRate");
        }
        let after = word.get(1..).unwrap_or("");
        match word.as_bytes() {
            b"-protocol" => return with_word("eth_type", "Protocol"),
            [b'-' | b'/' | b'^', ..] => return with_word("", "Value"),
            [b';', ..] => return with_word(after, "Statistics"),
            [b'<', ..] => return with_word(after, "Head"),
            [b'>', ..] => return with_word(after, "Control"),
            _ => {}
        }
        let bits = if let Some(Form::Bits(_, of)) = &line.form { Some(of.as_str()) } else { None };
        if bits == Some("tca_cls_flags") && word == "%" {
            return with_word("", "Hardware");
        }
        if COUNTS.contains(&name) && COUNTED.contains(&&*line.name) {
            return with_word(&word.replace('%', ""), "Count");
        }
        if let Some((own, rate)) = word.split_once('@') {
            return (own.to_string(), "Burst", rate.to_string());
        }
        if word.contains('|') {
            return with_word(&word.replace('+', " "), "Choice");
        }
        if word == "%" {
            let is_bits = bits.is_some() && line.names.is_empty();
            return with_word(
                "",
                if is_group(line) {
                    "Flat"
                } else if is_bits {
                    "Bits"
                } else {
                    "Alone"
                },
            );
        }
        if word.is_empty() && self.is_of_bytes(block, line) {
            return with_word("", "Bytes");
        }
        companion(block, line).map_or_else(|| with_word(word, "Value"), |(style, with)| (word.to_string(), style, with))
    }

    /// True for bytes, and for an array of numbers that are no statistics.
    fn is_of_bytes(&self, block: &Block, line: &Line) -> bool {
        match &line.form {
            Some(Form::Leaf(leaf)) => leaf == "hex",
            Some(Form::Array(inner)) => matches!(**inner, Form::Number(_)) && !self.is_statistics(block),
            _ => false,
        }
    }

    /// The name of the attribute of 64 bits that replaces the rate with this word in a record.
    fn replacing(&self, record: &Block, word: &str) -> String {
        let has = |form: &Option<Form>| matches!(form, Some(Form::Struct(name)) if record.names.first() == Some(name));
        let mut lists = self.tables.blocks.iter().filter(|it| it.sort == "list" && it.lines.iter().any(|line| has(&line.form)));
        let found = lists.find_map(|list| list.lines.iter().find(|line| line.column("tc").strip_prefix('^') == Some(word)));
        found.map_or(String::new(), |line| line.name.clone())
    }
}

/// The name of the table of a block.
pub(crate) fn place(sort: &str, name: &str) -> String {
    constant(&format!("{sort}_{name}"))
}

fn table(what: &str, name: &str, items: &[String]) -> String {
    if items.is_empty() {
        return String::new();
    }
    // The flags of a line that also has `names` are named by those.
    format!("#[allow(dead_code)]\npub(crate) static {name}: [visit::{what}; {}] = [\n{},\n];\n", items.len(), items.join(",\n"))
}

fn plain(style: &'static str) -> Written {
    Written { word: String::new(), style, with: String::new(), left: "Never".to_string(), detailed: "Never".to_string() }
}

fn literal(name: &str, kernel: &str, label: &str, layer: &str, unit: &str, names: &str, written: &Written) -> String {
    let Written { word, style, with, left, detailed } = written;
    format!(
        "visit::Row {{ name: {name:?}, kernel: {kernel:?}, label: {label:?}, layer: {layer:?}, unit: visit::Unit::{unit}, names: visit::Names::{names}, \
         word: {word:?}, style: visit::Style::{style}, with: {with:?}, left_out: visit::LeftOut::{left}, \
         left_out_with_statistics: visit::LeftOut::{detailed} }}"
    )
}

/// The name of a number or a bit.
fn named(sort: &str, line: &Line) -> String {
    let label = if sort == "names" { line.name.clone() } else { people(&line.name) };
    format!("visit::Name {{ number: {}, name: {:?}, label: {label:?}, kernel: {:?} }}", line.number, line.name, line.kernel)
}

/// A name in JSON for people: `EthDst` as `eth_dst`.
fn people(name: &str) -> String {
    let mut before = ' ';
    let mut text = String::new();
    for c in name.chars() {
        if c.is_ascii_uppercase() && (before.is_ascii_lowercase() || before.is_ascii_digit()) {
            text.push('_');
        }
        text.push(c.to_ascii_lowercase());
        before = c;
    }
    text
}

fn layer(form: Option<&Form>) -> &str {
    if let Some(Form::List(List { layer, .. })) = form { layer } else { "" }
}

/// The names that a line's numbers have: a variant of `Names`.
fn names(line: &Line) -> String {
    let of = |variant: &str, sort: &str, name: &str| format!("{variant}(&{})", place(sort, name));
    match innermost(line.form.as_ref()) {
        Some(Form::Enum(_, name)) => of("Enum", "enum", name),
        _ if !line.names.is_empty() => of("Numbers", "names", &line.names),
        Some(Form::Bits(_, name)) => of("Flags", "bits", name),
        _ => "None".to_string(),
    }
}

/// The form of the elements of an array, or the form itself.
fn innermost(form: Option<&Form>) -> Option<&Form> {
    match form {
        Some(Form::Array(inner) | Form::Times(_, inner)) => innermost(Some(inner)),
        _ => form,
    }
}

fn unit_of(line: &Line) -> &'static str {
    // Names are those of any number, flags too.
    if line.names.is_empty() && !matches!(innermost(line.form.as_ref()), Some(Form::Number(_))) {
        return "None";
    }
    UNITS.iter().find(|(unit, _)| *unit == line.unit).map_or("None", |(_, variant)| variant)
}

/// The bytes of a line's value, if all values have as many.
fn width(line: &Line) -> Option<u32> {
    match line.form.as_ref()? {
        Form::Number(number) | Form::Enum(number, _) | Form::Bits(number, _) => Some(bits_of(rust_number(number)) / 8),
        Form::Leaf(leaf) => [("ipv4", 4), ("ipv6", 16), ("mac", 6)].iter().find(|(name, _)| name == leaf).map(|(_, width)| *width),
        _ => None,
    }
}

/// True if members are within.
fn is_group(line: &Line) -> bool {
    matches!(line.form, Some(Form::Struct(_) | Form::List(_) | Form::Choice(_)))
}

/// The style of a value with a mask or an end, and the name of that.
fn companion(block: &Block, line: &Line) -> Option<(&'static str, String)> {
    block.lines.iter().find_map(|other| {
        let is_mask = other.column("mask") == line.name || other.column("tc").strip_prefix('/') == Some(&line.name);
        let style = if is_mask { "Mask" } else { "Range" };
        (is_mask || other.column("end") == line.name).then(|| (style, other.name.clone()))
    })
}

// ---- Statistics

/// The blocks that forms name.
fn blocks_in(form: &Form, found: &mut Vec<(&'static str, String)>) {
    match form {
        Form::Struct(name) => found.push(("struct", name.clone())),
        Form::Choice(name) => found.push(("choice", name.clone())),
        Form::List(list) => found.push(("list", list.name.clone())),
        Form::Array(inner) | Form::Times(_, inner) | Form::Indexed(inner) => blocks_in(inner, found),
        _ => {}
    }
}

/// The records and lists that are statistics wherever they are.
fn statistics(tables: &Tables) -> Vec<(&'static str, String)> {
    let by_name: BTreeMap<(&str, &str), &Block> = tables.blocks.iter().filter_map(|it| Some(((&*it.sort, it.names.first()?.as_str()), it))).collect();
    let is_of_kind = |block: &Block| KINDS.contains(&&*block.sort);
    let is_counted = |block: &Block, line: &Line| {
        if is_of_kind(block) { line.name == "statistics" } else { line.column("tc").starts_with(';') }
    };
    let mut counted = vec![("struct", "tc_stats".to_string()), ("list", "stats".to_string())];
    for block in &tables.blocks {
        let forms = block.lines.iter().filter(|line| is_counted(block, line)).filter_map(|line| line.form.as_ref());
        forms.for_each(|form| blocks_in(form, &mut counted));
    }
    let mut at = 0;
    while let Some((sort, name)) = counted.get(at).cloned() {
        let mut inner = Vec::new();
        let lines = by_name.get(&(sort, &*name)).map_or(&[][..], |block| &block.lines);
        lines.iter().filter_map(|line| line.form.as_ref()).for_each(|form| blocks_in(form, &mut inner));
        inner.retain(|it| !counted.contains(it));
        counted.extend(inner);
        at += 1;
    }
    let mut others = Vec::new();
    for block in &tables.blocks {
        let is_in = counted.iter().any(|(sort, name)| *sort == block.sort && block.names.first() == Some(name));
        let lines = block.lines.iter().filter(|line| !is_in && !is_counted(block, line));
        lines.filter_map(|line| line.form.as_ref()).for_each(|form| blocks_in(form, &mut others));
    }
    counted.retain(|it| !others.contains(it));
    counted
}
