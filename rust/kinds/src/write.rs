//! The text of the types: a call of a macro for each block, in a module for each file.

use crate::Fault;
use crate::names::{constant, ident, snake, type_name, variant};
use crate::notation::{Block, ByKind, Form, KINDS, Line, List, Tables};
use crate::rows::{Rows, place};
use crate::usage::{remark, usage};
use crate::uses::{Uses, bits_of, rust_number};
use std::collections::{BTreeMap, BTreeSet};
use std::fmt::Write as _;

const NLA_F_NESTED: i64 = 0x8000;
/// Units, as docs say them. How outlines write a number (`hex`) is no unit.
const UNITS: &[(&str, &str)] = &[
    ("bytes", "in bytes"),
    ("packets", "in packets"),
    ("bytes/s", "in bytes per second"),
    ("packets/s", "in packets per second"),
    ("kbit/s", "in kbit per second"),
    ("ns", "in nanoseconds"),
    ("us", "in microseconds"),
    ("ms", "in milliseconds"),
    ("s", "in seconds"),
    ("ticks", "in ticks of 64 ns"),
    ("clock_t", "in `clock_t`, 1/100 s"),
    ("percent", "in percent"),
    ("probability", "in units of 2^-32"),
    ("ifindex", "index of an interface"),
    ("log2", "as a logarithm to base 2"),
    ("net_hex", "four bytes of a packet, read as a little-endian number"),
    ("u32_handle", "a handle of u32, such as `800::800`"),
];

/// Writes the types of all tables.
pub(crate) fn types(tables: &Tables) -> Result<String, Fault> {
    let writer = Writer { tables, uses: Uses::of(tables), rows: Rows::of(tables) };
    writer.check_names()?;
    let mut root = String::new();
    let mut folders: BTreeMap<&str, String> = BTreeMap::new();
    for (file, about) in &tables.files {
        let (folder, name) = file.split_once('/').unwrap_or(("", file));
        let text: String = tables.blocks.iter().filter(|it| it.file == *file && !writer.is_at_root(it)).map(|it| writer.block(it)).collect();
        let module = module(name, &escaped(about), &text);
        folders.entry(folder).or_default().push_str(&module);
    }
    for (folder, text) in folders {
        root += &if folder.is_empty() { text } else { module(folder, &format!("The tables of {folder}."), &text) };
    }
    let top: String = tables.blocks.iter().filter(|it| writer.is_at_root(it)).map(|it| writer.block(it)).collect();
    root += &format!("pub use top::*;\nmod top {{\nuse crate::kinds::prelude::*;\n{top}{}}}\n", writer.enums_by_kind());
    Ok(root + &writer.prelude())
}

/// Writes the page of all kinds.
pub(crate) fn page(tables: &Tables) -> String {
    let writer = Writer { tables, uses: Uses::of(tables), rows: Rows::of(tables) };
    let mut page = "Every kind, with the types of its options and statistics.\n\n| Kind | | Options | Statistics |\n|---|---|---|---|\n".to_string();
    for block in tables.blocks.iter().filter(|block| KINDS.contains(&&*block.sort)) {
        let types = |what: &str| {
            let forms = block.lines.iter().filter(|line| line.name == what).filter_map(|line| line.form.as_ref());
            forms.map(|form| writer.linked(form)).collect::<Vec<_>>().join(", ")
        };
        let names = block.names.iter().map(|name| format!("`{name}`")).collect::<Vec<_>>().join(", ");
        _ = writeln!(page, "| {names} | {} | {} | {} |", block.sort, types("options"), types("statistics"));
    }
    page
}

/// The module of a block, below `kinds`.
pub(crate) fn path_of(block: &Block) -> String {
    block.file.split('/').map(ident).collect::<Vec<_>>().join("::")
}

fn module(name: &str, about: &str, text: &str) -> String {
    format!("#[doc = {about:?}]\npub mod {} {{\n#[allow(unused_imports)]\nuse crate::kinds::prelude::*;\n{text}}}\n", ident(name))
}

/// A form in Rust: the type of its values, the type that reads and writes them, and what a setter takes.
struct Type {
    value: String,
    layout: String,
    taken: String,
}

struct Writer<'a> {
    tables: &'a Tables,
    uses: Uses,
    rows: Rows<'a>,
}

impl Writer<'_> {
    /// The structs of whole messages are at the root, beside the enums by kind.
    fn is_at_root(&self, block: &Block) -> bool {
        block.sort == "struct" && self.tables.messages.iter().any(|form| *form == Form::Struct(block.names[0].clone()))
    }

    /// Blocks with a type of their own.
    fn typed(&self) -> impl Iterator<Item = &Block> {
        self.tables.blocks.iter().filter(|block| block.sort != "names" && !KINDS.contains(&&*block.sort))
    }

    fn check_names(&self) -> Result<(), Fault> {
        let mut seen: BTreeMap<String, &Block> = BTreeMap::new();
        for block in self.typed() {
            let name = type_name(&block.sort, &block.names[0]);
            if let Some(other) = seen.insert(name.clone(), block) {
                return Err(format!("{}: the type {name} is also that of {} {} in {}", block.file, other.sort, other.names[0], other.file));
            }
        }
        Ok(())
    }

    /// The names of all types, which each module imports.
    fn prelude(&self) -> String {
        let outside: BTreeSet<String> = self.typed().filter(|it| !self.is_at_root(it)).map(path_of).collect();
        let uses: String = outside.iter().map(|path| format!("pub(super) use super::{path}::*;\n")).collect();
        format!("mod prelude {{\npub(super) use super::*;\n{uses}}}\n")
    }

    /// The type of a form, with a link if it is one of the tables.
    fn linked(&self, form: &Form) -> String {
        let value = self.form(form, "").value;
        let name = value.strip_prefix("Attrs<").and_then(|value| value.strip_suffix('>')).unwrap_or(&value);
        match self.typed().find(|block| type_name(&block.sort, &block.names[0]) == name) {
            Some(block) => format!("[`{name}`](crate::kinds::{}::{name})", path_of(block)),
            None => format!("`{value}`"),
        }
    }

    fn block(&self, block: &Block) -> String {
        let Some(name) = block.names.first() else { return String::new() };
        let types = match &*block.sort {
            "struct" => self.record(block, name),
            "list" => self.list(block, name),
            "enum" => self.named_number(block, name),
            "bits" => self.flags(block, name),
            "names" => self.constants(block, name),
            "choice" => self.choice(block, name),
            _ => String::new(),
        };
        types + &self.rows.table(block)
    }

    // ---- Blocks

    fn record(&self, block: &Block, name: &str) -> String {
        let fields = forms_of(block).map(|(at, line, form)| {
            let field = ident(&line.name);
            let doc = if matches!(form, Form::Pad(_)) { "Padding.".to_string() } else { self.doc_of(line) + remark(name, &line.name) };
            let Type { value, layout, .. } = self.form(form, &line.unit);
            let alias = if snake(&line.name) == line.name { "" } else { &line.name };
            let row = row_of(block, name, at);
            format!("{}{field} {:?} {:?} ({value}) ({layout}) {row},\n", attributes(&doc, alias), line.name, layer(form))
        });
        let what = match block.lines.first().and_then(|line| line.form.as_ref()) {
            Some(Form::Struct(header)) if self.is_at_root(block) => format!("A message without its netlink header: `struct {header}` and attributes"),
            _ => format!("`struct {name}`"),
        };
        let about = about(&what, block) + &usage(self.tables, block);
        format!("record! {{ {}{} {{\n{}}} }}\n", attributes(&about, name), type_name("struct", name), fields.collect::<String>())
    }

    fn list(&self, block: &Block, name: &str) -> String {
        let rows = forms_of(block).map(|(at, line, form)| {
            let method = snake(&line.name);
            let Type { value, layout, taken } = self.form(form, &line.unit);
            let doc = self.numbered_doc_of(line);
            let front = format!("{}{} {} with_{method}", attributes(&doc, &line.kernel), variant(&line.name), ident(&method));
            let types = format!("({value}) ({layout}) ({taken}) {:?}", unit_of(line).map_or(String::new(), |unit| format!(", {unit}")));
            let row = row_of(block, name, at);
            format!("{front} {:?} {:?} {} {} {types} {row},\n", line.name, layer(form), line.number, flags_of(form))
        });
        let type_name = type_name("list", name);
        let getters = format!("A list of them is an [`Attrs`]`<{type_name}>`, which has a getter for each, and a method `with_..` that appends it.");
        let about = format!("{}\n\n{getters}{}", about(&format!("An attribute of the list `{name}`"), block), usage(self.tables, block));
        let kinds = self.uses.kinds(name);
        format!("attrs! {{ {}{type_name} {kinds} {{\n{}}} }}\n", attributes(&about, ""), rows.collect::<String>())
    }

    fn named_number(&self, block: &Block, name: &str) -> String {
        let number = self.uses.number("enum", name);
        let rows = block.lines.iter().map(|line| {
            let wraps = number.starts_with('u') && line.number < 0;
            let value = i128::from(line.number) + if wraps { 1 << bits_of(number) } else { 0 };
            format!("{}{} {:?} = {value},\n", attributes(&self.numbered_doc_of(line), &line.kernel), variant(&line.name), line.name)
        });
        let about = about(&format!("A number with names: `{name}`"), block);
        format!("names! {{ {}{}: {number} {{\n{}}} }}\n", attributes(&about, ""), type_name("enum", name), rows.collect::<String>())
    }

    fn flags(&self, block: &Block, name: &str) -> String {
        let rows = block.lines.iter().map(|line| format!("{}{} = {},\n", attributes(&self.doc_of(line), &line.kernel), constant(&line.name), line.number));
        let about = about(&format!("A set of flags: `{name}`"), block);
        let number = self.uses.number("bits", name);
        format!("bits! {{ {}{}: {number} {{\n{}}} }}\n", attributes(&about, ""), type_name("bits", name), rows.collect::<String>())
    }

    fn constants(&self, block: &Block, name: &str) -> String {
        let number = self.uses.number("names", name);
        let rows = block
            .lines
            .iter()
            .map(|line| format!("{}pub const {}: {number} = {};\n", attributes(&self.doc_of(line), &line.kernel), constant(&line.name), line.number));
        let about = about(&format!("Names of numbers: `{name}`"), block);
        format!("{}pub mod {} {{\n{}}}\n", attributes(&about, ""), ident(name), rows.collect::<String>())
    }

    fn choice(&self, block: &Block, name: &str) -> String {
        let rows = forms_of(block).map(|(at, line, form)| {
            let Type { value, layout, .. } = self.form(form, "");
            let prefix: Vec<String> = (0..line.prefix.len() / 2).map(|at| format!("0x{}", &line.prefix[2 * at..2 * at + 2])).collect();
            let front = format!("{}{} {:?} {:?}", attributes(&self.doc_of(line), ""), variant(&line.name), line.name, layer(form));
            format!("{front} [{}] {:?}, ({value}) ({layout}) {},\n", prefix.join(", "), line.length, row_of(block, name, at))
        });
        let about = about(&format!("One of the forms of `{name}`"), block) + &usage(self.tables, block);
        format!("choice! {{ {}{} {{\n{}}} }}\n", attributes(&about, ""), type_name("choice", name), rows.collect::<String>())
    }

    // ---- Options and statistics, by kind

    fn enums_by_kind(&self) -> String {
        let mut done = BTreeSet::new();
        let forms = self.tables.blocks.iter().flat_map(|block| &block.lines).filter_map(|line| line.form.as_ref());
        let by_kind = forms.filter_map(|form| if let Form::ByKind(by) = form { Some(by) } else { None });
        by_kind.filter(|by| done.insert(enum_by_kind(by))).map(|by| self.by_kind(by)).collect()
    }

    fn by_kind(&self, by: &ByKind) -> String {
        let name = enum_by_kind(by);
        let kinds = self.tables.blocks.iter().filter(|block| by.sorts.contains(&block.sort));
        let lines = kinds.flat_map(|block| block.lines.iter().filter(|line| line.name == by.what).map(move |line| (block, line)));
        let lines: Vec<(&Block, &Line)> = lines.filter(|(_, line)| line.form.is_some()).collect();
        let table = place("by_kind", name);
        let (mut rows, mut values, mut actions) = (String::new(), BTreeMap::<String, Vec<(String, bool)>>::new(), String::new());
        for (at, (block, line)) in lines.iter().enumerate() {
            let Some(form) = &line.form else { continue };
            let (Type { value, layout, .. }, variant) = (self.form(form, ""), variant(&block.names[0]));
            let words: Vec<String> = block.names.iter().map(|kind| format!("{kind:?}")).collect();
            let doc = format!("Of the {} `{}`.", block.sort, block.names.join("`, `"));
            let names = format!("{variant} {:?} {:?}", line.kernel, layer(form));
            rows += &format!("{}{names} {} ({value}) ({layout}) [{table}[{at}]] = {},\n", attributes(&doc, ""), flags_of(form), words.join(" | "));
            if let Some(attribute) = self.actions_in(form) {
                actions += &format!("{variant} {},\n", ident(&attribute));
            }
            let is_own = matches!(form, Form::List(list) if list.name == block.names[0]);
            values.entry(value).or_default().push((variant, is_own));
        }
        let doc = format!("The {} of a kind: {}.", by.what, by.sorts.join(", "));
        let other = format!("{:?} {} {}", by.other, flags_of(&by.form), if matches!(*by.form, Form::Leaf(_)) { "hex" } else { "form" });
        let other_form = self.form(&by.form, "").layout;
        let other_row = format!("[{table}[{}]]", lines.len());
        let mut text = format!("by_kind! {{ {}{name} {other} ({other_form}) {other_row} {{\n{rows}}} }}\n", attributes(&doc, ""));
        text += &self.rows.by_kind(&table, by, &lines.iter().map(|(_, line)| *line).collect::<Vec<_>>());
        // A list that several kinds have is that of the kind of its name.
        for (value, variants) in &values {
            let own = variants.iter().find(|(_, is_own)| *is_own || variants.len() == 1);
            text += &own.map_or_else(String::new, |(variant, _)| format!("from! {{ {name} {variant} ({value}) }}\n"));
        }
        if !actions.is_empty() {
            text += &format!("actions! {{ {name} {{\n{actions}}} }}\n");
        }
        text
    }

    /// The name of the attribute of a list that holds actions.
    fn actions_in(&self, form: &Form) -> Option<String> {
        let (Form::List(list), actions) = (form, self.tables.aliases.get("actions")?) else { return None };
        let block = self.tables.blocks.iter().find(|block| block.sort == "list" && block.names[0] == list.name)?;
        block.lines.iter().find(|line| line.form.as_ref() == Some(actions)).map(|line| line.name.clone())
    }

    // ---- Forms

    fn form(&self, form: &Form, unit: &str) -> Type {
        let (value, layout) = match form {
            Form::Number(number) if rust_number(number) == "u32" && unit == "ticks" => ("Ticks".to_string(), coded("Ticks", number)),
            Form::Number(number) if rust_number(number) == "u32" && unit == "probability" => ("Prob".to_string(), coded("Prob", number)),
            Form::Number(number) => (rust_number(number).to_string(), number_layout(number)),
            Form::Enum(number, name) => with_value(type_name("enum", name), |it| coded(it, number)),
            Form::Bits(number, name) => with_value(type_name("bits", name), |it| coded(it, number)),
            Form::Leaf(leaf) => leaf_type(leaf),
            Form::Bytes(len) => (format!("[u8; {len}]"), format!("Fixed<{len}>")),
            Form::Pad(len) => (format!("[u8; {len}]"), format!("Pad<{len}>")),
            Form::Struct(name) => with_value(type_name("struct", name), str::to_string),
            Form::Choice(name) => with_value(type_name("choice", name), str::to_string),
            Form::ByKind(by) => with_value(enum_by_kind(by).to_string(), str::to_string),
            Form::List(list) => with_value(type_name("list", &list.name), str::to_string),
            Form::Array(inner) | Form::Times(_, inner) | Form::Indexed(inner) => {
                let Type { value, layout, .. } = self.form(inner, unit);
                (value, layout)
            }
        };
        let (value, layout) = match form {
            Form::List(_) => (format!("Attrs<{value}>"), format!("List<{layout}>")),
            Form::Array(_) => (format!("Vec<{value}>"), format!("Array<{layout}>")),
            Form::Times(times, _) => (format!("[{value}; {times}]"), format!("Times<{times}, {layout}>")),
            Form::Indexed(_) => (format!("Indexed<{value}>"), format!("Each<{layout}>")),
            _ => (value, layout),
        };
        let converts = matches!(form, Form::List(_) | Form::Array(_) | Form::Indexed(_) | Form::ByKind(_) | Form::Leaf(_));
        let taken = if converts && !["()", "bool"].contains(&&*value) { format!("impl Into<{value}>") } else { value.clone() };
        Type { value, layout, taken }
    }

    fn doc_of(&self, line: &Line) -> String {
        self.doc_with(line, (!line.kernel.is_empty()).then(|| format!("`{}`", line.kernel)))
    }

    /// The same with the number after the kernel's name: the type of an attribute, or the number that has the name.
    fn numbered_doc_of(&self, line: &Line) -> String {
        self.doc_with(line, (!line.kernel.is_empty()).then(|| format!("`{}` ({})", line.kernel, line.number)))
    }

    fn doc_with(&self, line: &Line, kernel: Option<String>) -> String {
        let mut parts: Vec<String> = kernel.into_iter().collect();
        parts.extend(unit_of(line).map(str::to_string));
        if matches!(&line.form, Some(Form::Number(number) | Form::Enum(number, _) | Form::Bits(number, _)) if number.starts_with("be")) {
            parts.push("big-endian in the message".to_string());
        }
        if let Some(block) = self.tables.blocks.iter().find(|block| block.sort == "names" && block.names.first() == Some(&line.names)) {
            parts.push(format!("named in [`{}`](crate::kinds::{}::{})", line.names, path_of(block), ident(&line.names)));
        }
        if !line.comment.is_empty() {
            parts.push(escaped(&line.comment));
        }
        sentence(&parts.join(", "))
    }
}

/// The lines of a block that have a form, each with its place among them.
fn forms_of(block: &Block) -> impl Iterator<Item = (usize, &Line, &Form)> {
    block.lines.iter().filter_map(|line| Some((line, line.form.as_ref()?))).enumerate().map(|(at, (line, form))| (at, line, form))
}

/// The row of a line of a block.
fn row_of(block: &Block, name: &str, at: usize) -> String {
    format!("[{}[{at}]]", place(&block.sort, name))
}

/// The unit of a line, as docs say it.
fn unit_of(line: &Line) -> Option<&'static str> {
    UNITS.iter().find(|(unit, _)| *unit == line.unit).map(|(_, text)| *text)
}

fn with_value(value: String, layout: impl Fn(&str) -> String) -> (String, String) {
    let layout = layout(&value);
    (value, layout)
}

fn number_layout(number: &str) -> String {
    if number.starts_with("be") { format!("Be<{}>", rust_number(number)) } else { rust_number(number).to_string() }
}

/// A type whose values are numbers in a message.
fn coded(value: &str, number: &str) -> String {
    format!("Coded<{value}, {}>", number_layout(number))
}

fn leaf_type(leaf: &str) -> (String, String) {
    let (value, layout) = match leaf {
        "handle" => ("Handle", "Coded<Handle, u32>"),
        "flag" => ("()", "Empty"),
        "bool" => ("bool", "Truth"),
        "text" => ("String", "Text"),
        "bare" => ("String", "Bare"),
        "kind" => ("String", "Kind"),
        "mac" => ("Mac", "Mac"),
        "ipv4" => ("Ipv4Addr", "Ipv4Addr"),
        "ipv6" => ("Ipv6Addr", "Ipv6Addr"),
        _ => ("Bytes", "Bytes"),
    };
    (value.to_string(), layout.to_string())
}

fn enum_by_kind(by: &ByKind) -> &'static str {
    match (&*by.what, by.sorts.iter().any(|sort| sort == "action")) {
        ("options", true) => "ActionOptions",
        ("options", _) => "Options",
        _ => "Statistics",
    }
}

fn layer(form: &Form) -> &str {
    if let Form::List(List { layer, .. }) = form { layer } else { "" }
}

/// The flags of the attribute that holds a form.
fn flags_of(form: &Form) -> i64 {
    if matches!(form, Form::List(List { how, .. }) if how == "nested") { NLA_F_NESTED } else { 0 }
}

fn about(what: &str, block: &Block) -> String {
    let more = if block.about.is_empty() { String::new() } else { format!(" {}", sentence(&escaped(&block.about))) };
    format!("{what}.{more}")
}

/// With a capital at the front and a full stop at the end.
fn sentence(text: &str) -> String {
    let Some(first) = text.chars().next() else { return String::new() };
    let stop = if text.ends_with(['.', ':']) { "" } else { "." };
    format!("{}{}{stop}", first.to_uppercase(), &text[first.len_utf8()..])
}

/// Escapes the characters that begin HTML, links and emphasis in Markdown.
fn escaped(text: &str) -> String {
    text.chars().flat_map(|c| "<[*".contains(c).then_some('\\').into_iter().chain([c])).collect()
}

fn attributes(doc: &str, alias: &str) -> String {
    let mut text = String::new();
    if !doc.is_empty() {
        _ = writeln!(text, "#[doc = {doc:?}]");
    }
    if !alias.is_empty() {
        _ = writeln!(text, "#[doc(alias = {alias:?})]");
    }
    text
}
