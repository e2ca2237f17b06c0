//! What the page of a type says about its use: an example of a kind's options, or which attributes have it.

use crate::names::{constant, ident, snake, type_name, variant};
use crate::notation::{Block, Form, KINDS, Line, Tables};
use crate::write::path_of;
use std::cmp::Reverse;
use std::collections::{BTreeMap, BTreeSet};

/// Lists that have builders, which their pages name instead of an example.
const BUILT: &[(&str, &str)] = &[
    ("htb", "[`Htb`](crate::kinds::Htb) and [`HtbClass`](crate::kinds::HtbClass) build these lists, and read them"),
    ("tbf", "[`Tbf`](crate::kinds::Tbf) builds these lists, and reads them"),
    ("police", "[`PoliceAction`](crate::kinds::PoliceAction) builds these lists, and reads them"),
];
/// What the page of a field says besides: the record, the field, and the text.
const REMARKS: &[(&str, &str, &str)] = &[
    (
        "tc_u32_sel",
        "nkeys",
        " It has to be the number of `keys`, which [`of`](crate::kinds::filters::u32::U32Sel::of) counts: the kernel drops keys after so many, \
         and a filter of 0 keys matches every packet.",
    ),
    (
        "tc_pedit_sel",
        "nkeys",
        " It has to be the number of `keys`: the kernel refuses 0, and drops keys after so many.",
    ),
    (
        "tc_ratespec",
        "rate",
        " It is 4294967295 if the rate is larger, which is then in an attribute of 64 bits, such as \
         [`HtbAttr::Rate64`](crate::kinds::qdiscs::htb::HtbAttr::Rate64). The builders, such as [`HtbClass`](crate::kinds::HtbClass), read and write both.",
    ),
];
/// The most attributes, or fields, that an example sets.
const MOST: usize = 2;
/// The most places that a page names.
const PLACES: usize = 4;
/// The most characters of the setters of a list in one line.
const WIDTH: usize = 70;
/// Numbers by their units.
const NUMBERS: &[(&str, &str)] = &[
    ("bytes", "1514"),
    ("packets", "1000"),
    ("bytes/s", "125_000"),
    ("packets/s", "1000"),
    ("kbit/s", "1000"),
    ("ns", "1_000_000"),
    ("us", "5000"),
    ("ms", "100"),
    ("s", "10"),
    ("percent", "50"),
    ("ifindex", "2"),
];

/// A value in Rust.
#[derive(Default)]
struct Value {
    text: String,
    /// What it names, each with its module.
    uses: BTreeSet<(String, String)>,
    /// A part of it, as it is reached: `.generic.action`, and the value of that.
    part: Option<(String, String)>,
    /// The pattern that binds what has the part to `options`, unless it is the whole value.
    pattern: Option<String>,
}

impl Value {
    fn of(text: impl Into<String>) -> Value {
        let text = text.into();
        Value { part: Some((String::new(), text.clone())), text, ..Value::default() }
    }

    fn using(mut self, module: &str, name: &str) -> Value {
        self.uses.insert((module.to_string(), name.to_string()));
        self
    }
}

/// What the page of a field says besides, after a space. Empty for most.
pub(crate) fn remark(record: &str, field: &str) -> &'static str {
    REMARKS.iter().find(|(of, name, _)| (*of, *name) == (record, field)).map_or("", |(_, _, text)| text)
}

/// What the page of a block says about its use. Empty if nothing has it.
pub(crate) fn usage(tables: &Tables, block: &Block) -> String {
    let usage = Usage { tables, block };
    if usage.is_message(block) {
        return "\n\nThe page of [its module](crate::kinds) has an example.".to_string();
    }
    match BUILT.iter().find(|(name, _)| block.sort == "list" && block.names[0] == *name) {
        Some((_, builders)) => format!("\n\n{builders}."),
        None => usage.example().unwrap_or_else(|| usage.places()),
    }
}

/// The `use` lines of an example.
fn imports(uses: &BTreeSet<(String, String)>) -> String {
    let mut modules: BTreeMap<&str, Vec<&str>> = BTreeMap::new();
    uses.iter().for_each(|(module, name)| modules.entry(module).or_default().push(name));
    let line = |(module, names): (&&str, &Vec<&str>)| match names.as_slice() {
        [name] => format!("use {module}::{name};\n"),
        names => format!("use {module}::{{{}}};\n", names.join(", ")),
    };
    modules.iter().map(line).collect::<BTreeSet<_>>().into_iter().collect()
}

struct Usage<'a> {
    tables: &'a Tables,
    block: &'a Block,
}

impl Usage<'_> {
    fn find(&self, sort: &str, name: &str) -> Option<&Block> {
        self.tables.blocks.iter().find(|it| it.sort == sort && it.names.first().is_some_and(|it| it == name))
    }

    /// True if a form has values of the block's type.
    fn is_in(&self, form: &Form) -> bool {
        let is_it = |sort: &str, name: &String| self.block.sort == sort && self.block.names.first() == Some(name);
        match form {
            Form::List(list) => is_it("list", &list.name),
            Form::Struct(name) => is_it("struct", name),
            Form::Choice(name) => is_it("choice", name),
            Form::Array(inner) | Form::Times(_, inner) | Form::Indexed(inner) => self.is_in(inner),
            _ => false,
        }
    }

    /// True for a whole message, which is at the root.
    fn is_message(&self, block: &Block) -> bool {
        block.sort == "struct" && self.tables.messages.contains(&Form::Struct(block.names[0].clone()))
    }

    fn has(&self, line: &Line) -> bool {
        line.form.as_ref().is_some_and(|form| self.is_in(form))
    }

    /// The attributes, fields and variants that have the block's type, if they are few.
    fn places(&self) -> String {
        let lines = self.tables.blocks.iter().flat_map(|holder| holder.lines.iter().filter(|line| self.has(line)).map(move |line| (holder, line)));
        let places: BTreeSet<String> = lines.map(|(holder, line)| self.place(holder, line)).collect();
        if places.is_empty() || places.len() > PLACES {
            return String::new();
        }
        format!("\n\nIn {}.", places.into_iter().collect::<Vec<_>>().join(", "))
    }

    /// A link to the variant or field of a line.
    fn place(&self, holder: &Block, line: &Line) -> String {
        let name = &holder.names[0];
        let path = if self.is_message(holder) || KINDS.contains(&&*holder.sort) { String::new() } else { path_of(holder) + "::" };
        let (of, what) = match (&*holder.sort, &*line.name) {
            ("action", "options") => ("ActionOptions".to_string(), variant(name)),
            ("qdisc" | "filter", "options") => ("Options".to_string(), variant(name)),
            ("qdisc" | "filter" | "action", _) => ("Statistics".to_string(), variant(name)),
            ("struct", field) => (type_name("struct", name), ident(field).trim_start_matches("r#").to_string()),
            (sort, it) => (type_name(sort, name), variant(it)),
        };
        format!("[`{of}::{what}`](crate::kinds::{path}{of}::{what})")
    }

    /// An example of the first kind whose options are of the block's type.
    fn example(&self) -> Option<String> {
        let has = |kind: &&Block| KINDS.contains(&&*kind.sort) && kind.lines.iter().any(|line| line.name == "options" && self.has(line));
        let kinds: Vec<&Block> = self.tables.blocks.iter().filter(has).collect();
        let (kind, options) = (kinds.first()?, self.value_of(self.block, MOST)?);
        let (reached, value) = options.part.as_ref()?;
        let by_kind = if kind.sort == "action" { "ActionOptions" } else { "Options" };
        let name = format!("{by_kind}::{}", variant(&kind.names[0]));
        let given = if kinds.len() == 1 && kind.sort != "action" { "options".to_string() } else { format!("{name}(options)") };
        let (message, made, more): (_, _, &[_]) = match &*kind.sort {
            "qdisc" => ("Message", format!("on(2).parent(Handle::ROOT).of({given})"), &[("conjareho::kinds", "Handle")]),
            "filter" => (
                "Message",
                format!("on(2).parent(Handle::INGRESS).filter(10, eth_p::IP).of({given})"),
                &[("conjareho::kinds", "Handle"), ("conjareho::kinds::shared", "eth_p")],
            ),
            _ => ("ActionMessage", format!("of([{given}])"), &[]),
        };
        let pattern = options.pattern.as_deref().unwrap_or("options");
        let reads = |of: &str| format!("if let Some({name}({pattern})) = {of}.options() {{\n    assert_eq!(options{reached}, {value});\n}}");
        let reads = match message {
            "Message" => reads("message"),
            _ => format!("for (_, action) in message.actions().into_iter().flatten() {{\n    {}\n}}", reads("action").replace('\n', "\n    ")),
        };
        let own = [("conjareho::kinds", by_kind), ("conjareho::kinds", message)];
        let uses = own.iter().chain(more).map(|(module, name)| (module.to_string(), name.to_string()));
        Some(format!(
            "\n\n# Example\n\n```\n{}\nlet options = {};\nlet message = {message}::{made};\n\n\
             // To read bytes that a socket received, without their netlink header:\n\
             let message = {message}::parse(&message.to_bytes()?)?;\n{reads}\n# Ok::<(), conjareho::RewriteError>(())\n```",
            imports(&uses.chain(options.uses.clone()).collect()),
            options.text
        ))
    }

    /// A value of a block's type, with so many attributes or fields. `None` if no line says anything.
    fn value_of(&self, block: &Block, most: usize) -> Option<Value> {
        let name = type_name(&block.sort, &block.names[0]);
        let (mut set, mut whole) = (Vec::new(), Value::default());
        for (line, value) in self.chosen(block, most) {
            let (field, variant) = (ident(&line.name), format!("{name}::{}", variant(&line.name)));
            whole.uses.extend(value.uses);
            let (text, part) = match &*block.sort {
                "list" => {
                    let reached = |(reached, it): (String, String)| match &*reached {
                        "" => (format!(".{field}()"), format!("Some(&{it})")),
                        _ => (format!(".{field}().map(|it| it{reached})"), format!("Some({it})")),
                    };
                    (format!(".with_{}({})", snake(&line.name), value.text), value.part.map(reached))
                }
                "struct" => (format!("{field}: {}", value.text), value.part.map(|(reached, it)| (format!(".{field}{reached}"), it))),
                _ => {
                    whole.pattern = Some(format!("{variant}(options)"));
                    (format!("{variant}({})", value.text), value.part)
                }
            };
            set.push(text);
            whole.part = whole.part.or(part);
        }
        if set.is_empty() {
            return None;
        }
        whole.text = match &*block.sort {
            "list" if set.concat().len() <= WIDTH => format!("{name}::list(){}", set.concat()),
            "list" => format!("{name}::list()\n    {}", set.join("\n    ")),
            "struct" if block.lines.len() == 1 => format!("{name} {{ {} }}", set.concat()),
            "struct" => format!("{name} {{ {}, ..{name}::default() }}", set.join(", ")),
            _ => set.concat(),
        };
        Some(whole.using(&format!("conjareho::kinds::{}", path_of(block)), &name))
    }

    /// The lines of a block that say most, in their order, with a value of each.
    fn chosen<'b>(&self, block: &'b Block, most: usize) -> Vec<(&'b Line, Value)> {
        let best = block.lines.iter().map(|line| self.rank(line)).max().unwrap_or(0);
        // Numbers without a unit say little.
        let least = if best > 2 { 3 } else { 1 };
        let mut lines: Vec<(usize, &Line)> = block.lines.iter().enumerate().filter(|(_, line)| self.rank(line) >= least).collect();
        lines.sort_by_key(|(at, line)| (Reverse(self.rank(line)), *at));
        lines.truncate(if block.sort == "choice" { 1 } else { most });
        lines.sort_by_key(|(at, _)| *at);
        lines.into_iter().zip(1..).filter_map(|((_, line), number)| Some((line, self.value(line, number)?))).collect()
    }

    /// A value of a line, which is the first, second and so on of its example.
    fn value(&self, line: &Line, number: u8) -> Option<Value> {
        let named = |sort: &str, name: &str, path: fn(&Block) -> Option<String>| {
            let (block, name) = (self.find(sort, name)?, type_name(sort, name));
            Some(Value::of(format!("{name}::{}", path(block)?)).using(&format!("conjareho::kinds::{}", path_of(block)), &name))
        };
        Some(match line.form.as_ref()? {
            Form::Number(number) if number == "u32" && line.unit == "ticks" => Value::of("Duration::from_millis(10).into()").using("std::time", "Duration"),
            Form::Number(number) if number == "u32" && line.unit == "probability" => Value::of("Prob::percent(1.0)").using("conjareho::kinds", "Prob"),
            Form::Number(_) => Value::of(NUMBERS.iter().find(|(unit, _)| *unit == line.unit).map_or("1", |(_, number)| number)),
            Form::Enum(_, name) => named("enum", name, |block| {
                let line = block.lines.iter().find(|it| it.number > 0).or(block.lines.first())?;
                Some(variant(&block.lines.iter().find(|it| it.name == "Pipe").unwrap_or(line).name))
            })?,
            Form::Bits(_, name) => named("bits", name, |block| Some(constant(&block.lines.first()?.name)))?,
            Form::Leaf(leaf) if leaf == "handle" => Value::of("Handle::new(1, 0x10)").using("conjareho::kinds", "Handle"),
            Form::Leaf(leaf) if leaf == "ipv4" => Value::of(format!("Ipv4Addr::new(10, 0, 0, {number})")).using("std::net", "Ipv4Addr"),
            Form::Leaf(_) => Value { text: "\"eth0\"".to_string(), ..Value::default() },
            Form::Struct(name) => self.value_of(self.find("struct", name)?, 1)?,
            Form::Indexed(_) => {
                let part = Some((".len()".to_string(), "1".to_string()));
                let action = Value { text: "[ActionOptions::from(TcAct::Shot)]".to_string(), part, ..Value::default() };
                action.using("conjareho::kinds", "ActionOptions").using("conjareho::kinds::action", "TcAct")
            }
            _ => return None,
        })
    }

    /// How much a line says about its block, 0 if nothing.
    fn rank(&self, line: &Line) -> u8 {
        let has_unit = !["", "hex", "log2", "net_hex", "u32_handle"].contains(&&*line.unit);
        match line.form.as_ref() {
            _ if line.name == "Tm" || line.name.ends_with("Mask") => 0,
            Some(Form::Leaf(leaf)) if leaf == "ipv4" => 6,
            Some(Form::Struct(_)) if line.name == "Parms" => 6,
            Some(Form::Number(_)) if has_unit => 5,
            Some(Form::Enum(..)) => 5,
            Some(Form::Leaf(leaf)) if leaf == "handle" => 4,
            Some(Form::Leaf(leaf)) if leaf == "text" && line.name.to_lowercase().ends_with("indev") => 4,
            Some(Form::Bits(..)) => 4,
            Some(Form::Struct(_)) if line.name == "generic" => 3,
            Some(Form::Number(_)) => 2,
            Some(Form::Struct(_)) => 1,
            Some(form @ Form::Indexed(_)) if self.tables.aliases.get("actions") == Some(form) => 1,
            _ => 0,
        }
    }
}
