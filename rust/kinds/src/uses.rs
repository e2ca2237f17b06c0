//! How the blocks of the tables are used: the widths of named numbers and flags, and how lists treat kinds.

use crate::notation::{Form, List, NUMBERS, Tables};
use std::collections::BTreeMap;

#[derive(Default)]
pub(crate) struct Uses {
    /// The Rust type that holds the numbers of an `enum`, `bits` or `names`: the widest at which it is used, of those the commonest.
    numbers: BTreeMap<(String, String), Vec<&'static str>>,
    /// Lists whose attributes set a kind: `inforce` or `own`.
    kinds: BTreeMap<String, String>,
}

/// The Rust type of a number's values.
pub(crate) fn rust_number(form: &str) -> &'static str {
    NUMBERS.iter().find(|(name, _)| *name == form).map_or("u32", |(_, number)| number)
}

/// How many bits a Rust number has.
pub(crate) fn bits_of(number: &str) -> u32 {
    number[1..].parse().unwrap_or(32)
}

impl Uses {
    pub(crate) fn of(tables: &Tables) -> Uses {
        let mut uses = Uses::default();
        for line in tables.blocks.iter().flat_map(|block| &block.lines) {
            if let Some(form) = &line.form {
                uses.add(form);
                if let (false, Form::Number(number) | Form::Enum(number, _) | Form::Bits(number, _)) = (line.names.is_empty(), form) {
                    uses.add_number("names", &line.names, number);
                }
            }
        }
        tables.messages.iter().for_each(|form| uses.add(form));
        uses
    }

    fn add(&mut self, form: &Form) {
        match form {
            Form::Enum(number, name) => self.add_number("enum", name, number),
            Form::Bits(number, name) => self.add_number("bits", name, number),
            Form::List(List { how, name, .. }) if how == "inforce" || how == "own" => _ = self.kinds.insert(name.clone(), how.clone()),
            Form::Array(inner) | Form::Times(_, inner) | Form::Indexed(inner) => self.add(inner),
            Form::ByKind(by) => self.add(&by.form),
            _ => {}
        }
    }

    fn add_number(&mut self, sort: &str, name: &str, number: &str) {
        self.numbers.entry((sort.to_string(), name.to_string())).or_default().push(rust_number(number));
    }

    /// The Rust type of the numbers of a block.
    pub(crate) fn number(&self, sort: &str, name: &str) -> &'static str {
        let found = self.numbers.get(&(sort.to_string(), name.to_string())).map_or(&[][..], Vec::as_slice);
        let uses = |number: &str| found.iter().filter(|it| **it == number).count();
        found.iter().max_by_key(|number| (bits_of(number), uses(number))).unwrap_or(&"u32")
    }

    /// How a list treats kinds: `InForce`, `Own` or `Plain`.
    pub(crate) fn kinds(&self, list: &str) -> &'static str {
        match self.kinds.get(list).map(String::as_str) {
            Some("inforce") => "InForce",
            Some(_) => "Own",
            None => "Plain",
        }
    }
}
