//! The words of a leaf, given the leaves around it.

use crate::user::prelude::*;

use conjareho::kinds::visit::{Name, Names, Style};

use crate::show::brief::leaf::{Leaf, Section, Shape, Shown, Value};
use crate::show::brief::numbers::{put_bits, put_burst};
use crate::show::brief::values::{
    depth_after, is_count, is_hollow, is_left_out, is_opening, is_set, is_skipped, is_table, is_verdict, items_of,
    number_in, put_assigned, put_hex_bytes, put_name_of, put_open, put_value, put_within,
};
use crate::show::brief::words::put_word;
use crate::show::columns::KindColumns;
use crate::show::units::{hex_digit, put_decimal, put_hex, put_verdict};

/// A line, and memory for a word.
pub(crate) struct Line<'c> {
    pub text: Vec<u8>,
    pub word: Vec<u8>,
    /// The object, and names of interfaces.
    pub columns: KindColumns<'c>,
}

/// The leaves among which a rate is looked up, and the protocol of the message's header.
#[derive(Clone, Copy)]
pub(crate) struct Scope<'l, 't> {
    pub leaves: &'l [Leaf<'t>],
    pub protocol: u64,
}

impl Line<'_> {
    /// Begins a word.
    pub(crate) fn begin(&mut self) {
        self.word.clear();
    }

    /// Ends a word.
    pub(crate) fn end(&mut self) -> Result<(), AllocError> {
        put_word(&mut self.text, &self.word)
    }

    /// Writes a word.
    pub(crate) fn word(&mut self, raw: &[u8]) -> Result<(), AllocError> {
        put_word(&mut self.text, raw)
    }

    // Writes the word of a row, or begins a word with the name. The value comes next.
    fn begin_valued(&mut self, leaf: &Leaf<'_>) -> Result<(), AllocError> {
        let word = word_before(leaf.style, leaf.word);
        if word.is_empty() {
            self.begin();
            return put_name_of(&mut self.word, leaf);
        }
        self.word(word.as_bytes())?;
        self.begin();
        Ok(())
    }

    // Writes the value without a word, and before malformed bytes the name.
    fn alone_or_raw(&mut self, leaf: &Leaf<'_>) -> Result<(), AllocError> {
        match leaf.value {
            Value::Raw(_) => self.plain(leaf),
            _ => self.alone(leaf),
        }
    }

    // Writes the word or the name of a leaf that is true.
    fn or_key(&mut self, leaf: &Leaf<'_>) -> Result<(), AllocError> {
        if leaf.word.is_empty() {
            return self.word(leaf.key.as_bytes());
        }
        self.word(leaf.word.as_bytes())
    }

    /// Writes `word value` or `Name=value`.
    pub(crate) fn plain(&mut self, leaf: &Leaf<'_>) -> Result<(), AllocError> {
        if let Value::Bool(true) = leaf.value {
            return self.or_key(leaf);
        }
        self.begin_valued(leaf)?;
        put_value(&mut self.word, &self.columns, leaf)?;
        self.end()
    }

    // Writes `Name=value`, whatever word the row has.
    fn assigned(&mut self, leaf: &Leaf<'_>) -> Result<(), AllocError> {
        self.begin();
        put_assigned(&mut self.word, &self.columns, leaf)?;
        self.end()
    }

    /// Writes the value without a word.
    pub(crate) fn alone(&mut self, leaf: &Leaf<'_>) -> Result<(), AllocError> {
        self.begin();
        put_value(&mut self.word, &self.columns, leaf)?;
        self.end()
    }

    // Writes an address and its mask.
    fn masked(&mut self, leaf: &Leaf<'_>, rest: &[Leaf<'_>]) -> Result<(), AllocError> {
        self.begin_valued(leaf)?;
        put_value(&mut self.word, &self.columns, leaf)?;
        put_mask(&mut self.word, &self.columns, next_with(rest, leaf.with))?;
        self.end()
    }

    // Writes the first and the last of a range.
    fn ranged(&mut self, leaf: &Leaf<'_>, rest: &[Leaf<'_>]) -> Result<(), AllocError> {
        self.begin_valued(leaf)?;
        put_value(&mut self.word, &self.columns, leaf)?;
        put_end(&mut self.word, &self.columns, next_with(rest, leaf.with))?;
        self.end()
    }

    // Writes a rate.
    fn rate(&mut self, leaves: &[Leaf<'_>], leaf: &Leaf<'_>) -> Result<(), AllocError> {
        self.begin_valued(leaf)?;
        put_bits(&mut self.word, rate_of(leaves, leaf) as u128 * 8)?;
        self.end()
    }

    // Writes a burst.
    fn burst(&mut self, leaves: &[Leaf<'_>], leaf: &Leaf<'_>) -> Result<(), AllocError> {
        self.begin_valued(leaf)?;
        let rate = rate_named(leaves, leaf.with);
        put_burst(&mut self.word, rate, number_or_zero(leaf))?;
        self.end()
    }

    // Writes bytes in hex, or their number.
    fn hex(&mut self, leaf: &Leaf<'_>) -> Result<(), AllocError> {
        if let Value::Bytes(bytes) = leaf.value {
            self.begin_valued(leaf)?;
            put_hex_bytes(&mut self.word, bytes)?;
            return self.end();
        }
        self.plain(leaf)
    }

    // Writes a protocol, unless it is the header's.
    fn protocol(&mut self, protocol: u64, leaf: &Leaf<'_>) -> Result<(), AllocError> {
        match number_in(&leaf.value) {
            Some(n) if n == protocol => Ok(()),
            _ => self.plain(leaf),
        }
    }

    // Writes the names of the set bits, then the others in hex.
    fn bits(&mut self, names: &[Name], n: u64) -> Result<(), AllocError> {
        let (name, others) = match names.split_first() {
            Some(parts) => parts,
            None => return self.other_bits(n),
        };
        let bit = name.number as u64;
        if !is_set(bit, n) {
            return self.bits(others, n);
        }
        self.word(name.label.as_bytes())?;
        self.bits(others, n - bit)
    }

    fn other_bits(&mut self, n: u64) -> Result<(), AllocError> {
        if n == 0 {
            return Ok(());
        }
        self.begin();
        put_hex(&mut self.word, n)?;
        self.end()
    }

    fn hardware(&mut self, leaf: &Leaf<'_>) -> Result<(), AllocError> {
        match (leaf.row.names, number_in(&leaf.value)) {
            (Names::Flags(names) | Names::Numbers(names), Some(n)) => self.bits(names, n),
            (_, Some(n)) => self.bits(&[], n),
            (_, None) => self.assigned(leaf),
        }
    }

    /// Writes a number in decimal.
    pub(crate) fn decimal(&mut self, n: u64) -> Result<(), AllocError> {
        self.begin();
        put_decimal(&mut self.word, n)?;
        self.end()
    }

    // Writes a verdict, in the words of `tc`.
    fn verdict(&mut self, n: u32) -> Result<(), AllocError> {
        if n / 0x1000_0000 == 1 {
            self.word(b"jump")?;
            return self.decimal((n % 0x1000_0000) as u64);
        }
        if n / 0x1000_0000 == 2 {
            self.word(b"goto")?;
            self.word(b"chain")?;
            return self.decimal((n % 0x1000_0000) as u64);
        }
        self.begin();
        put_verdict(&mut self.word, n)?;
        self.end()
    }

    fn control(&mut self, leaf: &Leaf<'_>) -> Result<(), AllocError> {
        match number_in(&leaf.value) {
            Some(n) if is_verdict(leaf) => self.verdict((n % 0x1_0000_0000) as u32),
            _ => self.plain(leaf),
        }
    }

    // Writes a u32 key.
    fn key(&mut self, leaf: &Leaf<'_>, rest: &[Leaf<'_>]) -> Result<(), AllocError> {
        let mask = match number_in(&leaf.value) {
            Some(mask) => mask,
            None => return self.assigned(leaf),
        };
        let (value, others) = match rest.split_first() {
            Some(parts) => parts,
            None => return self.assigned(leaf),
        };
        match others.split_first() {
            Some((offset, _)) => self.match_at(mask, value, offset),
            None => self.assigned(leaf),
        }
    }

    // Writes the value and the mask of a u32 key, and its offset.
    fn match_at(&mut self, mask: u64, value: &Leaf<'_>, offset: &Leaf<'_>) -> Result<(), AllocError> {
        self.word(b"match")?;
        self.masked_key(number_or_zero(value), mask)?;
        self.word(b"at")?;
        self.alone(&bare(offset))
    }

    // Writes a value and its mask.
    fn masked_key(&mut self, value: u64, mask: u64) -> Result<(), AllocError> {
        self.begin();
        put_key(&mut self.word, value)?;
        self.word.try_extend(b"/")?;
        put_key(&mut self.word, mask)?;
        self.end()
    }

    // Writes a text of one word, or of two with a blank between.
    fn phrase(&mut self, text: &str) -> Result<(), AllocError> {
        let (first, second) = at_blank(text);
        if second == "" {
            return self.word(text.as_bytes());
        }
        self.word(first.as_bytes())?;
        self.word(second.as_bytes())
    }

    // Writes the word of a number.
    fn choice(&mut self, leaf: &Leaf<'_>) -> Result<(), AllocError> {
        let word = choice(leaf.word, number_in(&leaf.value));
        if word.is_empty() {
            return self.assigned(leaf);
        }
        self.phrase(word)
    }

    // Writes a count, unless each line with statistics has it.
    fn count(&mut self, leaves: &[Leaf<'_>], leaf: &Leaf<'_>) -> Result<(), AllocError> {
        if is_counted(count_in(leaf.section, leaves, leaf.key), leaf) {
            return Ok(());
        }
        self.assigned(leaf)
    }

    // Writes a leaf as its style says.
    fn styled(&mut self, scope: &Scope<'_, '_>, rest: &[Leaf<'_>], leaf: &Leaf<'_>) -> Result<(), AllocError> {
        match leaf.style {
            Style::Alone => self.alone_or_raw(leaf),
            Style::Choice => self.choice(leaf),
            Style::Mask => self.masked(leaf, rest),
            Style::Range => self.ranged(leaf, rest),
            Style::OfRate => self.rate(scope.leaves, leaf),
            Style::Burst => self.burst(scope.leaves, leaf),
            Style::Bytes => self.hex(leaf),
            Style::Protocol => self.protocol(scope.protocol, leaf),
            Style::Hardware | Style::Bits => self.hardware(leaf),
            Style::Control => self.control(leaf),
            Style::Key => self.key(leaf, rest),
            Style::Count => self.count(scope.leaves, leaf),
            _ => self.plain(leaf),
        }
    }

    // Writes a list or record as one word.
    fn opened(&mut self, leaf: &Leaf<'_>, shape: Shape, rest: &[Leaf<'_>]) -> Result<(), AllocError> {
        if says_nothing(leaf, shape, rest) {
            return Ok(());
        }
        self.begin_valued(leaf)?;
        put_opened(&mut self.word, &self.columns, shape, rest)?;
        self.end()?;
        Ok(())
    }

    fn by_value(&mut self, scope: &Scope<'_, '_>, rest: &[Leaf<'_>], leaf: &Leaf<'_>) -> Result<(), AllocError> {
        match leaf.value {
            Value::Opens(shape) => self.opened(leaf, shape, rest),
            Value::Closes(_) => Ok(()),
            _ => {
                self.styled(scope, rest, leaf)?;
                Ok(())
            }
        }
    }

    /// Writes a leaf, unless it is left out or written by the one before it.
    pub(crate) fn leaf(
        &mut self,
        scope: &Scope<'_, '_>,
        before: Option<&Leaf<'_>>,
        rest: &[Leaf<'_>],
        leaf: &Leaf<'_>,
    ) -> Result<(), AllocError> {
        if is_taken(before, leaf) || is_left_out(leaf) {
            return Ok(());
        }
        self.by_value(scope, rest, leaf)
    }

    /// Writes the leaves of a section.
    pub(crate) fn section(
        &mut self,
        scope: &Scope<'_, '_>,
        section: Section,
        leaves: &[Leaf<'_>],
    ) -> Result<(), AllocError> {
        let mut depth = 0;
        let mut before = None;
        let mut left = leaves;
        'each: while let [leaf, rest @ ..] = left {
            if depth == 0 && is_in(section, leaf) {
                self.leaf(scope, before, rest, leaf)?;
            }
            depth = match depth_after(depth, &leaf.value) {
                Some(depth) => depth,
                None => return Err(AllocError),
            };
            before = Some(leaf);
            left = rest;
        }
        Ok(())
    }
}

// True of a record without a member, and of a list without an item that has no word of `tc`.
fn says_nothing(leaf: &Leaf<'_>, shape: Shape, rest: &[Leaf<'_>]) -> bool {
    (is_braces(shape) || leaf.word.is_empty()) && is_hollow(rest)
}

/// True if a leaf has words of its own.
pub(crate) fn tells(leaf: &Leaf<'_>, rest: &[Leaf<'_>]) -> bool {
    if is_left_out(leaf) {
        return false;
    }
    match leaf.value {
        Value::Opens(shape) => !says_nothing(leaf, shape, rest),
        Value::Closes(_) => false,
        _ => true,
    }
}

// Appends a list or record; of a list of more than 32 numbers only how many there are.
fn put_opened(out: &mut Vec<u8>, columns: &KindColumns<'_>, shape: Shape, rest: &[Leaf<'_>]) -> Result<(), AllocError> {
    let items = items_of(rest);
    if is_table(shape, items) {
        put_count(out, items.len())?;
        return Ok(());
    }
    put_open(out, shape)?;
    put_within_word(out, columns, rest)
}

// Appends how many numbers there are.
fn put_count(out: &mut Vec<u8>, n: usize) -> Result<(), AllocError> {
    out.try_extend(b"<")?;
    put_decimal(out, n as u64)?;
    out.try_extend(b">")
}

// Appends the rest of a word that began with an open bracket.
fn put_within_word(out: &mut Vec<u8>, columns: &KindColumns<'_>, leaves: &[Leaf<'_>]) -> Result<(), AllocError> {
    let mut depth = 1;
    let mut first = true;
    let mut left = leaves;
    'each: while let [leaf, rest @ ..] = left {
        if depth == 0 {
            return Ok(());
        }
        left = rest;
        if is_skipped(leaf) {
            continue;
        }
        put_within(out, columns, first, leaf)?;
        depth = match depth_after(depth, &leaf.value) {
            Some(depth) => depth,
            None => return Err(AllocError),
        };
        first = is_opening(&leaf.value);
    }
    Ok(())
}

fn is_braces(shape: Shape) -> bool {
    matches!(shape, Shape::Braces)
}

// The word before a value: none of a choice.
fn word_before(style: Style, word: &str) -> &str {
    match style {
        Style::Choice => "",
        _ => word,
    }
}

/// The leaf without its unit.
pub(crate) fn bare<'t>(leaf: &Leaf<'t>) -> Leaf<'t> {
    Leaf { shown: Shown::Plain, ..*leaf }
}

fn is_with(key: &str, leaf: &Leaf<'_>) -> bool {
    leaf.key == key && !is_opening(&leaf.value)
}

fn takes(style: Style) -> bool {
    matches!(style, Style::Mask | Style::Range | Style::Key | Style::KeyValue)
}

// True if the leaf before writes this one.
fn is_taken(before: Option<&Leaf<'_>>, leaf: &Leaf<'_>) -> bool {
    match before {
        Some(before) => takes(before.style) && is_with(before.with, leaf),
        None => false,
    }
}

// The first leaf, if it has this name.
fn next_with<'l, 't>(leaves: &'l [Leaf<'t>], key: &str) -> Option<&'l Leaf<'t>> {
    match leaves.split_first() {
        Some((leaf, _)) if is_with(key, leaf) => Some(leaf),
        _ => None,
    }
}

fn put_mask(out: &mut Vec<u8>, columns: &KindColumns<'_>, mask: Option<&Leaf<'_>>) -> Result<(), AllocError> {
    match mask {
        Some(leaf) if !is_left_out(leaf) => {
            out.try_extend(b"/")?;
            put_value(out, columns, leaf)
        }
        _ => Ok(()),
    }
}

fn put_end(out: &mut Vec<u8>, columns: &KindColumns<'_>, end: Option<&Leaf<'_>>) -> Result<(), AllocError> {
    match end {
        Some(leaf) => {
            out.try_extend(b"-")?;
            put_value(out, columns, leaf)
        }
        None => Ok(()),
    }
}

/// The first count of this name.
pub(crate) fn count_in<'l, 't>(section: Section, leaves: &'l [Leaf<'t>], key: &str) -> Option<&'l Leaf<'t>> {
    let mut left = leaves;
    'each: while let [leaf, rest @ ..] = left {
        if is_in(section, leaf) && is_count(leaf.style) && leaf.key == key {
            return Some(leaf);
        }
        left = rest;
    }
    None
}

fn agrees(first: Option<u64>, number: Option<u64>) -> bool {
    match (first, number) {
        (Some(k), Some(n)) => n == k,
        _ => false,
    }
}

// True if the first count of a leaf's name is the leaf, or has the same number.
fn is_counted(first: Option<&Leaf<'_>>, leaf: &Leaf<'_>) -> bool {
    match first {
        Some(first) => agrees(number_in(&first.value), number_in(&leaf.value)),
        None => false,
    }
}

// The number of a leaf, or 0.
fn number_or_zero(leaf: &Leaf<'_>) -> u64 {
    match number_in(&leaf.value) {
        Some(n) => n,
        None => 0,
    }
}

// The number of the first leaf of this name.
fn number_of(leaves: &[Leaf<'_>], key: &str) -> Option<u64> {
    let mut left = leaves;
    'each: while let [leaf, rest @ ..] = left {
        if leaf.key == key {
            return number_in(&leaf.value);
        }
        left = rest;
    }
    None
}

// A rate: that of its 64-bit attribute if that is there.
fn rate_of(leaves: &[Leaf<'_>], leaf: &Leaf<'_>) -> u64 {
    match number_of(leaves, leaf.with) {
        Some(rate) => rate,
        None => number_or_zero(leaf),
    }
}

fn is_rate(style: Style) -> bool {
    matches!(style, Style::OfRate)
}

// The rate of this word.
fn rate_named(all: &[Leaf<'_>], word: &str) -> u64 {
    let mut left = all;
    'each: while let [leaf, rest @ ..] = left {
        if is_rate(leaf.style) && leaf.word == word {
            return rate_of(all, leaf);
        }
        left = rest;
    }
    0
}

// The word at an index, of words with bars between.
fn choice_at(n: u64, words: &str) -> &str {
    let (word, others) = at_bar(words);
    if n == 0 {
        return word;
    }
    choice_at(n - 1, others)
}

// The parts before and after the first bar; all is before it if there is none.
fn at_bar(text: &str) -> (&str, &str) {
    text.split_once('|').unwrap_or((text, ""))
}

// The parts before and after the first blank; all is before it if there is none.
fn at_blank(text: &str) -> (&str, &str) {
    text.split_once(' ').unwrap_or((text, ""))
}

fn choice(words: &str, number: Option<u64>) -> &str {
    match number {
        Some(n) if n < 64 => choice_at(n, words),
        _ => "",
    }
}

// Appends four digits in hex.
fn put_four(out: &mut Vec<u8>, n: u16) -> Result<(), AllocError> {
    out.try_extend(&[
        hex_digit((n / 0x1000) as u8),
        hex_digit((n / 0x100 % 0x10) as u8),
        hex_digit((n / 0x10 % 0x10) as u8),
        hex_digit((n % 0x10) as u8),
    ])
}

// Appends four bytes of a packet in hex.
fn put_key(out: &mut Vec<u8>, n: u64) -> Result<(), AllocError> {
    put_four(out, (n / 0x10000 % 0x10000) as u16)?;
    put_four(out, (n % 0x10000) as u16)
}

/// True if the leaf is in this section.
pub(crate) fn is_in(section: Section, leaf: &Leaf<'_>) -> bool {
    leaf.section == section
}
