//! After any edit, what is written is read as what was edited, and all else is what it was, byte for byte.
//!
//! `EDITS` is how many edits are made (3,000), `SEED` where the random numbers start.

#[macro_use]
mod edit;
mod random;

pub use edit::{Edit, EditAttr, Edits, renew};
use super::wire::{DEEPEST, Form, Key, Place};
use super::{ActionMessage, Message};
use crate::RewriteError;
use alloc::vec::Vec;
use core::cell::Cell;
use core::fmt::Debug;
use random::{Random, changed};
use std::{env, eprintln, fs, path::Path};

/// A message, read and written.
trait Whole: Form<Value = Self> + Edit + Clone + PartialEq + Debug {
    fn of_bytes(bytes: &[u8]) -> Self;
    fn written(&self) -> Result<Vec<u8>, RewriteError>;
}

impl Whole for Message {
    fn of_bytes(bytes: &[u8]) -> Self {
        Message::parse(bytes).expect("a header")
    }
    fn written(&self) -> Result<Vec<u8>, RewriteError> {
        self.to_bytes()
    }
}

impl Whole for ActionMessage {
    fn of_bytes(bytes: &[u8]) -> Self {
        ActionMessage::parse(bytes).expect("a header")
    }
    fn written(&self) -> Result<Vec<u8>, RewriteError> {
        self.to_bytes()
    }
}

/// The stored messages: whether one is of actions, and its bytes.
fn stored() -> Vec<(bool, Vec<u8>)> {
    let path = Path::new(env!("CARGO_MANIFEST_DIR")).join("../../model/labelled");
    let text = fs::read_to_string(path).expect("the stored messages");
    let octet = |hex: &str, at: usize| u8::from_str_radix(&hex[at..at + 2], 16).expect("hex");
    let lines = text.lines().filter(|line| !line.starts_with('#')).map(|line| line.split(' ').collect::<Vec<_>>());
    let messages = lines.filter(|words| words.len() > 2);
    messages.map(|words| (words[1] == "action", (0..words[2].len()).step_by(2).map(|at| octet(words[2], at)).collect())).collect()
}

fn number(name: &str, otherwise: u64) -> u64 {
    env::var(name).map_or(otherwise, |text| text.parse().unwrap_or_else(|e| panic!("{name}: {e}")))
}

/// Edits a message once, or drops what an edit at the same place may drop.
fn edit<M: Whole>(message: &mut M, edits: &mut Edits) {
    let is_broken = Cell::new(false);
    let place = Place { kind: Key::NONE, levels: DEEPEST, is_broken: &is_broken };
    M::edit(message, place.below().expect("levels"), edits);
}

/// Edits a message so many times. Returns how many edits were compared.
fn compare<M: Whole>(bytes: &[u8], random: &mut Random, times: u64) -> u64 {
    let mut message = M::of_bytes(bytes);
    let mut compared = 0;
    for _ in 0..times {
        let mut edits = Edits::new(random.next());
        let mut edited = message.clone();
        edit(&mut edited, &mut edits);
        let Ok(written) = edited.written() else { continue };
        let read = M::of_bytes(&written);
        let mut pair = [edited.clone(), read.clone()];
        pair.iter_mut().for_each(|it| edit(it, &mut edits.dropping()));
        assert_eq!(pair[0], pair[1], "{:?} of {message:?}\nwas read as {read:?}\nfrom {written:?}", edits.made);
        assert!(read == edited || edits.may_drop, "{:?} of {message:?} dropped something: {read:?}", edits.made);
        assert_eq!(read.written().as_ref(), Ok(&written));
        (message, compared) = (read, compared + 1);
    }
    compared
}

#[test]
fn what_was_edited_is_read_again_and_all_else_as_it_was() {
    let (count, seed) = (number("EDITS", 3000), number("SEED", 0x9e37_79b9_7f4a_7c15));
    eprintln!("SEED={seed} EDITS={count}");
    let (stored, mut random) = (stored(), Random(seed));
    let mut compared = 0;
    let mut tried = 0;
    while tried < count {
        let (is_action, bytes) = &stored[random.below(stored.len())];
        let (_, other) = &stored[random.below(stored.len())];
        let bytes = if random.below(4) == 0 { bytes.clone() } else { changed(&mut random, bytes, other) };
        if bytes.len() < 20 {
            continue;
        }
        let times = 1 + random.below(4) as u64;
        tried += times;
        compared += if *is_action { compare::<ActionMessage>(&bytes, &mut random, times) } else { compare::<Message>(&bytes, &mut random, times) };
    }
    eprintln!("{compared} of {tried} edits fitted and were compared");
    assert!(compared * 10 > tried * 9);
}
