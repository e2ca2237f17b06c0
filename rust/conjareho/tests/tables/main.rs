//! The table of all kinds, looked through whole: names, types and numbers are distinct, each place that a form names has its part, and all that the codec
//! has is in it. `codec.txt` says under which names; what it is on the wire is read from the codec's definitions in `crates/tc_canon/specs`.
#![cfg(feature = "serde")]

mod codec;
mod definitions;
mod kinds;
mod look;
mod planted;
mod sound;

use conjareho::forms::{ACTION_MESSAGE, PLACES, TC_MESSAGE, TcTables};
use look::told;

#[test]
fn every_part_is_sound() {
    let places = (0..PLACES + 48).chain([usize::MAX]);
    let faults: Vec<String> = places.flat_map(|place| sound::faults_at(TcTables, place)).collect();
    assert_eq!(faults, [""; 0]);
    assert_eq!(sound::faults_of_forms(TcTables, "messages", &[TC_MESSAGE, ACTION_MESSAGE]), [""; 0]);
}

#[test]
fn all_of_the_codec_is_there() {
    assert_eq!(codec::Codec::read().faults(TcTables), [""; 0]);
}

#[test]
fn kinds_are_where_the_codec_has_them() {
    assert_eq!(kinds::faults(&codec::Codec::read(), TcTables), [""; 0]);
}

/// The forms of both messages are those that statements name.
#[test]
fn messages_are_those_of_statements() {
    let path = std::path::Path::new(env!("CARGO_MANIFEST_DIR")).join("../../crates/forms_kinds/specs/Table.antt");
    let specs = std::fs::read_to_string(path).expect("definitions of the table");
    for (name, form) in [("tc_message", TC_MESSAGE), ("action_message", ACTION_MESSAGE)] {
        let said = specs.lines().find_map(|line| line.strip_prefix(&format!("{name} = form."))).expect("a form");
        assert_eq!(told(form), said.replace(' ', "(") + ")", "{name}");
    }
}
