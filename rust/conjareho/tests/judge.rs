//! The library against the judge: what the proved program `crates/judge` prints of 3,000 messages, which the gate of proofs compares with the stored output.
#![cfg(feature = "serde")]

use conjareho::forms::{ACTION_MESSAGE, Shown, TC_MESSAGE, TcTables};
use conjareho::{locate_action, locate_tc};
use std::path::Path;

/// A file of the judge.
fn judged(name: &str) -> String {
    let path = Path::new(env!("CARGO_MANIFEST_DIR")).join("../../crates/judge").join(name);
    std::fs::read_to_string(path).expect("the judge has stored files")
}

fn bytes_of(hex: &str) -> Vec<u8> {
    let octets = (0..hex.len() / 2).map(|at| u8::from_str_radix(&hex[2 * at..2 * at + 2], 16));
    octets.collect::<Result<_, _>>().expect("hex")
}

/// What the judge says of the message in a line of its input.
fn said(line: &str) -> String {
    let (word, hex) = line.split_once(' ').expect("a form, and hex");
    let bytes = bytes_of(hex);
    let (form, fault) = match word {
        "tc" => (TC_MESSAGE, locate_tc(&bytes)),
        _ => (ACTION_MESSAGE, locate_action(&bytes)),
    };
    let json = serde_json::to_string(&Shown { table: TcTables, form, bytes: &bytes }).expect("memory");
    match fault {
        Some(fault) => format!("{json}\t{fault}"),
        None => json,
    }
}

#[test]
fn the_library_says_what_the_proved_program_says() {
    let (input, output) = (judged("stdin"), judged("stdout"));
    assert_eq!(input.lines().count(), output.lines().count());
    for (line, is) in input.lines().zip(output.lines()) {
        assert_eq!(said(line), is, "{line}");
    }
}
