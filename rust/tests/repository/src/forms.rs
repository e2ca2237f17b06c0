//! The rows of tests, whole, cut and changed: their JSON leads back to them, and the fault that is located is the one for which the codec refuses them.

use crate::forms_json::Shown;
use crate::forms_kinds::{ACTION_MESSAGE, TC_MESSAGE, TcTables};
use crate::forms_text::bytes_of_text;
use crate::tc_faults::{What, locate};
use crate::tc_wire::{DecodeError, RewriteError, rewrite_action, rewrite_tc};
use crate::tests_data::{Form, Input, Row, all_around, captured, cut_and_changed, large_messages, made};

/// Rows, which no allocation fails for.
pub fn rows<E>(rows: Result<Vec<Row>, E>) -> Vec<Row> {
    rows.unwrap_or_else(|_| panic!("rows of messages"))
}

/// A message cut at every length, and with each of its bytes changed.
fn changed(row: &Row) -> Vec<Input> {
    cut_and_changed(&row.input).expect("memory")
}

/// Asserts that the JSON of bytes, as a message of either form, leads back to them.
fn comes_back(form: Form, bytes: &[u8]) {
    let form = match form {
        Form::Tc => TC_MESSAGE,
        Form::Action => ACTION_MESSAGE,
    };
    let text = ::serde_json::to_vec(&Shown { table: TcTables, form, bytes }).expect("memory");
    assert_eq!(bytes_of_text(TcTables, form, &text).ok().as_deref(), Some(bytes));
}

#[test]
fn json_leads_back() {
    for (rows, wanted) in [(rows(made()), 9_896), (rows(captured()), 12_272)] {
        let inputs: Vec<Input> = rows.iter().flat_map(changed).collect();
        assert_eq!(inputs.len(), wanted);
        for input in inputs {
            comes_back(input.form, &input.bytes);
        }
    }
    for row in rows(large_messages()) {
        comes_back(row.input.form, &row.input.bytes);
    }
}

/// Turns bytes from a place on into attributes of up to 27 bytes, of types up to 15.
fn cut_into_attributes(bytes: &mut [u8], first: usize) {
    let mut at = first;
    while at + 4 <= bytes.len() {
        let length = 4 + bytes[at] % 24;
        bytes[at] = length;
        bytes[at + 1] = 0;
        bytes[at + 2] %= 16;
        bytes[at + 3] &= 0x80;
        at += usize::from(length).next_multiple_of(4);
    }
}

/// Bytes that look random (xorshift64): a third as they are, a third with attributes after each header.
#[test]
fn json_of_random_bytes_leads_back() {
    let mut state = 0x2545_f491_4f6c_dd1d_u64;
    let mut next = || {
        state ^= state << 13;
        state ^= state >> 7;
        state ^= state << 17;
        (state >> 24) as u8
    };
    for round in 0..10_000 {
        let mut bytes: Vec<u8> = (0..next() % 200).map(|_| next()).collect();
        match round % 3 {
            0 => {}
            1 => cut_into_attributes(&mut bytes, 20),
            _ => cut_into_attributes(&mut bytes, 4),
        }
        comes_back(Form::Tc, &bytes);
        comes_back(Form::Action, &bytes);
    }
}

/// Why a message can't be read, if it can't: rewriting begins by parsing, and is proved to fail with the same fault.
fn refused(input: &Input) -> Option<DecodeError> {
    let rewritten = match input.form {
        Form::Tc => rewrite_tc(&input.bytes),
        Form::Action => rewrite_action(&input.bytes),
    };
    match rewritten {
        Err(RewriteError::Decode(error)) => Some(error),
        _ => None,
    }
}

fn is_located(input: &Input) {
    let what = match input.form {
        Form::Tc => What::Qdisc,
        Form::Action => What::Action,
    };
    let located = locate(&input.bytes, what);
    assert!(located.as_ref().is_none_or(|fault| fault.offset <= input.bytes.len()), "{input:?}");
    assert_eq!(located.map(|fault| fault.error), refused(input), "{input:?}");
}

#[test]
fn faults_are_located() {
    let (made, captured) = (rows(made()), rows(captured()));
    for row in made.iter().chain(&captured) {
        is_located(&row.input);
        changed(row).iter().for_each(is_located);
    }
    for row in &captured {
        assert_eq!(refused(&row.input), None, "{:?}", row.input);
    }
    all_around().expect("memory").iter().for_each(is_located);
}
