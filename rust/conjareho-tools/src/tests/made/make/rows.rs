//! Messages made by hand, captured and large ones, with what the codec is known to find of them.

use crate::user::prelude::*;

use crate::forms_json::Shown;
use crate::forms_kinds::{ACTION_MESSAGE, TC_MESSAGE, TcTables};
use crate::make::messages::Making;
use crate::tests::data as messages;
use crate::tests::data::{Expected, Form, Input, Row, captured, large_messages};
use crate::tests::made::make::runs::{bare, is_line, made};
use crate::user::Fail;

// The JSON of a message.
fn json_of(input: &Input) -> Result<String, AllocError> {
    let form = match input.form {
        Form::Tc => TC_MESSAGE,
        Form::Action => ACTION_MESSAGE,
    };
    let shown = Shown { table: TcTables, form, bytes: &input.bytes };
    crate::jsontext::to_string(&shown)
}

// A line of a message's JSON, and of what the codec finds of the message.
fn line_of(row: &Row, json: &str) -> Result<String, AllocError> {
    let name = match row.input.form {
        Form::Tc => "RTM_NEWQDISC",
        Form::Action => "RTM_NEWACTION",
    };
    match &row.expected {
        Expected::Refused(_) => crate::user::formatted(format_args!("{{\"type\":\"{name}\",\"message\":{json}}}")),
        Expected::Accepted { fits, settled, canonical, .. } => crate::user::formatted(format_args!(
            "{{\"type\":\"{name}\",\"fits\":{fits},\"settled\":{settled},\"canonical\":{canonical},\"message\":{json}}}"
        )),
    }
}

// True if these bytes, and nothing more, are made of a line in this way.
fn comes_to(line: &str, making: Making, bytes: &[u8]) -> bool {
    let run = made(&bare(making), line.as_bytes());
    match crate::hex::encode(bytes) {
        Ok(text) => run.status == 0 && is_line(&run.written, "", text.as_str()),
        Err(_) => false,
    }
}

// The status of a run over a line.
fn status_of(line: &str, making: Making) -> u8 {
    made(&bare(making), line.as_bytes()).status
}

// What is read comes back with what is known of it, and settled where it fits; what is refused comes back as it is given.
fn comes_back(row: &Row, line: &str) -> bool {
    let bytes = row.input.bytes.as_slice();
    match &row.expected {
        Expected::Refused(_) => comes_to(line, Making::AsGiven, bytes) && status_of(line, Making::Checked) == 1,
        Expected::Accepted { fits: true, settled: true, emitted, .. } => {
            comes_to(line, Making::Checked, bytes) && comes_to(line, Making::Settled, emitted)
        }
        Expected::Accepted { fits, .. } => {
            comes_to(line, Making::Checked, bytes) && (status_of(line, Making::Settled) == 0) == *fits
        }
    }
}

fn row_comes_back(row: &Row) -> bool {
    let Ok(json) = json_of(&row.input) else {
        return false;
    };
    match line_of(row, json.as_str()) {
        Ok(line) => comes_back(row, line.as_str()),
        Err(_) => false,
    }
}

// How many of the messages don't come back so.
fn lost(rows: &[Row]) -> usize {
    let mut lost: usize = 0;
    for row in rows {
        if !row_comes_back(row) {
            lost = lost.saturating_add(1);
        }
    }
    lost
}

#[test]
fn messages_made_by_hand() -> Result<(), Fail> {
    assert_eq!(lost(&messages::made()?), 0);
    Ok(())
}

#[test]
fn captured_messages() -> Result<(), Fail> {
    assert_eq!(lost(&captured()?), 0);
    Ok(())
}

#[test]
fn large_ones() -> Result<(), Fail> {
    assert_eq!(lost(&large_messages()?), 0);
    Ok(())
}
