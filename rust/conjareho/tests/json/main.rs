//! Messages as JSON and back, by rows of known answers: their JSON, JSON that no bytes have, and members in another order.
#![cfg(feature = "serde")]

mod broken;

use conjareho::forms::{ACTION_MESSAGE, Form, Shown, TC_MESSAGE, TcTables, TextError, bytes_of_text, made_strictly};

/// The lines of a file that aren't comments.
fn lines(file: &'static str) -> Vec<&'static str> {
    file.lines().filter(|line| !line.is_empty() && !line.starts_with('#')).collect()
}

fn bytes_of(hex: &str) -> Vec<u8> {
    (0..hex.len()).step_by(2).map(|at| u8::from_str_radix(&hex[at..at + 2], 16).expect("hex")).collect()
}

fn form_of(word: &str) -> Form {
    match word {
        "tc" => TC_MESSAGE,
        "action" => ACTION_MESSAGE,
        word => panic!("{word} is no form"),
    }
}

#[test]
fn known_json() {
    let lines = lines(include_str!("known.txt"));
    for pair in lines.chunks(2) {
        let (form, hex) = pair[0].split_once(' ').expect("a form, and hex");
        let (form, bytes) = (form_of(form), bytes_of(hex));
        let json = serde_json::to_string(&Shown { table: TcTables, form, bytes: &bytes }).expect("memory");
        assert_eq!(json, pair[1]);
        assert_eq!(bytes_of_text(TcTables, form, json.as_bytes()).ok(), Some(bytes));
    }
    assert_eq!(lines.len(), 2 * 16);
}

/// A traffic control message with a header and these attributes.
fn with_attributes(attributes: &str) -> String {
    let header = r#"{"family":"Unspec","index":2,"handle":"1:","parent":"root","info":0}"#;
    format!(r#"{{"header":{header},"attributes":[{attributes}]}}"#)
}

/// Why no bytes are made of a text.
fn error_of(text: &str) -> String {
    let made: Result<Vec<u8>, TextError> = bytes_of_text(TcTables, TC_MESSAGE, text.as_bytes());
    made.expect_err(text).to_string()
}

#[test]
fn refused_attributes() {
    let lines = lines(include_str!("refused.txt"));
    for pair in lines.chunks(2) {
        assert_eq!(error_of(&with_attributes(pair[0])), pair[1]);
    }
    assert_eq!(lines.len(), 2 * 31);
}

/// One byte more than fits into an attribute.
#[test]
fn a_value_that_is_too_long() {
    let attribute = format!(r#"{{"Kind":"{}"}}"#, "a".repeat(65_531));
    let error =
        "/attributes/0/Kind: found a text of 65531 bytes, wanted a value that is written as at most 65531 bytes";
    assert_eq!(error_of(&with_attributes(&attribute)), error);
}

#[test]
fn differing_json() {
    let mut section = "";
    let mut rows = 0;
    let mut text = None;
    for line in lines(include_str!("differing.txt")) {
        match (line, text.take()) {
            ("[tc]" | "[action]", _) => section = line,
            (line, None) => text = Some(line),
            (error, Some(text)) => {
                let (form, text) = match section {
                    "[tc]" => (TC_MESSAGE, with_attributes(text)),
                    _ => (ACTION_MESSAGE, text.to_string()),
                };
                let json = serde_json::from_str(&text).expect("JSON");
                let refused = made_strictly(TcTables, form, &json).expect_err(&text);
                assert_eq!(refused.to_string(), error);
                rows += 1;
            }
        }
    }
    assert_eq!(rows, 13);
}

/// The order of members makes no difference.
#[test]
fn members_in_another_order() {
    let [shown, other, hex] = lines(include_str!("order.txt"))[..] else { panic!("two texts, and hex") };
    for text in [shown, other] {
        assert_eq!(bytes_of_text(TcTables, TC_MESSAGE, text.as_bytes()).ok(), Some(bytes_of(hex)), "{text}");
    }
}
