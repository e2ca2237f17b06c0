//! Forms on the repository's labelled messages, and the JSON that its stored run of `tcshow` has of them.
#![cfg(feature = "serde")]

use conjareho::forms::{ACTION_MESSAGE, Shown, TC_MESSAGE, TcTables, TextError, bytes_of_text};
use std::path::Path;

/// The bytes of which a text is the hex, or nothing.
fn bytes_of(hex: &str) -> Option<Vec<u8>> {
    let octets = (0..hex.len() / 2).map(|at| u8::from_str_radix(hex.get(2 * at..2 * at + 2)?, 16).ok());
    if hex.len() % 2 == 0 { octets.collect() } else { None }
}

/// The JSON of the message in a line: a label, `tc` or `action`, and hex.
fn json_of(line: &str) -> String {
    let words: Vec<&str> = line.split(' ').collect();
    let form = if words[1] == "tc" { TC_MESSAGE } else { ACTION_MESSAGE };
    let bytes = bytes_of(words[2]).expect("hex");
    let shown = Shown { table: TcTables, form, bytes: &bytes };
    let json = serde_json::to_string(&shown).expect("memory");
    let made = bytes_of_text(TcTables, form, json.as_bytes()).expect("what is shown can be made");
    let tree = serde_json::to_vec_pretty(&serde_json::to_value(&shown).expect("memory")).expect("memory");
    assert_eq!(bytes_of_text(TcTables, form, &tree).expect("in any order of members"), bytes);
    assert_eq!(made, bytes);
    json
}

/// The same JSON as `tcshow` writes it: what a terminal would obey is escaped (DEL and C1; JSON itself escapes C0).
fn safe(json: &str) -> String {
    json.chars().map(|c| if c.is_control() { format!("\\u{:04x}", u32::from(c)) } else { c.to_string() }).collect()
}

#[test]
fn the_json_of_labelled_messages_is_that_stored() {
    let top = Path::new(env!("CARGO_MANIFEST_DIR")).join("../..");
    let labelled = std::fs::read_to_string(top.join("model/labelled")).expect("the messages");
    let stored = std::fs::read_to_string(top.join("rust/conjareho-tools/testdata/tcmake_stored_shown/stdout")).expect("the stored lines");
    let json: Vec<String> = labelled.lines().filter(|line| !line.starts_with('#')).map(json_of).collect();
    let lines: Vec<&str> = stored.lines().filter(|line| line.starts_with('{')).collect();
    assert_eq!(lines.len(), json.len());
    for (ours, line) in json.iter().zip(lines) {
        assert!(line.ends_with(&format!(",\"message\":{}}}", safe(ours))), "{line}");
    }
}

/// Why no bytes are made of a text.
fn fault(text: &str) -> String {
    let made: Result<Vec<u8>, TextError> = bytes_of_text(TcTables, TC_MESSAGE, text.as_bytes());
    made.expect_err("no message").to_string()
}

#[test]
fn faults_name_their_places() {
    assert_eq!(fault(r#"{"header":{"index":1,"index":2}}"#), "/header/index: found twice, wanted once");
    assert_eq!(fault("{\"header\":\n{,"), "not JSON at line 2 column 2");
    assert_eq!(fault(&"[".repeat(200)), "more than 127 levels deep at line 1 column 128");
    assert!(
        fault(r#"{"header":{"family":"Unspec","index":0.5}}"#).starts_with("/header/index: found 0.5, wanted a number")
    );
}
