//! `kinds COUNT EVERY FILE..`: reads the messages of files as typed values, writes them, and compares the bytes; and the JSON of typed
//! values, and of what a visitor is shown, with that of the proved forms. Then the bytes alone of so many messages that are made of
//! them, and the JSON of each EVERYth. The changes are the same each time. The JSON of typed values is compared if all of it is built
//! with `--cfg kinds_json`.
//!
//! A file is a capture, or has lines: of the words `tc` or `action` and a message without its netlink header in hex, after a name or none; or
//! of a netlink message in hex.

mod changes;
mod visited;

use changes::{Numbers, changed};
use conjareho::DecodeError;
use conjareho::capture::{Capture, Contents, MessageType, Messages, rtm_of};
use conjareho::forms::{ACTION_MESSAGE, Shown, TC_MESSAGE, TcTables};
use conjareho::kinds;
use std::process::ExitCode;

/// A message: whether it is one of actions, and its bytes.
type Message = (bool, Vec<u8>);

fn bytes_of(hex: &str) -> Option<Vec<u8>> {
    let octets = (0..hex.len()).step_by(2).map(|at| u8::from_str_radix(hex.get(at..at + 2)?, 16).ok());
    octets.collect()
}

/// The messages of traffic control in a stream.
fn in_stream(stream: &[u8]) -> Vec<Message> {
    let found = Messages::new(stream).map_while(Result::ok);
    found.filter_map(|it| Some((matches!(rtm_of(it.kind)?.holds, MessageType::Action), it.payload.to_vec()))).collect()
}

fn in_capture(mut capture: Capture, bytes: &[u8]) -> Vec<Message> {
    let (mut rest, mut found) = (bytes, Vec::new());
    while let Ok(piece) = capture.next(rest) {
        rest = &rest[piece.used..];
        if let Ok(Some(Ok(Contents::Route { messages, .. }))) = piece.packet.map(|it| it.map(|it| it.contents())) {
            found.extend(in_stream(messages));
        }
        if rest.is_empty() {
            break;
        }
    }
    found
}

fn in_lines(text: &str) -> Vec<Message> {
    let lines = text.lines().filter(|line| !line.starts_with('#'));
    let found = lines.filter_map(|line| match line.split_whitespace().collect::<Vec<_>>().as_slice() {
        [.., mode @ ("tc" | "action"), hex] => Some(vec![(*mode == "action", bytes_of(hex)?)]),
        [hex] => Some(in_stream(&bytes_of(hex)?)),
        _ => None,
    });
    found.flatten().collect()
}

fn messages(path: &str) -> Vec<Message> {
    let bytes = std::fs::read(path).unwrap_or_else(|e| panic!("{path}: {e}"));
    match std::str::from_utf8(&bytes) {
        Ok(text) => in_lines(text),
        Err(_) => Capture::of_first(&bytes).map_or_else(Vec::new, |capture| in_capture(capture, &bytes)),
    }
}

/// What a message is written as after it was read; nothing if it is shorter than its header.
fn again(is_action: bool, bytes: &[u8]) -> Option<Vec<u8>> {
    let written = if is_action {
        kinds::ActionMessage::parse(bytes).ok()?.to_bytes()
    } else {
        kinds::Message::parse(bytes).ok()?.to_bytes()
    };
    Some(written.unwrap_or_default())
}

/// The JSON of the forms.
fn json_of_forms(is_action: bool, bytes: &[u8]) -> serde_json::Value {
    let form = if is_action { ACTION_MESSAGE } else { TC_MESSAGE };
    serde_json::to_value(Shown { table: TcTables, form, bytes }).expect("memory")
}

/// Whether this JSON is that of the forms.
fn is_same(what: &str, found: Result<serde_json::Value, DecodeError>, forms: &serde_json::Value) -> bool {
    let is_same = found.as_ref().is_ok_and(|found| found == forms);
    if !is_same && std::env::var_os("SHOW").is_some() {
        println!("{what} {}\nforms {forms}", found.map_or_else(|e| e.to_string(), |found| found.to_string()));
    }
    is_same
}

/// Whether the JSON of the typed value is that of the forms.
#[cfg(kinds_json)]
fn has_same_json(is_action: bool, bytes: &[u8], forms: &serde_json::Value) -> bool {
    let typed = if is_action {
        kinds::ActionMessage::parse(bytes).map(|it| it.typed_json())
    } else {
        kinds::Message::parse(bytes).map(|it| it.typed_json())
    };
    is_same("typed", typed, forms)
}

#[cfg(not(kinds_json))]
fn has_same_json(_is_action: bool, _bytes: &[u8], _forms: &serde_json::Value) -> bool {
    true
}

/// What was found of some messages.
#[derive(Default)]
struct Counts {
    messages: usize,
    short: usize,
    other_bytes: usize,
    compared: usize,
    other_json: usize,
    other_visited: usize,
}

impl Counts {
    fn add(&mut self, (is_action, bytes): &Message, compares: bool) {
        self.messages += 1;
        let Some(written) = again(*is_action, bytes) else { return self.short += 1 };
        if written != *bytes {
            self.other_bytes += 1;
            println!("other bytes: {}", bytes.iter().map(|octet| format!("{octet:02x}")).collect::<String>());
        }
        if compares {
            let forms = json_of_forms(*is_action, bytes);
            self.compared += 1;
            self.other_json += usize::from(!has_same_json(*is_action, bytes, &forms));
            self.other_visited += usize::from(!is_same("visited", visited::json_of(*is_action, bytes), &forms));
        }
    }

    fn differ(&self) -> usize {
        self.other_bytes + self.other_json + self.other_visited
    }

    fn said(&self, what: &str) -> String {
        let Counts { messages, short, other_bytes, compared, other_json, other_visited } = self;
        format!(
            "{messages} {what} messages, {short} shorter than a header, {other_bytes} written otherwise; \
             JSON of {compared}, {other_json} differ, {other_visited} of what a visitor is shown"
        )
    }
}

fn main() -> ExitCode {
    let words: Vec<String> = std::env::args().collect();
    let number =
        |at: usize| words.get(at).and_then(|word| word.parse::<usize>().ok()).expect("kinds COUNT EVERY FILE..");
    let (count, every) = (number(1), number(2));
    let stored: Vec<Message> = words[3..].iter().flat_map(|path| messages(path)).collect();
    let (whole, made) = counts(&stored, count, every);
    println!("{}\n{}", whole.said("stored"), made.said("changed"));
    // Changes that leave nothing to read show nothing.
    ExitCode::from(u8::from(whole.differ() + made.differ() > 0 || made.short > made.messages / 2))
}

/// What is found of stored messages, and of so many changed ones.
fn counts(stored: &[Message], count: usize, every: usize) -> (Counts, Counts) {
    let (mut whole, mut made, mut numbers) = (Counts::default(), Counts::default(), Numbers(0x9e37_79b9_7f4a_7c15));
    stored.iter().for_each(|message| whole.add(message, true));
    let small: Vec<&Message> = stored.iter().filter(|(_, bytes)| bytes.len() < 4096).collect();
    for at in 0..count {
        let (is_action, bytes) = small[numbers.below(small.len())];
        let (_, other) = small[numbers.below(small.len())];
        made.add(&(*is_action, changed(&mut numbers, bytes, other)), at % every == 0);
    }
    (whole, made)
}

#[cfg(test)]
mod tests {
    use super::{counts, messages};

    #[test]
    fn stored_and_changed_messages_have_the_json_of_the_forms() {
        let folder = concat!(env!("CARGO_MANIFEST_DIR"), "/../../conjareho-tools/testdata/");
        let names = ["tcmake_stored_shown/data/messages", "tcshow/data/capture.pcap"];
        let stored: Vec<_> = names.iter().flat_map(|name| messages(&format!("{folder}{name}"))).collect();
        let (whole, made) = counts(&stored, 3000, 1);
        assert!(whole.compared > 800 && made.compared > 2000, "{}; {}", whole.said("stored"), made.said("changed"));
        assert_eq!((whole.differ(), made.differ()), (0, 0), "{}; {}", whole.said("stored"), made.said("changed"));
    }
}
