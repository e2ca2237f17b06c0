//! `tcmake` makes of the lines of `tcshow --json` the bytes that these show, whatever they are: of all stored messages and of as many changed
//! ones as MESSAGES says (4,000), which are made of SEED.

mod common;

use std::io::Write as _;
use std::process::{Command, Stdio};

use common::random::Random;
use common::stored::{HUNDRED, Messages, changed, hex, settle_length, stored, too_long};

fn number(variable: &str, without: u64) -> u64 {
    let given = std::env::var(variable).ok();
    given.map_or(without, |text| text.parse().unwrap_or_else(|_| panic!("{variable} isn't a number: {text}")))
}

fn output(program: &str, words: &[&str], input: Vec<u8>) -> Vec<u8> {
    let mut child = Command::new(program).args(words).stdin(Stdio::piped()).stdout(Stdio::piped()).stderr(Stdio::null()).spawn().expect("it runs");
    let mut given = child.stdin.take().expect("its input is a pipe");
    // A program that ends early says so by what it doesn't write.
    let feed = std::thread::spawn(move || given.write_all(&input));
    let written = child.wait_with_output().expect("its output can be read").stdout;
    let _ = feed.join();
    written
}

/// What `tcmake` makes of what `tcshow --json` shows.
fn made(messages: &[Vec<u8>], words: &[&str]) -> Vec<u8> {
    let shown = output(env!("CARGO_BIN_EXE_tcshow"), &[&["--json"], words].concat(), hex(messages));
    output(env!("CARGO_BIN_EXE_tcmake"), if words.is_empty() { &[] } else { &["--no-header"] }, shown)
}

/// Of a hundred, those that aren't the same, one by one.
fn differing(messages: &[Vec<u8>], words: &[&str]) -> Messages {
    if made(messages, words) == hex(messages) {
        return Vec::new();
    }
    messages.iter().filter(|it| made(&[it.to_vec()], words) != hex(&[it.to_vec()])).cloned().collect()
}

/// What differs of any hundred, on all processors.
fn all(messages: &[Vec<u8>], words: &[&str]) -> String {
    let next = std::sync::Mutex::new(messages.chunks(HUNDRED));
    let take = || {
        let mut out = Vec::new();
        loop {
            let Some(hundred) = next.lock().expect("no thread panics with it").next() else { return out };
            out.extend(differing(hundred, words));
        }
    };
    let threads = std::thread::available_parallelism().map_or(1, usize::from);
    let found = std::thread::scope(|scope| {
        let running: Vec<_> = (0..threads).map(|_| scope.spawn(take)).collect();
        running.into_iter().flat_map(|it| it.join().expect("no thread panics")).collect::<Messages>()
    });
    String::from_utf8(hex(&found)).expect("hex is text")
}

/// Messages whose header has their length: with another one the input is cut there.
fn changed_messages(stored: &[Vec<u8>], salt: u64) -> Messages {
    let (count, seed) = (number("MESSAGES", 4000), number("SEED", 1));
    println!("MESSAGES={count} SEED={seed}");
    let mut random = Random(seed << 8 | salt);
    let one = |_| {
        let mut out = changed(stored, &mut random);
        settle_length(&mut out);
        out
    };
    (0..count).map(one).collect()
}

#[test]
fn stored_messages_come_back() {
    assert_eq!(all(&[stored(), too_long()].concat(), &[]), "");
}

#[test]
fn changed_messages_come_back() {
    assert_eq!(all(&changed_messages(&stored(), 0), &[]), "");
}

// A message that is shorter than its header is `raw`, and then a line needs its type.
#[test]
fn messages_without_their_header_come_back() {
    let some: Messages = changed_messages(&stored(), 1).into_iter().take(1000).collect();
    for (word, is_action, least) in [("tc", false, 36), ("action", true, 20)] {
        let of_type = some.iter().filter(|it| (48..=50).contains(&it[4]) == is_action && it.len() >= least);
        let bare: Messages = of_type.map(|it| it[16..].to_vec()).collect();
        assert_eq!(all(&bare, &["--no-header", word]), "");
    }
}
