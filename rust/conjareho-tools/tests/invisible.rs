//! Characters that nobody sees, or that a terminal obeys, in the JSON of the programs.

use conjareho_tools::netlink::Devices;
use conjareho_tools::save::save_of;
use std::io::Write;
use std::process::{Command, Stdio};

/// What a character may do to a reader: nothing is shown, other text is shown in another order, or a line ends.
const INVISIBLE: [(char, &str); 22] = [
    ('\u{7f}', r"\u007f"),          // DELETE
    ('\u{85}', r"\u0085"),          // NEXT LINE
    ('\u{9b}', r"\u009b"),          // CONTROL SEQUENCE INTRODUCER
    ('\u{a0}', r"\u00a0"),          // NO-BREAK SPACE
    ('\u{ad}', r"\u00ad"),          // SOFT HYPHEN
    ('\u{34f}', r"\u034f"),         // COMBINING GRAPHEME JOINER
    ('\u{61c}', r"\u061c"),         // ARABIC LETTER MARK
    ('\u{115f}', r"\u115f"),        // HANGUL CHOSEONG FILLER
    ('\u{180e}', r"\u180e"),        // MONGOLIAN VOWEL SEPARATOR
    ('\u{200b}', r"\u200b"),        // ZERO WIDTH SPACE
    ('\u{200d}', r"\u200d"),        // ZERO WIDTH JOINER
    ('\u{2028}', r"\u2028"),        // LINE SEPARATOR
    ('\u{2029}', r"\u2029"),        // PARAGRAPH SEPARATOR
    ('\u{202e}', r"\u202e"),        // RIGHT-TO-LEFT OVERRIDE
    ('\u{2060}', r"\u2060"),        // WORD JOINER
    ('\u{2066}', r"\u2066"),        // LEFT-TO-RIGHT ISOLATE
    ('\u{2800}', r"\u2800"),        // BRAILLE PATTERN BLANK
    ('\u{3164}', r"\u3164"),        // HANGUL FILLER
    ('\u{fe0f}', r"\ufe0f"),        // VARIATION SELECTOR-16
    ('\u{feff}', r"\ufeff"),        // ZERO WIDTH NO-BREAK SPACE
    ('\u{1d173}', r"\ud834\udd73"), // MUSICAL SYMBOL BEGIN BEAM
    ('\u{e0074}', r"\udb40\udc74"), // TAG LATIN SMALL LETTER T
];

/// What a program prints for an input.
fn printed(program: &str, words: &[&str], input: &str) -> String {
    let mut child = Command::new(program)
        .args(words)
        .stdin(Stdio::piped())
        .stdout(Stdio::piped())
        .spawn()
        .expect("the program runs");
    child.stdin.take().expect("its input is a pipe").write_all(input.as_bytes()).expect("it reads");
    let done = child.wait_with_output().expect("it ends");
    assert!(done.status.success(), "{program} {words:?} of {input}: {:?}", done.status);
    String::from_utf8(done.stdout).expect("it prints UTF-8")
}

/// A qdisc of this kind, as hex: `struct tcmsg` of 20 bytes, then `TCA_KIND`.
fn qdisc(kind: &str) -> String {
    let length = u16::try_from(4 + kind.len() + 1).expect("a short kind");
    let mut message = vec![0; 20];
    message.extend(length.to_le_bytes());
    message.extend(1_u16.to_le_bytes());
    message.extend(kind.as_bytes());
    message.push(0);
    message.resize(message.len().next_multiple_of(4), 0);
    message.iter().map(|byte| format!("{byte:02x}")).collect()
}

fn json_of(kind: &str) -> String {
    printed(env!("CARGO_BIN_EXE_tcshow"), &["--json", "--no-header", "tc"], &(qdisc(kind) + "\n"))
}

fn made_of(line: &str) -> String {
    printed(env!("CARGO_BIN_EXE_tcmake"), &["--no-header"], line).trim_end().to_string()
}

#[test]
fn are_escaped_and_read_again() {
    for (it, escape) in INVISIBLE {
        let kind = format!("h{it}tb");
        let line = json_of(&kind);
        assert!(line.contains(&format!("\"h{escape}tb\"")) && !line.contains(it), "{escape}: {line}");
        assert_eq!(made_of(&line), qdisc(&kind), "{escape}");
        // As other programs may write it.
        assert_eq!(made_of(&line.replace(escape, &it.to_string())), qdisc(&kind), "{escape}, raw");
    }
}

#[test]
fn what_is_seen_stays() {
    for kind in ["htb", "hétb", "h\u{4e2d}tb", "h\u{1f600}tb", "h\u{e000}tb", "h\\u200btb"] {
        let line = json_of(kind);
        assert!(line.contains(&kind.replace('\\', "\\\\")), "{line}");
        assert_eq!(made_of(&line), qdisc(kind));
    }
}

/// `RTM_NEWLINK` with `struct ifinfomsg` and `IFLA_IFNAME`.
fn link(index: u32, name: &str) -> Vec<u8> {
    let attribute = u16::try_from(4 + name.len() + 1).expect("a short name");
    let mut body = vec![0; 16];
    body[4..8].copy_from_slice(&index.to_le_bytes());
    body.extend(attribute.to_le_bytes());
    body.extend(3_u16.to_le_bytes());
    body.extend(name.as_bytes());
    body.push(0);
    body.resize(body.len().next_multiple_of(4), 0);
    let mut message = u32::try_from(16 + body.len()).expect("a short message").to_le_bytes().to_vec();
    message.extend(16_u16.to_le_bytes());
    message.resize(16, 0);
    message.extend(body);
    message
}

#[test]
fn names_of_interfaces_in_a_save_are_escaped() {
    let devices = Devices::in_links(&[link(7, "wa\u{200b}n")]).expect("it is a link");
    let saved: Vec<_> = devices.iter().collect();
    let save = save_of(&saved, &devices, "").expect("a save");
    assert!(save.contains(r#""names":{"7":"wa\u200bn"}"#) && save.contains(r#""devs":{"wa\u200bn":"#), "{save}");
    assert!(!save.contains('\u{200b}'), "{save}");
}
