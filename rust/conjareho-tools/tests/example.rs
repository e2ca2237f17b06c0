//! The captures that `tcshow` has.

use std::process::{Command, Output};

fn tcshow(words: &[&str]) -> Output {
    Command::new(env!("CARGO_BIN_EXE_tcshow")).args(words).output().expect("tcshow runs")
}

#[test]
fn the_example_is_whole() {
    let shown = tcshow(&["--example"]);
    assert_eq!((shown.status.code(), shown.stderr.as_slice()), (Some(0), &b""[..]));
    let lines = String::from_utf8(shown.stdout).expect("text");
    let begins: Vec<String> = lines.lines().map(|line| line.split(' ').skip(1).take(3).collect::<Vec<_>>().join(" ")).collect();
    assert_eq!(begins, ["is qdisc fq_codel", "new filter flower", "new action tunnel_key"]);
}

#[test]
fn the_broken_example_says_so() {
    let shown = tcshow(&["--example", "broken"]);
    assert_eq!(shown.status.code(), Some(1));
    let lines = String::from_utf8(shown.stdout).expect("text");
    assert!(lines.contains("malformed: 3 bytes, 4 expected"), "{lines}");
    assert!(lines.contains("truncated: 212 bytes needed, 84 left"), "{lines}");
}
