//! Runs that few inputs show: an output that is closed early, answers to one of several requests, and handles of one kind that look like another's.
#![cfg(target_os = "linux")] // errors of pipes

mod common;

use std::io::Write as _;
use std::process::{Command, Output, Stdio};

use common::stored::{attribute, hex, message};

fn ran(program: &str, words: &[&str], input: &[u8], reads: bool) -> Output {
    let mut child = Command::new(program)
        .args(words)
        .stdin(Stdio::piped())
        .stdout(Stdio::piped())
        .stderr(Stdio::piped())
        .spawn()
        .expect("the program runs");
    if !reads {
        drop(child.stdout.take());
    }
    let (mut given, input) = (child.stdin.take().expect("its input is a pipe"), input.to_vec());
    let feed = std::thread::spawn(move || given.write_all(&input));
    let output = child.wait_with_output().expect("its output can be read");
    let _ = feed.join();
    output
}

fn tcshow(words: &[&str], input: &[u8]) -> Output {
    ran(env!("CARGO_BIN_EXE_tcshow"), words, input, true)
}

fn text(bytes: &[u8]) -> &str {
    std::str::from_utf8(bytes).expect("lines are text")
}

/// `struct tcmsg`, a kind and options.
fn object(index: u32, handle: u32, parent: u32, info: u32, kind: &str, options: &[u8]) -> Vec<u8> {
    let head = [0, index, handle, parent, info].map(u32::to_le_bytes).concat();
    [head, attribute(1, &[kind.as_bytes(), &[0]].concat()), attribute(2, options)].concat()
}

const QDISC: u16 = 36;
const CLASS: u16 = 40;
const FILTER: u16 = 44;

#[test]
fn a_closed_output_ends_the_run_and_hides_no_refusal() {
    let good = message(QDISC, 2, 1, 0, &object(2, 0x1_0000, 0xffff_ffff, 0, "fq", &[]));
    // An attribute of 12 bytes, of which 8 are there.
    let bad = message(QDISC, 2, 1, 0, &[&[0; 20][..], &[12, 0, 1, 0, 0, 0, 0, 0]].concat());
    let many = vec![good.clone(); 20_000];
    for (first, status) in [(&good, 0), (&bad, 1)] {
        let input = hex(&[std::slice::from_ref(first), &many[..]].concat());
        let output = ran(env!("CARGO_BIN_EXE_tcshow"), &["--json"], &input, false);
        assert_eq!(output.status.code(), Some(status), "{}", text(&output.stderr));
        assert_eq!(text(&output.stderr), "");
    }
}

#[test]
fn each_of_several_files_is_shown() {
    let folder = std::path::Path::new(env!("CARGO_TARGET_TMPDIR"));
    let shown = ["fq", "sfq"].map(|kind| {
        let path = folder.join(format!("runs-{kind}"));
        std::fs::write(&path, hex(&[message(QDISC, 2, 1, 0, &object(2, 0x1_0000, 0xffff_ffff, 0, kind, &[]))])).expect("a file can be written");
        path.to_str().expect("the path is text").to_owned()
    });
    let output = tcshow(&[&shown[0], &shown[1]], b"");
    assert!(text(&output.stdout).contains("qdisc fq 1: ") && text(&output.stdout).contains("qdisc sfq 1: "), "{}", text(&output.stdout));
}

/// The kernel's answer to a request of which it quotes the header (`NLM_F_CAPPED`).
fn refused(kind: u16, sequence: u32) -> Vec<u8> {
    let quoted = message(kind, 0x605, sequence, 0, &[]);
    message(2, 0x100, sequence, 21644, &[&(-2_i32).to_le_bytes()[..], &quoted].concat())
}

#[test]
fn an_answer_names_its_own_request() {
    let class = |handle, sequence| message(CLASS, 0x605, sequence, 0, &object(2, handle, 0x1_0000, 0, "htb", &[]));
    let qdisc = message(QDISC, 0x605, 5, 0, &object(2, 0x30_0000, 0x1_0010, 0, "fq", &[]));
    let requests = [class(0x1_0010, 5), qdisc, class(0x1_0020, 6)];
    for (kind, sequence, named) in [(CLASS, 5, "class htb 1:10 "), (CLASS, 6, "class htb 1:20 "), (QDISC, 5, "qdisc fq 30: ")] {
        let output = tcshow(&[], &hex(&[&requests[..], &[refused(kind, sequence)]].concat()));
        let lines: Vec<_> = text(&output.stdout).lines().filter(|line| line.starts_with("refused ENOENT")).collect();
        assert!(lines.len() == 1 && lines[0].contains(named), "{sequence}: {lines:?}");
    }
}

// tc filter add dev eth0 parent 1: prio 1 handle 1: u32 divisor 1; tc filter add dev eth0 parent 1: prio 2 handle 0x100000 fw classid 1:1
#[test]
fn a_mark_of_fw_is_no_table_of_u32() {
    let (divisor, class) = (attribute(4, &1_u32.to_le_bytes()), attribute(1, &0x1_0001_u32.to_le_bytes()));
    let table = message(FILTER, 2, 1, 0, &object(2, 0x10_0000, 0x1_0000, 0x1_0008, "u32", &divisor));
    let mark = message(FILTER, 2, 1, 0, &object(2, 0x10_0000, 0x1_0000, 0x2_0008, "fw", &class));
    let shown = tcshow(&["--json"], &hex(&[table, mark]));
    let made = ran(env!("CARGO_BIN_EXE_tcmake"), &["--request"], &shown.stdout, true);
    assert_eq!((text(&made.stdout).lines().count(), text(&made.stderr)), (2, ""), "{}", text(&shown.stdout));
}
