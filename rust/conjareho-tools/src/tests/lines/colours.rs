//! Colored outlines and lines.

use crate::user::prelude::*;

use crate::host::io::{Result, Write};
use crate::show::colours::{ColouredLines, paint_lines};
use crate::streams::{Coloured, paint};
use crate::user::Fail;

static PLAIN: &str = "RTM_NEWQDISC seq 5\nkind htb\noptions\n  limit 10240p\nrefused NotUtf8 offset 4\n\nbyte 924: truncated: 212 bytes\n\nsummary\n  4 messages\n";

static COLOURS: &str = "\x1b[1mRTM_NEWQDISC seq 5\x1b[0m\n\x1b[36mkind\x1b[0m\x1b[32m htb\x1b[0m\n\x1b[36moptions\x1b[0m\n  \x1b[36mlimit\x1b[0m\x1b[32m 10240p\x1b[0m\n\
\x1b[31mrefused NotUtf8 offset 4\x1b[0m\n\n\x1b[31mbyte 924: truncated: 212 bytes\x1b[0m\n\n\x1b[1msummary\x1b[0m\n  \x1b[36m4\x1b[0m\x1b[32m messages\x1b[0m\n";

#[test]
fn lines_in_colours() -> core::result::Result<(), Fail> {
    let mut out = Vec::new();
    assert!(!paint(&mut out, true, PLAIN.as_bytes()));
    assert!(out.as_slice() == COLOURS.as_bytes());
    Ok(())
}

#[test]
fn written_in_parts() -> core::result::Result<(), Fail> {
    let mut writer = Coloured::new(Vec::new());
    for line in PLAIN.as_bytes().split_inclusive(|byte| *byte == b'\n') {
        assert!(writer.write(line)? == line.len());
    }
    assert!(writer.into_inner().as_slice() == COLOURS.as_bytes());
    Ok(())
}

// A line of each form, and how it begins and goes on: `B` is bold, and the others are the first letters of their colors.
static LINES: [(&str, &str); 12] = [
    (
        "is class htb 1:10 dev eth0 parent 1:1 leaf 10: rate 10Mbit",
        "<G>is</> <B>class</> <B>htb</> 1:10 dev <C>eth0</> parent 1:1 leaf 10: rate 10Mbit",
    ),
    (
        "14:00:01.123456 add qdisc htb 1: dev eth0 root r2q 10",
        "14:00:01.123456 <M>add</> <B>qdisc</> <B>htb</> 1: dev <C>eth0</> root r2q 10",
    ),
    (
        "-0.000123 new filter flower 0x1 action mirred egress mirror dev ids index 1 by 21644",
        "-0.000123 <G>new</> <B>filter</> <B>flower</> 0x1 action mirred egress mirror dev <C>ids</> index 1 by 21644",
    ),
    ("gone chain 5 dev 7 ingress", "<Y>gone</> <B>chain</> <B>5</> dev <C>7</> ingress"),
    (
        "refused ENOENT \"Specified class not found.\" add qdisc tbf 10: dev d7",
        "<R>refused</> <R>ENOENT</> <R>\"Specified</> <R>class</> <R>not</> <R>found.\"</> <M>add</> <B>qdisc</> <B>tbf</> 10: dev <C>d7</>",
    ),
    (
        "1.5 refused EINVAL \"Can't del or add.\" at Actions/1/Options (byte 52) del filter - -",
        "1.5 <R>refused</> <R>EINVAL</> <R>\"Can't</> <R>del</> <R>or</> <R>add.\"</> <R>at</> <R>Actions/1/Options</> <R>(byte</> <R>52)</> \
<Y>del</> <B>filter</> <B>-</> -",
    ),
    (
        "warned \"Unsupported\" at byte 7 change class htb 1:",
        "<Y>warned</> <Y>\"Unsupported\"</> <Y>at</> <Y>byte</> <Y>7</> <M>change</> <B>class</> <B>htb</> 1:",
    ),
    (
        "refused 133 \"\" get action police -",
        "<R>refused</> <R>133</> <R>\"\"</> <M>get</> <B>action</> <B>police</> -",
    ),
    ("send flags 0xd05 qdisc fq 0: dev lo", "<M>send</> <M>flags</> <M>0xd05</> <B>qdisc</> <B>fq</> 0: dev <C>lo</>"),
    (
        "- qdisc fq_codel 1: limit 10240p malformed: 3 bytes, 4 expected, at Options/FqCodel/Limit (byte 44)",
        "- <B>qdisc</> <B>fq_codel</> 1: limit 10240p <R>malformed:</> <R>3</> <R>bytes,</> <R>4</> <R>expected,</> <R>at</> \
<R>Options/FqCodel/Limit</> <R>(byte</> <R>44)</>",
    ),
    ("byte 924: truncated: 212 bytes", "<R>byte</> <R>924:</> <R>truncated:</> <R>212</> <R>bytes</>"),
    ("summary\n  3 refused NotUtf8\n", "<B>summary</>\n  3 refused NotUtf8\n"),
];

// A text with its colors as a terminal gets them.
fn with_codes(text: &str, out: &mut Vec<u8>) -> core::result::Result<(), Fail> {
    for (i, part) in text.split('<').enumerate() {
        if i == 0 {
            out.try_extend(part.as_bytes())?;
        } else if let Some((name, rest)) = part.split_once('>') {
            out.try_extend(match name {
                "B" => b"\x1b[1m".as_slice(),
                "R" => b"\x1b[31m",
                "G" => b"\x1b[32m",
                "Y" => b"\x1b[33m",
                "M" => b"\x1b[35m",
                "C" => b"\x1b[36m",
                _ => b"\x1b[0m",
            })?;
            out.try_extend(rest.as_bytes())?;
        }
    }
    Ok(())
}

#[test]
fn words_in_colours() -> core::result::Result<(), Fail> {
    let mut writer = ColouredLines::new(Vec::new());
    let mut all = Vec::new();
    for (line, shown) in &LINES {
        let mut wanted = Vec::new();
        with_codes(*shown, &mut wanted)?;
        let mut out = Vec::new();
        paint_lines(&mut out, line.as_bytes())?;
        assert!(out.as_slice() == wanted.as_slice());
        assert!(writer.write(line.as_bytes())? == line.len());
        all.try_extend(wanted.as_slice())?;
    }
    assert!(writer.into_inner().as_slice() == all.as_slice());
    Ok(())
}
