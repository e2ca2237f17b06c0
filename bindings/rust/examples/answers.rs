//! Prints what every call answers of each message on standard input, lines `tc HEX` and `action HEX`.
#![forbid(unsafe_code)]

use std::io::{self, BufRead, Write};
use vtc::{Error, Form, MakeError, Node};

fn from_hex(text: &str) -> Vec<u8> {
    (0..text.len() / 2)
        .map(|i| u8::from_str_radix(&text[2 * i..2 * i + 2], 16).expect("hex"))
        .collect()
}

fn hex(bytes: &[u8]) -> String {
    bytes.iter().map(|byte| format!("{byte:02x}")).collect()
}

fn status_of(error: Error) -> u32 {
    match error {
        Error::Refused { fault, .. } => fault.numbers().0,
        Error::OutOfMemory => 11,
        Error::DoesNotFit => 12,
        Error::NoRoom { .. } => 13,
        error => panic!("{error}"),
    }
}

fn said(made: Result<&[u8], MakeError<'_>>) -> String {
    match made {
        Ok(made) => format!("0 {}", hex(made)),
        Err(MakeError::NotJson(why)) => format!("15 {}", hex(why.as_bytes())),
        Err(MakeError::NoMessage(why)) => format!("16 {}", hex(why.as_bytes())),
        Err(MakeError::OutOfMemory) => "11 ".to_string(),
        Err(MakeError::NoRoom { .. }) => "13 ".to_string(),
        Err(error) => panic!("{error}"),
    }
}

fn answer(form: Form, bytes: &[u8], buffer: &mut [u8]) -> String {
    let mut text = match form.check(bytes) {
        Ok(v) => format!(
            "check {} {} {} {}",
            v.fits as u8, v.settled as u8, v.canonical as u8, v.length
        ),
        Err(Error::Refused { fault, offset }) => {
            let (status, first, second) = fault.numbers();
            format!("fault {status} {first} {second} {offset}")
        }
        Err(error) => format!("fault {} 0 0 0", status_of(error)),
    };
    text += &format!("; canonical {}; rewrite ", form.is_canonical(bytes) as u8);
    text += &match form.rewrite(bytes, buffer) {
        Ok(written) => format!("0 {}", hex(written)),
        Err(error) => format!("{} ", status_of(error)),
    };
    text += "; settle ";
    text += &match form.settle(bytes, buffer) {
        Ok((settled, rewrites)) => format!("0 {rewrites} {}", hex(settled)),
        Err(error) => format!("{} ", status_of(error)),
    };
    let mut nodes = vec![Node::default(); bytes.len() / 4];
    let count = form.index(bytes, &mut nodes);
    text += "; index";
    for node in &nodes[..count] {
        text += &format!(
            " {}:{}:{}:{}:{}",
            node.offset, node.len, node.word, node.table, node.depth
        );
    }
    text += "; list";
    let mut end = 14;
    for item in form.attributes(bytes) {
        match item {
            Ok(it) => text += &format!(" {}:{}:{}", it.offset, it.value.len(), it.word),
            Err(broken) => end = broken.status,
        }
    }
    let (status, json) = match form.json(bytes, buffer) {
        Ok(json) => (0, json.to_string()),
        Err(error) => (status_of(error), String::new()),
    };
    let mut why = [0; 4096];
    let made = said(form.make(&json, buffer, &mut why));
    let given = said(form.make_as_given(&json, buffer, &mut why));
    text + &format!(" {end}; make {made}; given {given}; json {status} {json}")
}

fn main() -> io::Result<()> {
    let mut buffer = vec![0; 1 << 20];
    let mut out = io::BufWriter::new(io::stdout().lock());
    for line in io::stdin().lock().lines() {
        let line = line?;
        let (form, digits) = match line.split_once(' ') {
            Some(("action", digits)) => (Form::Action, digits),
            Some((_, digits)) => (Form::Tc, digits),
            None => (Form::Tc, ""),
        };
        writeln!(out, "{}", answer(form, &from_hex(digits), &mut buffer))?;
    }
    Ok(())
}
