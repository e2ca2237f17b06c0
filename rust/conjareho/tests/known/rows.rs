//! Rows of known answers: a row a line, its cells parted by bars, in sections whose names are in brackets.

use conjareho::{Nla, NlaBuffer};
use std::fmt::Debug;

/// The rows of a file, each with the name of its section.
pub fn rows(file: &'static str) -> Vec<(&'static str, Vec<&'static str>)> {
    let mut section = "";
    let mut rows = Vec::new();
    for line in file.lines().filter(|line| !line.is_empty() && !line.starts_with('#')) {
        match line.strip_prefix('[').and_then(|rest| rest.strip_suffix(']')) {
            Some(name) => section = name,
            None => rows.push((section, line.split('|').map(str::trim).collect())),
        }
    }
    rows
}

/// The bytes of hex, with spaces between bytes or without.
pub fn bytes_of(hex: &str) -> Vec<u8> {
    let digits: String = hex.split(' ').collect();
    assert_eq!(digits.len() % 2, 0, "{hex}");
    (0..digits.len()).step_by(2).map(|at| u8::from_str_radix(&digits[at..at + 2], 16).expect("hex")).collect()
}

pub fn frame(bytes: &[u8]) -> NlaBuffer<'_> {
    NlaBuffer::new_checked(bytes).expect("a whole frame")
}

/// The frame that an attribute is written as. What follows it in the buffer stays.
pub fn written<T: Nla>(attribute: &T) -> Vec<u8> {
    assert!(attribute.fits());
    let len = attribute.frame_len();
    let mut buffer = vec![0x55; len + 4];
    attribute.emit_frame(&mut buffer);
    assert_eq!(buffer.split_off(len), [0x55; 4]);
    buffer
}

/// Asserts that an attribute has a text, and is written as a frame.
pub fn is_attribute<T: Nla + Debug>(attribute: &T, text: &str, hex: &str) {
    assert_eq!(format!("{attribute:?}"), text);
    assert_eq!(written(attribute), bytes_of(hex), "{text}");
}
