//! Handles, as `tc` writes and reads them.

use crate::user::prelude::*;

use crate::read::select::parse_handle;

static HANDLES: [(&str, u32); 12] = [
    ("1:10", 0x0001_0010),
    ("ffff:", 0xffff_0000),
    ("8001:", 0x8001_0000),
    (":10", 0x10),
    ("root", 0xffff_ffff),
    ("none", 0),
    ("ingress", 0xffff_fff1),
    ("ffff:fff2", 0xffff_fff2),
    ("800::800", 0x8000_0800),
    ("801:12:3", 0x8011_2003),
    ("0x1", 1),
    ("0xffffffff", 0xffff_ffff),
];

#[test]
fn handles() {
    for (word, handle) in &HANDLES {
        assert!(parse_handle(word) == Some(*handle), "{word}");
    }
}

static NO_HANDLES: [&str; 10] = ["", "1", "10000:", "1:2:3:4", "0x", "0x100000000", "1000::", "g:", "1:100:1", "0x1:"];

#[test]
fn no_handles() {
    for word in &NO_HANDLES {
        assert!(parse_handle(word).is_none(), "{word}");
    }
}
