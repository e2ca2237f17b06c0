//! Message types.

use crate::user::prelude::*;

use crate::read::select::parse_types;
use crate::tc_capture::rtm_of;

// True if a word stands for these types.
fn is_types(word: &str, first: u16, last: u16) -> bool {
    match parse_types(word) {
        Some(types) => types.first == first && types.last == last,
        None => false,
    }
}

#[test]
fn each_name() {
    for number in 0..200 {
        if let Some(rtm) = rtm_of(number) {
            assert!(is_types(rtm.name, number, number), "{number}");
        }
    }
}

static TYPES: [(&str, u16, u16); 5] =
    [("newtclass", 40, 40), ("getchain", 102, 102), ("44", 44, 44), ("65535", 65535, 65535), ("tclass", 40, 42)];

static NO_TYPES: [&str; 8] = ["", "65536", "class", "new", "newclass", "RTM_", "RTM_NEWLINK", "rtm_newqdisc"];

#[test]
fn words() {
    for (word, first, last) in &TYPES {
        assert!(is_types(word, *first, *last), "{word}");
    }
    for word in &NO_TYPES {
        assert!(parse_types(word).is_none(), "{word}");
    }
}
