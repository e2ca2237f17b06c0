//! Paths of attributes of every kind.

use crate::user::prelude::*;

use crate::forms_json::Form;
use crate::forms_kinds::{ACTION_MESSAGE, TC_MESSAGE};
use crate::paths::path_in;

// A qdisc `htb` with empty options, an ingress block, and an attribute of type 99.
const HTB: &str = "000000000000000000000000000000000000000008000100687462000400020008000d000700000004006300";

// Empty options of a kind without a table.
const OTHER: &str = "0000000000000000000000000000000000000000090001006e6f6e650000000004000200";

// An action `gact` with two options, and an action `mirred` whose kind comes after its options.
const ACTIONS: &str = "00000000380001001c0001000900010067616374000000000c00028004000200040003001800020008000280040001000b0001006d69727265640000";

// The form of a message, the length of its header, the message, where an attribute begins, its names and its JSON pointer.
type Row = (Form, usize, &'static str, usize, &'static str, &'static str);

static PATHS: [Row; 10] = [
    (TC_MESSAGE, 20, HTB, 20, "Kind", "/attributes/0/Kind"),
    (TC_MESSAGE, 20, HTB, 28, "Options", "/attributes/1/Options"),
    (TC_MESSAGE, 20, HTB, 32, "IngressBlock", "/attributes/2/IngressBlock"),
    (TC_MESSAGE, 20, HTB, 40, "3", "/attributes/3"),
    (TC_MESSAGE, 20, OTHER, 32, "OptionsRaw", "/attributes/1/OptionsRaw"),
    (ACTION_MESSAGE, 4, ACTIONS, 8, "Actions/0", "/attributes/0/Actions/0"),
    (ACTION_MESSAGE, 4, ACTIONS, 24, "Actions/0/Options", "/attributes/0/Actions/0/attributes/1/Options"),
    (
        ACTION_MESSAGE,
        4,
        ACTIONS,
        28,
        "Actions/0/Options/Gact/Parms",
        "/attributes/0/Actions/0/attributes/1/Options/0/Gact/Parms",
    ),
    (
        ACTION_MESSAGE,
        4,
        ACTIONS,
        44,
        "Actions/1/Options/Mirror/Tm",
        "/attributes/0/Actions/1/attributes/0/Options/0/Mirror/Tm",
    ),
    (ACTION_MESSAGE, 4, ACTIONS, 48, "Actions/1/Kind", "/attributes/0/Actions/1/attributes/1/Kind"),
];

// True if this is the path of the attribute that begins at an offset.
fn is_path(row: &Row) -> bool {
    let (form, header, digits, offset, names, pointer) = row;
    match crate::hex::decode(digits) {
        Ok(bytes) => match path_in(*form, *header, &bytes, *offset) {
            Ok(Some(path)) => path.names.as_str() == *names && path.pointer.as_str() == *pointer,
            _ => false,
        },
        Err(_) => false,
    }
}

// True if no attribute begins at an offset of this message.
fn is_none(digits: &str, offset: usize) -> bool {
    match crate::hex::decode(digits) {
        Ok(bytes) => matches!(path_in(TC_MESSAGE, 20, &bytes, offset), Ok(None)),
        Err(_) => false,
    }
}

#[test]
fn paths() {
    for row in &PATHS {
        assert!(is_path(row), "{}", row.5);
    }
    // In the header, in an attribute's header, in its value, in its padding, and at the end.
    for offset in [0, 19, 21, 24, 27, 44] {
        assert!(is_none(HTB, offset), "{offset}");
    }
}
