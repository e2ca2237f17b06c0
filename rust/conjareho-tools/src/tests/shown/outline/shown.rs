//! Messages as lines.

use crate::user::prelude::*;

use crate::show::columns::{KindColumns, Root};
use crate::show::outline::{Layout, Page, outline};
use crate::tests::shown::outline::messages::{
    ACTIONS, CLASS, FQ_CODEL, HOSTILE, MPLS, NAT, Shown, TUNNEL_KEY, TWO_ACTIONS, U32, UNKNOWN_KIND,
};
use core::str;

// Columns without names of interfaces and without paddings.
fn columns_of(root: Root) -> KindColumns<'static> {
    KindColumns { root, interfaces: &[], links: None, all: false }
}

// The expected outline.
#[derive(Clone, Copy)]
enum Want<'a> {
    Text(&'a str),
    // So many lines.
    Count(usize),
}

fn is(text: &str, want: Want<'_>) -> bool {
    match want {
        Want::Text(lines) => text == lines,
        Want::Count(count) => text.lines().count() == count,
    }
}

// True if a message is shown so, and isn't refused.
fn is_shown(layout: Layout, columns: KindColumns<'_>, bytes: &[u8], want: Want<'_>) -> bool {
    let mut page = Page::new(layout);
    match outline(&mut page, bytes, columns) {
        Ok(None) => is(core::str::from_utf8(page.bytes()).unwrap_or(""), want),
        _ => false,
    }
}

fn is_shown_in_hex(layout: Layout, columns: KindColumns<'_>, digits: &str, want: Want<'_>) -> bool {
    match crate::hex::decode(digits) {
        Ok(bytes) => is_shown(layout, columns, &bytes, want),
        Err(_) => false,
    }
}

// True if a message is shown as its lines.
fn is_as_lines(shown: &Shown) -> bool {
    is_shown_in_hex(Layout::Lines, columns_of(shown.root), shown.hex, Want::Text(shown.lines))
}

#[test]
fn qdiscs_and_filters() {
    assert!(is_as_lines(&FQ_CODEL));
    assert!(is_as_lines(&U32));
    assert!(is_as_lines(&TWO_ACTIONS));
    assert!(is_as_lines(&MPLS));
    assert!(is_as_lines(&TUNNEL_KEY));
}

#[test]
fn actions_and_others() {
    assert!(is_as_lines(&NAT));
    assert!(is_as_lines(&ACTIONS));
    assert!(is_as_lines(&UNKNOWN_KIND));
    assert!(is_as_lines(&HOSTILE));
    assert!(is_as_lines(&CLASS));
}

#[test]
fn on_one_line() {
    let columns =
        KindColumns { root: TWO_ACTIONS.root, interfaces: &[(3, "eth0"), (6, "wan \x1b[2J")], links: None, all: false };
    let line = Want::Text(ONE_LINE);
    assert!(is_shown_in_hex(Layout::OneLine, columns, TWO_ACTIONS.hex, line));
}

// The flower filter with two actions; two interfaces have names.
static ONE_LINE: &str = " index 3 (eth0) handle 0x0 parent ffff:fff2 pref 601 protocol ip (0x0800) kind flower options \
{ip_proto tcp (6) ipv4_dst 10.8.0.1/32 actions {action 1 {kind mirred options {parms {index 0 capab 0 action pipe refcnt 0 \
bindcnt 0 eaction egress_mirror (2) ifindex 6 (\"wan \\x1b[2J\")}}} action 2 {kind nat options {parms {index 33 capab 0 \
action pass refcnt 0 bindcnt 0 old_addr 0.0.0.0 new_addr 4.4.4.4 mask 255.255.255.255 flags ingress (0x0)}} cookie cafe}} flags \
0x0 eth_type ip (0x0800)}";

// Paddings are lines of their own where they are asked for.
#[test]
fn with_paddings() {
    let mut columns = columns_of(FQ_CODEL.root);
    columns.all = true;
    let count = Want::Count(FQ_CODEL.lines.lines().count().wrapping_add(PADDINGS));
    assert!(is_shown_in_hex(Layout::Lines, columns, FQ_CODEL.hex, count));
}

// Types 9 of the message and types 6 of its statistics.
const PADDINGS: usize = 5;
