//! Names of interfaces.

use crate::user::prelude::*;

use crate::read::select::{link_of_line, link_of_message};

// A line, and the number and the name in it.
fn is_link(line: &str, index: u32, name: &str) -> bool {
    match link_of_line(line.as_bytes()) {
        Some(link) => link.index == index && link.name == name.as_bytes(),
        None => false,
    }
}

// Lines, and the links in them.
static LINKS: [(&str, u32, &str); 5] = [
    ("7 eth0", 7, "eth0"),
    ("  7\teth0 ", 7, "eth0"),
    ("1: lo: <LOOPBACK,UP,LOWER_UP> mtu 65536 qdisc noqueue state UNKNOWN mode DEFAULT", 1, "lo"),
    ("5: veth0@if6: <BROADCAST,MULTICAST> mtu 1500 qdisc noop state DOWN", 5, "veth0"),
    ("4294967295: br-12.7@eth0: <>", u32::MAX, "br-12.7"),
];

static NO_LINKS: [&str; 8] =
    ["", "eth0", "7", "7:", "7: ", "4294967296 eth0", ": eth0", "link/ether 02:00:00:00:00:01"];

#[test]
fn lines() {
    for (line, index, name) in &LINKS {
        assert!(is_link(line, *index, name), "{line}");
    }
    for line in &NO_LINKS {
        assert!(link_of_line(line.as_bytes()).is_none(), "{line}");
    }
}

// What Linux sends of a link: its header, a name, and an MTU before it.
#[rustfmt::skip]
static MESSAGE: [u8; 36] = [
    0, 0, 1, 0, 5, 0, 0, 0, 2, 0x10, 0, 0, 0, 0, 0, 0,
    8, 0, 4, 0, 0xdc, 5, 0, 0, 10, 0, 3, 0, 0x76, 0x65, 0x74, 0x68, 0x30, 0, 0, 0,
];

#[test]
fn messages() {
    match link_of_message(&MESSAGE) {
        Some(link) => {
            assert!(link.index == 5);
            assert!(link.name == b"veth0".as_slice());
        }
        None => assert!(false, "a name"),
    }
    assert!(link_of_message(&MESSAGE[..16]).is_none());
    assert!(link_of_message(&MESSAGE[..15]).is_none());
}
