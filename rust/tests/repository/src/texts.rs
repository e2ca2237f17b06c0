//! Texts of values: addresses, handles, bytes, and a filter's word.

use crate::tc_texts::{
    HexText, filter_info, handle_from_tc_text, handle_text, hex_string, info_priority, info_protocol, ipv4_text,
    ipv6_text, mac_text, read_handle, read_hex, read_ipv4, read_ipv6, read_mac,
};

/// The bytes of hex.
fn octets<const N: usize>(hex: &str) -> [u8; N] {
    assert_eq!(hex.len(), 2 * N, "{hex}");
    std::array::from_fn(|at| u8::from_str_radix(&hex[2 * at..2 * at + 2], 16).expect("hex"))
}

fn is_known(kind: &str, hex: &str, text: &str) {
    match kind {
        "mac" => assert_eq!((read_mac(text), mac_text(octets(hex)).as_str()), (Some(octets(hex)), text)),
        "ipv4" => assert_eq!((read_ipv4(text), ipv4_text(octets(hex)).as_str()), (Some(octets(hex)), text)),
        "ipv6" => assert_eq!((read_ipv6(text), ipv6_text(octets(hex)).as_str()), (Some(octets(hex)), text)),
        "handle" => {
            let handle = u32::from_be_bytes(octets(hex));
            assert_eq!((read_handle(text), handle_text(handle).as_str()), (Some(handle), text));
            assert_eq!(handle_from_tc_text(text), Some(handle), "{text}");
        }
        kind => panic!("{kind}"),
    }
}

#[test]
fn known_texts() {
    let mut kind = "";
    let mut count = 0;
    for line in include_str!("texts.txt").lines().filter(|line| !line.is_empty() && !line.starts_with('#')) {
        match line.split_once(' ') {
            Some((hex, text)) => {
                is_known(kind, hex, text);
                count += 1;
            }
            None => kind = line.trim_matches(['[', ']']),
        }
    }
    assert_eq!(count, 40 + 50 + 80 + 47);
    assert_eq!((handle_text(0).as_str(), read_handle("0:0")), ("0:0", Some(0)));
}

#[test]
fn other_spellings_are_refused() {
    let macs = [
        "",
        "02:00:5E:10:00:01",
        "2:0:5e:10:0:1",
        "02-00-5e-10-00-01",
        "02:00:5e:10:00:01:",
        "02:00:5e:10:00",
        "02:00:5e:10:00:0g",
    ];
    for text in macs {
        assert_eq!(read_mac(text), None, "{text}");
    }
    for text in ["", "192.0.2", "192.0.2.01", "192.0.2.256", "192.0.2.1 "] {
        assert_eq!(read_ipv4(text), None, "{text}");
    }
    let ipv6s = [
        "",
        "1:2:3:4:5:6:7",
        "2001:DB8::1",
        "2001:db8:0:0:0:0:0:1",
        "2001:0db8::1",
        "1::2::3",
        "::ffff:102:304",
        "::102:304",
        "fe80::1%2",
    ];
    for text in ipv6s {
        assert_eq!(read_ipv6(text), None, "{text}");
    }
    for text in ["", "1:0010", "0:10", "none", "ingress", "FFFF:FFF1", "0:", "ffff:ffff", ":", "1", "root "] {
        assert_eq!(read_handle(text), None, "{text}");
    }
    for text in ["", "1", "1:2:3", "10000:1", "0x1:2", "1:-2", " 1:2", "1:g", "Root"] {
        assert_eq!(handle_from_tc_text(text), None, "{text}");
    }
}

#[test]
fn handles_as_tc_reads_them() {
    let rows = [
        ("1:10", 0x0001_0010),
        ("1:", 0x0001_0000),
        (":10", 0x0000_0010),
        ("0:10", 0x0000_0010),
        ("aBcD:12eF", 0xABCD_12EF),
        ("0001:0020", 0x0001_0020),
        ("root", 0xFFFF_FFFF),
        ("ffff:ffff", 0xFFFF_FFFF),
        ("ingress", 0xFFFF_FFF1),
        ("clsact", 0xFFFF_FFF1),
        ("none", 0),
        (":", 0),
    ];
    for (text, handle) in rows {
        assert_eq!(handle_from_tc_text(text), Some(handle), "{text}");
    }
}

#[test]
fn bytes_as_hex() {
    let rows = [
        (&[0x01, 0x23, 0x45, 0x67, 0x89, 0xAB, 0xCD, 0xEF][..], "0123456789abcdef"),
        (&[0xFE, 0xDC, 0x0A], "fedc0a"),
        (&[], ""),
    ];
    for (bytes, text) in rows {
        assert_eq!((hex_string(bytes).as_deref(), HexText(bytes).to_string().as_str()), (Ok(text), text));
        assert_eq!(read_hex(text), Ok(Some(bytes.to_vec())), "{text}");
    }
    for text in ["f", "fE", "0x", "fe dc"] {
        assert_eq!(read_hex(text), Ok(None), "{text}");
    }
}

#[test]
fn priority_and_protocol() {
    // `tc filter add .. prio 49152 protocol ip`, and 0x86DD, which is IPv6.
    assert_eq!(filter_info(0xC000, 0x0800), 0xC000_0008);
    assert_eq!(filter_info(0x1234, 0x86DD), 0x1234_DD86);
    assert_eq!((info_priority(0x1234_DD86), info_protocol(0x1234_DD86)), (0x1234, 0x86DD));
}
