//! Captures, made of messages.

use std::path::Path;

/// The time of each packet: seconds and microseconds.
pub const SECONDS: u32 = 1_700_000_000;
pub const MICROSECONDS: u32 = 123_456;

/// A file format.
#[derive(Clone, Copy, Debug, PartialEq)]
pub enum Format {
    Stream,
    Microseconds,
    Nanoseconds,
    Blocks,
}

/// All formats, little-endian and big-endian; a stream has one order.
pub const FORMATS: [(Format, bool); 7] = [
    (Format::Stream, false),
    (Format::Microseconds, false),
    (Format::Microseconds, true),
    (Format::Nanoseconds, false),
    (Format::Nanoseconds, true),
    (Format::Blocks, false),
    (Format::Blocks, true),
];

/// The bytes of hex, with white space between.
pub fn bytes_of(hex: &str) -> Vec<u8> {
    let digits: Vec<char> = hex.split_whitespace().flat_map(str::chars).collect();
    let value = |digit: &char| digit.to_digit(16).expect("hex") as u8;
    digits.chunks(2).map(|pair| 16 * value(&pair[0]) + value(&pair[1])).collect()
}

fn padding(bytes: &[u8]) -> Vec<u8> {
    vec![0; bytes.len().next_multiple_of(4) - bytes.len()]
}

fn length(bytes: &[u8]) -> u32 {
    bytes.len().try_into().expect("a short message")
}

/// A netlink message with a payload, and its padding.
fn message(kind: u16, sequence: u32, payload: &[u8]) -> Vec<u8> {
    let mut bytes = (length(payload) + 16).to_le_bytes().to_vec();
    bytes.extend(kind.to_le_bytes());
    bytes.extend([0, 6]);
    bytes.extend(sequence.to_le_bytes());
    bytes.extend([0; 4]);
    bytes.extend(payload);
    bytes.extend(padding(payload));
    bytes
}

/// The labelled messages of all kinds, numbered from 1 on: qdiscs and the like as RTM_NEWQDISC, actions as RTM_NEWACTION.
pub fn messages() -> Vec<Vec<u8>> {
    let path = Path::new(env!("CARGO_MANIFEST_DIR")).join("../../model/labelled");
    let labelled = std::fs::read_to_string(path).expect("labelled messages");
    let rows = labelled.lines().filter(|line| !line.starts_with('#')).zip(1..);
    let message = |(line, sequence): (&str, u32)| {
        let words: Vec<&str> = line.split(' ').collect();
        message(if words[1] == "tc" { 36 } else { 48 }, sequence, &bytes_of(words[2]))
    };
    rows.map(message).collect()
}

fn numbers(is_big: bool, numbers: &[u32]) -> Vec<u8> {
    let bytes = |number: &u32| if is_big { number.to_be_bytes() } else { number.to_le_bytes() };
    numbers.iter().flat_map(bytes).collect()
}

/// The bytes of a file before its packets: of pcap its header, of pcapng a section, and an interface that counts microseconds.
pub fn beginning(format: Format, is_big: bool) -> Vec<u8> {
    let hex = match (format, is_big) {
        (Format::Stream, _) => "",
        (Format::Microseconds, false) => "d4c3b2a1 0200 0400 00000000 00000000 00000400 fd000000",
        (Format::Microseconds, true) => "a1b2c3d4 0002 0004 00000000 00000000 00040000 000000fd",
        (Format::Nanoseconds, false) => "4d3cb2a1 0200 0400 00000000 00000000 00000400 fd000000",
        (Format::Nanoseconds, true) => "a1b23c4d 0002 0004 00000000 00000000 00040000 000000fd",
        (Format::Blocks, false) => {
            "0a0d0d0a 1c000000 4d3c2b1a 0100 0000 ffffffffffffffff 1c000000
            01000000 20000000 fd00 0000 00000000 0900 0100 06000000 00000000 20000000"
        }
        (Format::Blocks, true) => {
            "0a0d0d0a 0000001c 1a2b3c4d 0001 0000 ffffffffffffffff 0000001c
            00000001 00000020 00fd 0000 00000000 0009 0001 06000000 00000000 00000020"
        }
    };
    bytes_of(hex)
}

/// A packet of which the last bytes are missing in the capture, after the cooked header of LINKTYPE_NETLINK for NETLINK_ROUTE.
pub fn packet(format: Format, is_big: bool, messages: &[u8], missing: u32) -> Vec<u8> {
    let cooked = [&[0, 4, 3, 0x38][..], &[0; 12], messages].concat();
    let (held, all) = (length(&cooked), length(&cooked) + missing);
    match format {
        Format::Stream => [numbers(false, &[24, 15, 0, 0, SECONDS, MICROSECONDS]), messages.to_vec()].concat(),
        Format::Microseconds => [numbers(is_big, &[SECONDS, MICROSECONDS, held, all]), cooked].concat(),
        Format::Nanoseconds => [numbers(is_big, &[SECONDS, MICROSECONDS * 1000, held, all]), cooked].concat(),
        Format::Blocks => {
            let ticks = u64::from(SECONDS) * 1_000_000 + u64::from(MICROSECONDS);
            let (high, low) = ((ticks >> 32) as u32, ticks as u32);
            let padding = padding(&cooked);
            let length = held + length(&padding) + 32;
            let front = numbers(is_big, &[6, length, 0, high, low, held, all]);
            [front, cooked, padding, numbers(is_big, &[length])].concat()
        }
    }
}

/// A file of packets of a message each.
pub fn file_of(format: Format, is_big: bool, messages: &[Vec<u8>]) -> Vec<u8> {
    let packets = messages.iter().map(|message| packet(format, is_big, message, 0));
    std::iter::once(beginning(format, is_big)).chain(packets).collect::<Vec<_>>().concat()
}
