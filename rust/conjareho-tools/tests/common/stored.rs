//! The stored messages, and messages that are a few changes away from them.

use crate::common::random::Random;

/// Bytes of netlink messages, each a header of 16 bytes and a payload.
pub type Messages = Vec<Vec<u8>>;

/// How many messages a case has.
pub const HUNDRED: usize = 100;

const HEADER: usize = 16;

/// A file of `testdata`.
pub fn data(path: &str) -> Vec<u8> {
    let path = format!("{}/testdata/{path}", env!("CARGO_MANIFEST_DIR"));
    std::fs::read(&path).unwrap_or_else(|error| panic!("{path}: {error}"))
}

/// The stored messages: those that the repository's checks send and make, and those of every kind.
pub fn stored() -> Messages {
    let text = |path| String::from_utf8(data(path)).expect("messages are hex");
    let mut out = read(&text("goldens/messages"));
    out.extend(read(&text("tcmake_stored_shown/data/messages")));
    out
}

/// The messages of a file of hex, one on a line.
fn read(text: &str) -> Messages {
    text.lines().map(bytes_of).collect()
}

/// Bytes as hex. Panics if these aren't.
pub fn bytes_of(hex: &str) -> Vec<u8> {
    let digit = |byte: u8| (byte as char).to_digit(16).expect("a stored message is hex") as u8;
    hex.as_bytes().chunks(2).map(|pair| digit(pair[0]) << 4 | digit(pair[1])).collect()
}

/// Lines of hex.
pub fn hex(messages: &[Vec<u8>]) -> Vec<u8> {
    let digit = |number: u8| b"0123456789abcdef"[usize::from(number)];
    let mut out = Vec::new();
    for message in messages {
        out.extend(message.iter().flat_map(|byte| [digit(byte >> 4), digit(byte & 15)]));
        out.push(b'\n');
    }
    out
}

/// A netlink message of this type.
pub fn message(kind: u16, flags: u16, sequence: u32, port: u32, payload: &[u8]) -> Vec<u8> {
    let mut out = ((HEADER + payload.len()) as u32).to_le_bytes().to_vec();
    out.extend(kind.to_le_bytes());
    out.extend(flags.to_le_bytes());
    out.extend(sequence.to_le_bytes());
    out.extend(port.to_le_bytes());
    out.extend(payload);
    out
}

/// An attribute with its padding.
pub fn attribute(kind: u16, value: &[u8]) -> Vec<u8> {
    let mut out = ((4 + value.len()) as u16).to_le_bytes().to_vec();
    out.extend(kind.to_le_bytes());
    out.extend(value);
    out.resize(out.len().next_multiple_of(4), 0);
    out
}

/// Writes the length of a message anew.
pub fn settle_length(message: &mut [u8]) {
    if let Ok(length) = u32::try_from(message.len()) {
        message[..4].copy_from_slice(&length.to_le_bytes());
    }
}

/// Two messages that can be read, and not written: the last value isn't padded in full.
pub fn too_long() -> Messages {
    let ended = |head: &[u8], fill: usize, end: &[u8]| [head, &vec![0xaa; fill], end].concat();
    let kind = attribute(1, b"ingress\0");
    let options = ended(&bytes_of("ffff0200fbff6300"), 65527, &[0]);
    let actions = ended(&bytes_of("ffff0100fbff0100080001006e617400efff0600"), 65515, &[0]);
    vec![message(36, 2, 0, 0, &[&[0; 20][..], &kind, &options].concat()), message(48, 2, 0, 0, &[&[0; 4][..], &actions].concat())]
}

/// A stored message with one to four changes.
pub fn changed(stored: &[Vec<u8>], random: &mut Random) -> Vec<u8> {
    let mut out = random.choose(stored).clone();
    for _ in 0..=random.below(4) {
        change(&mut out, stored, random);
    }
    // A length that isn't the message's is a fault of the input, which few should have.
    if !random.one_in(20) {
        settle_length(&mut out);
    }
    out
}

fn change(out: &mut Vec<u8>, stored: &[Vec<u8>], random: &mut Random) {
    let at = HEADER + random.below(out.len() - HEADER);
    if at >= out.len() {
        out.push(random.byte());
        return;
    }
    // Attributes begin at multiples of 4.
    let aligned = (at & !3).max(HEADER);
    match random.below(9) {
        0 => out[at] ^= 1 << random.below(8),
        1 => out[at] = 0,
        2 => out[at] = 255,
        3 => out[at] = random.byte(),
        4 => out.truncate(at.max(HEADER)),
        5 => out[aligned] = out[aligned].wrapping_add(4),
        6 => {
            let more = random.choose(stored).clone();
            let from = HEADER + random.below(more.len() - HEADER) / 4 * 4;
            out.truncate(aligned);
            out.extend(&more[from.min(more.len())..]);
        }
        7 => {
            let again = out[aligned..].to_vec();
            out.extend(&again[..again.len().min(64)]);
        }
        _ => out.extend(attribute(random.below(20) as u16, &random.number().to_le_bytes()[..random.below(9)])),
    }
}
