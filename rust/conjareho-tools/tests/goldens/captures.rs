//! Captures of messages in the formats that `tcshow` reads, and dumps as other programs print them.

use super::common::random::Random;
use super::common::stored::{Messages, attribute, hex, message};

const SECONDS: u32 = 1_700_000_000;

/// Messages one after the other.
pub fn stream(messages: &[Vec<u8>]) -> Vec<u8> {
    let padded = |bytes: &Vec<u8>| {
        let mut out = bytes.clone();
        out.resize(out.len().next_multiple_of(4), 0);
        out
    };
    messages.iter().flat_map(padded).collect()
}

/// The cooked header of LINKTYPE_NETLINK and a message: every third one is from the kernel.
fn packet(number: usize, bytes: &[u8]) -> Vec<u8> {
    let mut out = vec![0, if number % 3 == 0 { 4 } else { 0 }, 3, 0x38];
    out.resize(14, 0);
    out.extend([0, 0]);
    out.extend(bytes);
    out
}

fn word(number: u32, is_big: bool) -> [u8; 4] {
    if is_big { number.to_be_bytes() } else { number.to_le_bytes() }
}

/// A pcap, of nanoseconds or of microseconds.
pub fn pcap(messages: &[Vec<u8>], has_nanoseconds: bool, is_big: bool) -> Vec<u8> {
    let magic = if has_nanoseconds { 0xa1b2_3c4d } else { 0xa1b2_c3d4 };
    let half = |number: u16| if is_big { number.to_be_bytes() } else { number.to_le_bytes() };
    let mut out = word(magic, is_big).to_vec();
    out.extend([half(2), half(4)].concat());
    out.extend([0, 0, 1 << 20, 253].map(|number| word(number, is_big)).concat());
    for (number, bytes) in messages.iter().enumerate() {
        let data = packet(number, bytes);
        let passed = number as u32 * 977_331;
        let (size, fraction) = (data.len() as u32, passed % 1_000_000);
        let head = [SECONDS + passed / 1_000_000 * 61, if has_nanoseconds { fraction * 999 } else { fraction }, size, size];
        out.extend(head.map(|number| word(number, is_big)).concat());
        out.extend(data);
    }
    out
}

fn block(kind: u32, body: &[u8], is_big: bool) -> Vec<u8> {
    let mut padded = body.to_vec();
    padded.resize(body.len().next_multiple_of(4), 0);
    let length = word(padded.len() as u32 + 12, is_big);
    [&word(kind, is_big)[..], &length, &padded, &length].concat()
}

/// A pcapng of one section and one interface.
pub fn pcapng(messages: &[Vec<u8>], is_big: bool) -> Vec<u8> {
    let half = |number: u16| if is_big { number.to_be_bytes() } else { number.to_le_bytes() };
    let version = [half(1), half(0)].concat();
    let mut out = block(0x0a0d_0d0a, &[&word(0x1a2b_3c4d, is_big)[..], &version, &[0xff; 8]].concat(), is_big);
    out.extend(block(1, &[&half(253)[..], &[0, 0], &word(1 << 20, is_big)].concat(), is_big));
    for (number, bytes) in messages.iter().enumerate() {
        let data = packet(number, bytes);
        let time = u64::from(SECONDS) * 1_000_000 + number as u64 * 3_333_333;
        let head = [0, (time >> 32) as u32, time as u32, data.len() as u32, data.len() as u32].map(|number| word(number, is_big));
        out.extend(block(6, &[head.concat(), data].concat(), is_big));
    }
    out
}

/// A file of `rtmon`: messages, each after a stamp of its time (type 15).
pub fn rtmon(messages: &[Vec<u8>]) -> Vec<u8> {
    let stamped = messages.iter().enumerate().flat_map(|(number, bytes)| {
        let time = [SECONDS + number as u32, 1000 * number as u32].map(u32::to_le_bytes).concat();
        [message(15, 0, 0, 0, &time), bytes.clone()]
    });
    stream(&stamped.collect::<Messages>())
}

/// The name of an interface (RTM_NEWLINK).
pub fn link(index: u32, name: &str) -> Vec<u8> {
    let head = [&[0_u8, 0, 1, 0][..], &index.to_le_bytes(), &[0; 8]].concat();
    message(16, 2, 0, 0, &[head, attribute(3, &[name.as_bytes(), &[0]].concat())].concat())
}

/// Each message as a request, and what the kernel says to it: an error with a text and a place, an error alone, an acknowledgement.
pub fn answered(messages: &[Vec<u8>]) -> Messages {
    let mut out = vec![link(1, "lo"), link(2, "wan"), link(7, "d7")];
    for (number, bytes) in messages.iter().enumerate() {
        let sequence = number as u32 + 1;
        let kind = u16::from_le_bytes([bytes[4], bytes[5]]);
        let request = message(kind, 5 | (number as u16 % 4) << 8, sequence, 21644, &bytes[16..]);
        let error = |code: i32| [&code.to_le_bytes()[..], &request].concat();
        let text = [attribute(1, b"Specified qdisc kind is unknown\0"), attribute(2, &(16 + 20_u32).to_le_bytes())].concat();
        let answer = match number % 4 {
            0 => message(2, 0x200, sequence, 21644, &[error(-2), text].concat()),
            1 => message(2, 0, sequence, 21644, &error(-22)),
            2 => message(2, 0x100, sequence, 21644, &error(0)[..20]),
            _ => message(3, 2, sequence, 21644, &(-i32::from(number as u8 % 2)).to_le_bytes()),
        };
        out.extend([request, answer]);
    }
    out
}

/// As `xxd` prints it.
pub fn xxd(bytes: &[u8]) -> Vec<u8> {
    let line = |(number, row): (usize, &[u8])| {
        let pairs: Vec<String> = row.chunks(2).map(|pair| pair.iter().map(|byte| format!("{byte:02x}")).collect()).collect();
        let text: String = row.iter().map(|byte| if (32..127).contains(byte) { *byte as char } else { '.' }).collect();
        format!("{:08x}: {:<39}  {text}\n", number * 16, pairs.join(" "))
    };
    bytes.chunks(16).enumerate().map(line).collect::<String>().into_bytes()
}

/// Plain hex of several messages as `xxd -p` prints it.
pub fn xxd_plain(bytes: &[u8]) -> Vec<u8> {
    bytes.chunks(30).flat_map(|row| hex(&[row.to_vec()])).collect()
}

/// One byte changed, or its end cut.
pub fn broken(whole: &[u8], random: &mut Random) -> Vec<u8> {
    let (mut out, at) = (whole.to_vec(), random.below(whole.len()));
    match random.below(10) {
        0..3 => out.truncate(at),
        3..5 => out[at % 48] ^= 1 << random.below(8),
        5 => out[at] = 0,
        6 => out[at] = 255,
        _ => out[at] ^= 1 << random.below(8),
    }
    out
}
