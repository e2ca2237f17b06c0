//! Lines of a hex dump. Each begins with an offset.

use super::digits::hex_of;

/// A line of a hex dump.
#[derive(Clone, Copy, Debug)]
pub struct DumpLine<'a> {
    /// The offset of its bytes in the dumped data.
    pub offset: u64,
    /// The columns of hex, without the column of text.
    pub columns: &'a [u8],
}

/// Parses a line of `xxd`, `hexdump -C`, `tcpdump -x` or of a copy from Wireshark. `None` if it doesn't begin with an offset.
#[must_use]
pub fn dump_line(line: &[u8]) -> Option<DumpLine<'_>> {
    let text = without_blanks(line);
    let (digits, rest) = split(text.strip_prefix(b"0x").unwrap_or(text), |byte| byte.is_ascii_hexdigit());
    let [mark, blank, columns @ ..] = rest else {
        return None;
    };
    if digits.len() < 4 || !(*mark == b':' || is_blank(*mark)) || !is_blank(*blank) {
        return None;
    }
    let columns = without_blanks(columns);
    // There is no gap in the columns if a colon ends the offset.
    let end = if *mark == b':' { end_of_columns(columns) } else { end_with_gap(columns) };
    Some(DumpLine { offset: hex_of(digits)?, columns: columns.get(..end)? })
}

/// True for a space, a tab and a carriage return.
pub(crate) fn is_blank(byte: u8) -> bool {
    matches!(byte, b' ' | b'\t' | b'\r')
}

/// The bytes at the front that are so, and the rest.
pub(crate) fn split(text: &[u8], is_so: impl Fn(u8) -> bool) -> (&[u8], &[u8]) {
    text.split_at(text.iter().position(|byte| !is_so(*byte)).unwrap_or(text.len()))
}

pub(crate) fn without_blanks(text: &[u8]) -> &[u8] {
    split(text, is_blank).1
}

// Columns end before two blanks.
fn end_of_columns(text: &[u8]) -> usize {
    text.windows(2).position(|two| two.iter().all(|byte| is_blank(*byte))).unwrap_or(text.len())
}

// The characters of eight bytes, and of the two blanks after them.
const HALF: usize = 25;

// The end of columns in which two blanks may follow eight bytes.
fn end_with_gap(text: &[u8]) -> usize {
    let end = end_of_columns(text);
    let second = text.get(HALF..).filter(|_| end == HALF.saturating_sub(2));
    match second.map(|second| (second, split(second, |byte| byte.is_ascii_hexdigit()))) {
        Some((second, ([_, _], [next, ..]))) if is_blank(*next) => end_of_columns(second).saturating_add(HALF),
        _ => end,
    }
}

fn is_empty(text: &[u8]) -> bool {
    text.iter().all(|byte| is_blank(*byte))
}

/// True for a line with an asterisk, by which `hexdump` and `xxd -a` leave out lines with the bytes of the line before.
#[must_use]
pub fn is_asterisk(line: &[u8]) -> bool {
    line.strip_prefix(b"*").is_some_and(is_empty)
}

// The digits of a line that holds nothing else.
fn only_digits(line: &[u8]) -> &[u8] {
    let (digits, rest) = split(line, |byte| byte.is_ascii_hexdigit());
    if is_empty(rest) { digits } else { &[] }
}

/// The number of digits of a line that holds nothing else, as of `xxd -p`. 0 for another line.
#[must_use]
pub fn digits_of_line(line: &[u8]) -> usize {
    only_digits(line).len()
}

/// The offset on a line that holds nothing else, with which a dump of `hexdump` ends.
#[must_use]
pub fn end_of_dump(line: &[u8]) -> Option<u64> {
    hex_of(Some(only_digits(line)).filter(|digits| digits.len() >= 4)?)
}
