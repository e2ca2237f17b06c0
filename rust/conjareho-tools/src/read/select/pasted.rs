//! Bytes of pasted hex: digits, with blanks, colons or `0x` between them.

use super::digits::digit;
use super::dump::is_blank;

/// Appends the bytes of a hex text: two digits a byte. Blanks, colons and `0x` are ignored. Returns false if there is
/// anything else, or an odd digit. The bytes appended so far then remain.
pub fn push_hex(bytes: &mut Vec<u8>, text: &[u8]) -> bool {
    let mut high = None;
    for byte in text {
        high = match (high, *byte) {
            (high, between) if is_blank(between) || between == b':' => high,
            (Some(0), b'x' | b'X') => None,
            (high, byte) => match (high, digit(byte)) {
                (_, None) => return false,
                (None, digit) => digit,
                (Some(high), Some(low)) => {
                    bytes.push(high << 4 | low);
                    None
                }
            },
        };
    }
    high.is_none()
}
