//! Parsing numbers.

/// The number of at most `most` that digits of this radix say, and nothing else.
pub(crate) fn number_of(radix: u32, most: u64, text: &str) -> Option<u64> {
    let is_digits = text.chars().all(|letter| letter.is_digit(radix));
    u64::from_str_radix(text, radix).ok().filter(|number| is_digits && *number <= most)
}

/// The number of 64 bits that digits of hex say.
pub(crate) fn hex_of(text: &[u8]) -> Option<u64> {
    number_of(16, u64::MAX, std::str::from_utf8(text).ok()?)
}

/// The value of a hex digit, in either case.
pub(crate) fn digit(byte: u8) -> Option<u8> {
    char::from(byte).to_digit(16).and_then(|digit| u8::try_from(digit).ok())
}
