//! JSON that shows all of its characters.

use crate::user::prelude::*;

use crate::show::units::hex_digit;
use crate::tc_texts::is_printable;

/// The same JSON with characters that nobody sees, or that a terminal obeys, as escapes such as `\u200b`; beyond U+FFFF as
/// two, `\udb40\udc74`. JSON has no such character outside of its strings, so it is the same value.
///
/// # Errors
///
/// An [`AllocError`].
pub fn safe_text(json: String) -> Result<String, AllocError> {
    if are_printable(json.as_bytes()) {
        return Ok(json);
    }
    escaped(json.as_str())
}

// True if each byte is printable ASCII. It looks at all of them, several at a time.
fn are_printable(json: &[u8]) -> bool {
    let mut printable = true;
    for byte in json {
        printable &= is_printable(*byte);
    }
    printable
}

fn escaped(text: &str) -> Result<String, AllocError> {
    let mut safe = String::new();
    for c in text.chars() {
        if is_hidden(c) {
            put_escape(&mut safe, c)?;
        } else {
            safe.try_push(c)?;
        }
    }
    Ok(safe)
}

// True for `DEL` and the C1 controls; for what Unicode lists as `Default_Ignorable_Code_Point`, such as zero-width and
// bidirectional controls, fillers, variation selectors and tags; for the separators of lines and paragraphs, spaces that
// aren't U+0020, and other controls of layout. Those below U+0020 are escaped by JSON.
fn is_hidden(c: char) -> bool {
    matches!(
        c,
        '\u{7f}'..='\u{a0}'
            | '\u{ad}'
            | '\u{34f}'
            | '\u{61c}'
            | '\u{115f}'
            | '\u{1160}'
            | '\u{1680}'
            | '\u{17b4}'
            | '\u{17b5}'
            | '\u{180b}'..='\u{180f}'
            | '\u{2000}'..='\u{200f}'
            | '\u{2028}'..='\u{202f}'
            | '\u{205f}'..='\u{206f}'
            | '\u{2800}'
            | '\u{3000}'
            | '\u{3164}'
            | '\u{fe00}'..='\u{fe0f}'
            | '\u{feff}'
            | '\u{ffa0}'
            | '\u{fff0}'..='\u{fffb}'
            | '\u{13430}'..='\u{1343f}'
            | '\u{1bca0}'..='\u{1bca3}'
            | '\u{1d173}'..='\u{1d17a}'
            | '\u{e0000}'..='\u{e0fff}'
    )
}

fn put_escape(safe: &mut String, c: char) -> Result<(), AllocError> {
    for unit in c.encode_utf16(&mut [0; 2]) {
        safe.try_push_str("\\u")?;
        for byte in unit.to_be_bytes() {
            safe.try_push(char::from(hex_digit(byte / 16)))?;
            safe.try_push(char::from(hex_digit(byte % 16)))?;
        }
    }
    Ok(())
}
