//! Handles as they are given on a command line.

use super::digits::number_of;
use crate::tc_texts::handle_from_tc_text;

/// The forms of a handle, for error messages.
pub const HANDLE_FORMS: &str = "a handle is one such as 1:10, ffff:, root, 800::800 or 0x1";

/// Parses a handle: `1:10`, `ffff:`, `:10`, `root`, `none`, `ingress`, `clsact`, for filters also `0x1`, and for u32
/// `800::800`. A number without a colon or `0x` is no handle.
#[must_use]
pub fn parse_handle(text: &str) -> Option<u32> {
    hex_handle(text).or_else(|| table_handle(text)).or_else(|| handle_from_tc_text(text))
}

fn hex_handle(text: &str) -> Option<u32> {
    u32::try_from(number_of(16, u64::from(u32::MAX), text.strip_prefix("0x")?)?).ok()
}

// Parses a handle of u32: a table, a bucket and an item with colons between them. Each may be empty, which is 0.
fn table_handle(text: &str) -> Option<u32> {
    let part =
        |most, text: &str| if text.is_empty() { Some(0) } else { u32::try_from(number_of(16, most, text)?).ok() };
    let (table, rest) = text.split_once(':')?;
    let (bucket, item) = rest.split_once(':')?;
    Some((part(0xfff, table)? << 20) | (part(0xff, bucket)? << 12) | part(0xfff, item)?)
}
