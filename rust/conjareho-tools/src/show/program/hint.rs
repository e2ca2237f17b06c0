//! The hint at `--no-header`.

use crate::read::input::{Dump, OnLine, Place, on_line, place_of};

/// What a complaint about lines of hex without netlink headers says.
pub(crate) const HINT: &str = "for hex without netlink headers use --no-header tc (or action)";

/// True if the first of these lines is hex and begins with a length under 16, as no netlink message does. A message without its netlink
/// header begins with its family.
#[must_use]
pub fn lacks_header(lines: &[u8]) -> bool {
    let line = lines.split(|byte| *byte == b'\n').next().unwrap_or(lines);
    let bytes = match (place_of(&Dump::new(), line), on_line(line)) {
        // A line of hex can be the first of a dump.
        (Place::Begins(dump) | Place::GoesOn(dump), _) => dump.bytes,
        (Place::Apart, OnLine::Bytes(bytes)) => bytes,
        (Place::Apart, _) => Vec::new(),
    };
    matches!(bytes.as_slice(), [0..=15, 0, 0, 0, ..])
}
