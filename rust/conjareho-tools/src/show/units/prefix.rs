//! Network masks and prefix lengths.

use crate::user::prelude::*;

/// The prefix length of a mask, most significant octet first. `None` if it isn't ones followed by zeros.
///
/// # Panics
///
/// It may, unless this holds, which the proved sources ask of callers:
///
/// - `length mask.now ≤ 16`
#[must_use]
pub fn prefix_of(mask: &[u8]) -> Option<u8> {
    assert!(mask.len() <= 16, "required length mask.now ≤ 16");
    let (first, others) = match mask.split_first() {
        Some(parts) => parts,
        None => return Some(0),
    };
    if *first == 255 {
        return match prefix_of(others) {
            Some(ones) => Some(ones + 8),
            None => None,
        };
    }
    if !are_zero(others) {
        return None;
    }
    ones_of(*first)
}

// True if no bit is set.
fn are_zero(octets: &[u8]) -> bool {
    match octets.split_first() {
        Some((first, others)) => *first == 0 && are_zero(others),
        None => true,
    }
}

// The number of leading ones in an octet; `None` if any other bit is set.
fn ones_of(octet: u8) -> Option<u8> {
    match octet {
        0 => Some(0),
        128 => Some(1),
        192 => Some(2),
        224 => Some(3),
        240 => Some(4),
        248 => Some(5),
        252 => Some(6),
        254 => Some(7),
        _ => None,
    }
}
