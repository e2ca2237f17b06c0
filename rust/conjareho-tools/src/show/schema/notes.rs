//! Notes on the members of parts, in addition to their names in JSON and their forms.

use crate::user::prelude::*;

use crate::show::units::{Name, Unit};

/// A note on a member of a part: the kernel's name, the unit, and the names of its numbers.
#[derive(Clone, Copy)]
pub struct Note {
    /// The place of the part.
    pub place: usize,
    /// The name in JSON.
    pub member: &'static str,
    /// The kernel's name. Empty if there is none.
    pub kernel: &'static str,
    /// The unit in words. Empty if there is none.
    pub unit: &'static str,
    /// The names of its numbers or bits.
    pub names: &'static [Name<'static>],
    /// The notation of these numbers.
    pub numbers: Unit,
}

const NO_NOTE: Note = Note { place: 0, member: "", kernel: "", unit: "", names: &[], numbers: Unit::Plain };

fn is_of(note: &Note, place: usize, member: &str) -> bool {
    note.place == place && note.member == member
}

// The first note on a member of the part at a place.
pub(crate) fn note_of(notes: &[Note], place: usize, member: &str) -> Note {
    match notes.split_first() {
        Some((it, _)) if is_of(it, place, member) => *it,
        Some((_, others)) => note_of(others, place, member),
        None => NO_NOTE,
    }
}

/// A unit in words. Empty for `Plain`.
#[must_use]
pub fn unit_in_words(unit: Unit) -> &'static str {
    match unit {
        Unit::Bytes => "bytes",
        Unit::Packets => "packets",
        Unit::BytesPerSecond => "bytes a second",
        Unit::PacketsPerSecond => "packets a second",
        Unit::KilobitsPerSecond => "1000 bits a second",
        Unit::Nanoseconds => "nanoseconds",
        Unit::Microseconds => "microseconds",
        Unit::Milliseconds => "milliseconds",
        Unit::Seconds => "seconds",
        Unit::Ticks => "ticks of 64 ns",
        Unit::ClockTicks => "hundredths of a second",
        Unit::Percent => "percent",
        Unit::Probability => "probability, 2^-32 each",
        Unit::Power => "exponent of 2",
        Unit::Plain | Unit::Hex | Unit::LongHex | Unit::NetworkHex | Unit::U32Handle => "",
    }
}
