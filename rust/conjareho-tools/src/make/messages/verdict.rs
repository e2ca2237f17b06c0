//! The verdict that a line states, beside the codec's.

use crate::line::{Fault, Line, Member, Verdict};
use crate::make::messages::error::LineError;
use crate::make::messages::members::{missing, or_wrong, wrong};
use crate::nla_frames::DecodeError;

/// The verdict that a line states.
pub(crate) enum Said {
    /// It is refused.
    Refused(DecodeError),
    /// It is read. `None` for what the line doesn't say.
    Read { fits: Option<bool>, settled: Option<bool>, canonical: Option<bool> },
}

/// The verdict that a line states.
pub(crate) fn said_in(line: &Line) -> Result<Said, LineError> {
    if let Some(name) = or_wrong("refused", &line.fault.refused, FAULTS)? {
        return Ok(Said::Refused(fault_of(&line.fault, &name)?));
    }
    let truth = |name, member| or_wrong(name, member, "true or false");
    Ok(Said::Read {
        fits: truth("fits", &line.fits)?,
        settled: truth("settled", &line.settled)?,
        canonical: truth("canonical", &line.canonical)?,
    })
}

const FAULTS: &str = "BufferTooSmall, FrameHeaderShort, FrameTooLong, FrameTooShort, WrongLength, NotUtf8, SelectorShort, XstatsShort, MissingKind or DuplicateKind";

// The fault that a line names, with its numbers.
fn fault_of(fault: &Fault, name: &str) -> Result<DecodeError, LineError> {
    let (len, needed, length, left) = (
        || count("len", &fault.len),
        || count("needed", &fault.needed),
        || count("length", &fault.length),
        || count("left", &fault.left),
    );
    Ok(match name {
        "BufferTooSmall" => DecodeError::BufferTooSmall { len: len()?, needed: needed()? },
        "FrameHeaderShort" => DecodeError::FrameHeaderShort { left: left()? },
        "FrameTooLong" => DecodeError::FrameTooLong { length: length()?, left: left()? },
        "FrameTooShort" => DecodeError::FrameTooShort { length: length()? },
        "WrongLength" => {
            DecodeError::WrongLength { expected: count("expected", &fault.expected)?, got: count("got", &fault.got)? }
        }
        "NotUtf8" => DecodeError::NotUtf8,
        "SelectorShort" => DecodeError::SelectorShort { len: len()?, needed: needed()? },
        "XstatsShort" => DecodeError::XstatsShort { len: len()? },
        "MissingKind" => DecodeError::MissingKind,
        "DuplicateKind" => DecodeError::DuplicateKind,
        _ => return Err(wrong("refused", &name.into(), FAULTS)),
    })
}

// A number of a fault, in bytes.
fn count(name: &'static str, member: &Member<usize>) -> Result<usize, LineError> {
    const COUNT: &str = "a number of bytes";
    or_wrong(name, member, COUNT)?.ok_or_else(|| missing(name, COUNT))
}

/// Why what a line says isn't what the codec finds.
#[derive(Clone, Copy)]
pub(crate) enum Disagreement {
    /// The codec refuses the bytes.
    Refused,
    /// It reads them, or refuses them for another fault.
    OtherFault,
    /// A member that says so is wrong.
    Member(&'static str, bool),
    /// The line says nothing, and the bytes aren't canonical.
    NotCanonical,
}

/// Fails unless what a line says is what the codec finds. Where it says nothing, the bytes have to be canonical.
pub(crate) fn agree(said: &Said, verdict: &Verdict) -> Result<(), Disagreement> {
    match (said, verdict) {
        (Said::Refused(said), Verdict::Refused(error)) if said == error => Ok(()),
        (Said::Refused(_), _) => Err(Disagreement::OtherFault),
        (Said::Read { .. }, Verdict::Refused(_)) => Err(Disagreement::Refused),
        (Said::Read { fits: None, settled: None, canonical: None }, Verdict::Read { canonical: false, .. }) => {
            Err(Disagreement::NotCanonical)
        }
        (
            Said::Read { fits, settled, canonical },
            Verdict::Read { fits: does_fit, settled: is_settled, canonical: is_canonical },
        ) => {
            let all =
                [("fits", fits, does_fit), ("settled", settled, is_settled), ("canonical", canonical, is_canonical)];
            let wrong =
                all.into_iter().find_map(|(name, said, is)| said.filter(|said| said != is).map(|said| (name, said)));
            wrong.map_or(Ok(()), |(name, said)| Err(Disagreement::Member(name, said)))
        }
    }
}
