//! Why no request is made of a line.

use std::fmt;

use crate::fallible::AllocError;
use crate::make::messages::{LineError, Place};
use crate::make::requests::save::SaveFault;
use crate::nla_frames::DecodeError;
use crate::restore::RestoreError;

/// Why no request is made of a line.
pub enum Complaint {
    /// No message is made of it.
    Line(LineError),
    /// No request restores what it shows.
    Restore(RestoreError),
    /// The message is too long to be written.
    TooLong,
    /// Its save isn't whole.
    Save(SaveFault),
    /// The first line of its save has no name for this interface.
    NoName(u32),
    /// There is no interface of this name now.
    NoInterface(String),
    /// Interfaces are asked for by names, and the input has none.
    NoNames,
    /// Something changed during its dump, which may lack objects.
    Interrupted,
    /// It is of an interface that what there is now doesn't have.
    OtherInterface(i32),
    /// With `--in-order` it can't be checked that a save is whole.
    LineByLine,
}

impl Complaint {
    /// True if memory ran out.
    #[must_use]
    pub fn is_no_memory(&self) -> bool {
        matches!(self, Complaint::Line(LineError::NoMemory))
    }

    /// True if another request makes what is dumped.
    #[must_use]
    pub fn is_made_by_another(&self) -> bool {
        matches!(self, Complaint::Restore(RestoreError::MadeByKernel))
    }

    /// True if no request at all is made because of it.
    pub(crate) fn is_of_all(&self) -> bool {
        matches!(
            self,
            Complaint::Save(_)
                | Complaint::NoName(_)
                | Complaint::NoInterface(_)
                | Complaint::NoNames
                | Complaint::OtherInterface(_)
        )
    }
}

impl From<AllocError> for Complaint {
    fn from(_e: AllocError) -> Complaint {
        Complaint::Line(LineError::NoMemory)
    }
}

impl From<LineError> for Complaint {
    fn from(e: LineError) -> Complaint {
        Complaint::Line(e)
    }
}

impl From<RestoreError> for Complaint {
    fn from(e: RestoreError) -> Complaint {
        match e {
            RestoreError::OutOfMemory => Complaint::Line(LineError::NoMemory),
            e => Complaint::Restore(e),
        }
    }
}

impl From<SaveFault> for Complaint {
    fn from(e: SaveFault) -> Complaint {
        Complaint::Save(e)
    }
}

// Of bytes that the codec reads: reading them again fails only if memory runs out.
impl From<DecodeError> for Complaint {
    fn from(_e: DecodeError) -> Complaint {
        Complaint::Line(LineError::NoMemory)
    }
}

impl fmt::Display for Complaint {
    fn fmt(&self, f: &mut fmt::Formatter<'_>) -> fmt::Result {
        match self {
            Complaint::Line(error) => write!(f, "{error}"),
            Complaint::Restore(error) => write!(f, "can't be restored: {error}"),
            Complaint::TooLong => f.write_str("the message is too long to be written"),
            Complaint::Save(fault) => write!(f, "{fault}"),
            Complaint::NoName(index) => write!(f, "no name for interface {index}"),
            Complaint::NoInterface(name) => {
                write!(f, "there is no interface {}", Place(name.as_str()))
            }
            Complaint::NoNames => {
                f.write_str("no names of interfaces: the first line of a save, with /names, is missing")
            }
            Complaint::Interrupted => {
                f.write_str("the dump was interrupted: something changed meanwhile, and objects may be missing")
            }
            Complaint::OtherInterface(index) => {
                write!(f, "interface {index} isn't one of those that there are now")
            }
            Complaint::LineByLine => {
                f.write_str("a save can't be checked with --in-order, which reads a line at a time")
            }
        }
    }
}
