//! The end of a run.

use crate::fallible::AllocError;

/// Why a run ended before the end of its input.
#[derive(Clone, Copy, PartialEq, Eq, Debug)]
pub enum Stop {
    /// The arguments, or a file that they name, can't be used.
    Usage,
    /// The input is neither a capture nor lines of hex.
    NoCapture,
    /// The capture has packets, but none of route netlink.
    NoRoute,
    /// The output was closed (`EPIPE`), which is no failure.
    Closed,
    /// Reading failed.
    Read,
    /// Writing failed.
    Write,
    /// Memory ran out.
    NoMemory,
}

impl From<AllocError> for Stop {
    fn from(_: AllocError) -> Stop {
        Stop::NoMemory
    }
}

/// How a run ended.
#[derive(Clone, Copy, PartialEq, Eq, Debug)]
pub struct Ended {
    /// Why it ended before the end of its input, if it did.
    pub outcome: Result<(), Stop>,
    /// True if a part of the input was refused, or is broken or cut.
    pub has_refused: bool,
}

impl Ended {
    /// An end before anything was read.
    #[must_use]
    pub fn early(stop: Stop) -> Ended {
        Ended { outcome: Err(stop), has_refused: false }
    }

    /// The exit status: 3 if a stream failed or memory ran out, 2 for wrong arguments or an input that can't be used, 1 if a part of the
    /// input was refused, else 0.
    #[must_use]
    pub fn status(self) -> u8 {
        match self.outcome {
            Err(Stop::Read | Stop::Write | Stop::NoMemory) => 3,
            Err(Stop::Usage | Stop::NoCapture | Stop::NoRoute) => 2,
            Ok(()) | Err(Stop::Closed) => u8::from(self.has_refused),
        }
    }
}
