//! The codec's verdict on the bytes of a message.

use super::{Fault, Line};
use crate::fallible::AllocError;
use crate::nla_frames::DecodeError;
use crate::tc_capture::MessageType;
use crate::tc_wire::{TcActionMessage, TcMessage, WholeMessage};

/// The codec's verdict on bytes.
pub(crate) enum Verdict {
    /// It refuses them.
    Refused(DecodeError),
    /// It reads a message. `fits`: the message can be written. `settled`: writing and reading don't change it. `canonical`: the bytes are
    /// those that it is written as.
    Read { fits: bool, settled: bool, canonical: bool },
}

impl Verdict {
    /// The verdict on a message of this type. Canonical bytes aren't parsed: their message fits and is settled.
    pub(crate) fn on(holds: MessageType, bytes: &[u8]) -> Result<Verdict, AllocError> {
        match holds {
            MessageType::Tc => Verdict::as_message::<TcMessage>(bytes),
            MessageType::Action => Verdict::as_message::<TcActionMessage>(bytes),
        }
    }

    fn as_message<M: WholeMessage>(bytes: &[u8]) -> Result<Verdict, AllocError> {
        if M::is_canonical(bytes) {
            return Ok(Verdict::Read { fits: true, settled: true, canonical: true });
        }
        match M::read(bytes) {
            Ok(message) => {
                Ok(Verdict::Read { fits: message.is_writable(), settled: message.is_settled(), canonical: false })
            }
            Err(DecodeError::OutOfMemory) => Err(AllocError),
            Err(error) => Ok(Verdict::Refused(error)),
        }
    }
}

impl Line {
    /// The line with what is said of a message that the codec reads.
    pub(crate) fn read(self, fits: bool, settled: bool, canonical: bool) -> Line {
        Line { fits: fits.into(), settled: settled.into(), canonical: canonical.into(), ..self }
    }

    /// The line with what is said of a message that the codec refuses.
    pub(crate) fn refused(self, fault: Fault) -> Line {
        Line { fault, ..self }
    }
}

/// True if the codec refuses the bytes of a message.
pub(crate) fn is_refused(holds: MessageType, bytes: &[u8]) -> Result<bool, AllocError> {
    match holds {
        MessageType::Tc => is_refused_as::<TcMessage>(bytes),
        MessageType::Action => is_refused_as::<TcActionMessage>(bytes),
    }
}

fn is_refused_as<M: WholeMessage>(bytes: &[u8]) -> Result<bool, AllocError> {
    if M::is_canonical(bytes) {
        return Ok(false);
    }
    match M::read(bytes) {
        Ok(_) => Ok(false),
        Err(DecodeError::OutOfMemory) => Err(AllocError),
        Err(_) => Ok(true),
    }
}
