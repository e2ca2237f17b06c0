//! The bytes of a message.

use serde_json::Value;

use crate::forms_json::{Form, Tables, made};
use crate::forms_text::{Difference, StrictError, check_shown, differences, shown_json};
use crate::line::{Line, Verdict};
use crate::make::messages::error::{Actual, LineError};
use crate::make::messages::making::Making;
use crate::make::messages::unknown::with_kind;
use crate::make::messages::verdict::{Disagreement, Said, agree, said_in};
use crate::nla_frames::DecodeError;
use crate::tc_capture::MessageType;
use crate::tc_faults::{What, locate};
use crate::tc_wire::{RewriteError, settle_action, settle_tc};

/// The longest message that is made, in bytes: 256 KiB. The JSON that is shown of it takes no more memory than that of a line.
pub const MOST_MESSAGE: usize = 256 * 1024;

/// A table, and the forms of both messages in it.
#[derive(Clone, Copy)]
pub struct Forms<T> {
    /// The table.
    pub table: T,
    /// The form of a traffic control message.
    pub tc: Form,
    /// The form of an action message.
    pub action: Form,
}

/// The bytes of a message.
pub(crate) struct Message {
    pub(crate) bytes: Vec<u8>,
    /// The places that settling changed: what was there, and what is there now.
    pub(crate) settled: Vec<Difference>,
}

/// The message that is made of JSON, and of the line that it is in.
pub(crate) fn message_of<T: Tables>(
    forms: Forms<T>,
    making: Making,
    holds: MessageType,
    line: &Line,
    json: &Value,
) -> Result<Message, LineError> {
    if making == Making::Settled && !line.fault.refused.is_missing() {
        return Err(LineError::Refused);
    }
    let form = if holds == MessageType::Tc { forms.tc } else { forms.action };
    let shown = Shown { table: forms.table, form, holds, json };
    let bytes = shown.bytes()?;
    match making {
        Making::Settled => return shown.settled(&bytes),
        Making::Checked => shown.check(line, &bytes)?,
        Making::Restored => match Verdict::on(holds, &bytes)? {
            Verdict::Refused(error) => return Err(shown.unreadable(&bytes, error)),
            Verdict::Read { .. } => {}
        },
        Making::AsGiven => {}
    }
    Ok(Message { bytes, settled: Vec::new() })
}

// JSON that shows a message.
struct Shown<'a, T> {
    table: T,
    form: Form,
    holds: MessageType,
    json: &'a Value,
}

impl<T: Tables> Shown<'_, T> {
    // The bytes that it stands for, if they aren't too many and are shown as it.
    fn bytes(&self) -> Result<Vec<u8>, LineError> {
        let wrong = |error: StrictError| with_kind(self.json, error.into());
        let bytes = made(self.table, self.form, self.json).map_err(|error| wrong(StrictError::Make(error)))?;
        if bytes.len() > MOST_MESSAGE {
            return Err(LineError::LongMessage);
        }
        check_shown(self.table, self.form, self.json, &bytes).map_err(wrong)?;
        Ok(bytes)
    }

    // Fails unless what a line says of bytes is what the codec finds.
    fn check(&self, line: &Line, bytes: &[u8]) -> Result<(), LineError> {
        let said = said_in(line)?;
        let verdict = Verdict::on(self.holds, bytes)?;
        let Err(why) = agree(&said, &verdict) else {
            return Ok(());
        };
        Err(match (why, said, verdict) {
            (Disagreement::Member(name, said), _, _) => {
                LineError::Member { name, found: Actual::Truth(said), wanted: if said { "false" } else { "true" } }
            }
            (_, Said::Refused(said), Verdict::Refused(error)) => LineError::OtherFault { said, error },
            (_, Said::Refused(said), Verdict::Read { .. }) => LineError::Readable { said },
            (_, _, Verdict::Refused(error)) => self.unreadable(bytes, error),
            // Bytes that aren't canonical: the first place that settling changes.
            (_, _, Verdict::Read { .. }) => match self.settled(bytes)?.settled.into_iter().next() {
                Some(difference) => LineError::NotCanonical(difference),
                None => LineError::DoesNotFit,
            },
        })
    }

    // The settled message, and where it is another one than the JSON.
    fn settled(&self, bytes: &[u8]) -> Result<Message, LineError> {
        let settled = match self.holds {
            MessageType::Tc => settle_tc(bytes),
            MessageType::Action => settle_action(bytes),
        };
        let (bytes, _) = settled.map_err(|error| match error {
            RewriteError::Decode(error) => self.unreadable(bytes, error),
            RewriteError::DoesNotFit => LineError::DoesNotFit,
            RewriteError::OutOfMemory => LineError::NoMemory,
        })?;
        let settled = differences(self.json, &shown_json(self.table, self.form, &bytes)?)?;
        Ok(Message { bytes, settled })
    }

    // The error for bytes that the codec refuses.
    fn unreadable(&self, bytes: &[u8], error: DecodeError) -> LineError {
        let what = if self.holds == MessageType::Tc { What::Qdisc } else { What::Action };
        let mut path = String::new();
        match locate(bytes, what).map_or(Ok(()), |fault| fault.path.put(&mut path)) {
            Ok(()) => LineError::Unreadable { path, error },
            Err(_) => LineError::NoMemory,
        }
    }
}
