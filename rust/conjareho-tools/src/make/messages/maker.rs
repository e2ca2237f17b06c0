//! Messages of the lines of an input.

use crate::fallible::AllocError;
use crate::forms_json::Tables;
use crate::forms_text::Difference;
use crate::make::lines::{Answer, Maker};
use crate::make::messages::built::{BuiltMessage, made_of};
use crate::make::messages::error::{LineError, Notice};
use crate::make::messages::making::Making;
use crate::make::messages::message::Forms;

/// Makes messages of lines.
#[derive(Clone, Copy)]
pub struct MessageMaker<T> {
    /// The table, and the forms of both messages.
    pub forms: Forms<T>,
    /// How a line is made into a message.
    pub making: Making,
}

impl<T: Tables> Maker for MessageMaker<T> {
    fn make(&self, line: Vec<u8>) -> Result<Answer, AllocError> {
        match made_of(self.forms, line, self.making) {
            Ok(Some(BuiltMessage { given, bytes, settled })) => {
                Ok(Answer::Message { given, bytes, notices: notices_of(&settled) })
            }
            Ok(None) => Ok(Answer::Nothing { notice: None }),
            Err(LineError::NoMemory) => Err(AllocError),
            Err(error) => Ok(Answer::Complaint(error.to_string())),
        }
    }
}

/// Notices on the places that settling changed.
#[must_use]
pub fn notices_of(settled: &[Difference]) -> Vec<String> {
    settled.iter().map(|place| Notice(place).to_string()).collect()
}
