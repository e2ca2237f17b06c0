//! A message, whatever bytes it is.

use crate::user::prelude::*;

/// The message type that bytes are taken for.
#[derive(Clone, Copy, Debug)]
pub enum Form {
    /// A traffic control message.
    Tc,

    /// An action message.
    Action,
}

impl Form {
    /// A header of zeros.
    #[must_use]
    pub fn header(self) -> &'static [u8] {
        match self {
            Form::Tc => &[0; 20],
            Form::Action => &[0; 4],
        }
    }
}

/// The bytes of a message, or what is taken for them.
#[derive(Debug)]
pub struct Input {
    pub form: Form,
    pub bytes: Vec<u8>,
}

impl Input {
    /// A header of zeros, and attributes after it.
    ///
    /// # Errors
    ///
    /// A [`AllocError`].
    pub fn of_frames(form: Form, frames: &[&[u8]]) -> Result<Input, AllocError> {
        let mut bytes = form.header().try_to_vec()?;
        for frame in frames {
            bytes.try_extend(frame)?;
        }
        Ok(Input { form, bytes })
    }
}
