//! Messages and options as bytes.

use crate::fallible;
use crate::tc::{TcActionMessage, TcAttribute, TcMessage, TcOption, emit_list, list_fits, list_len};
use crate::{DefaultNla, Emitable, RewriteError};
use alloc::vec::Vec;

/// The bytes of a message after so many zeros.
pub(crate) fn bytes_after<M: Emitable>(zeros: usize, message: &M) -> Result<Vec<u8>, RewriteError> {
    let len = message.checked_len().and_then(|len| len.checked_add(zeros)).ok_or(RewriteError::DoesNotFit)?;
    let mut bytes = fallible::filled(0, len)?;
    message.emit(&mut bytes[zeros..]);
    Ok(bytes)
}

macro_rules! to_bytes {
    ($name:ident, $header:literal) => {
        impl $name {
            #[doc = concat!("Its bytes: `", $header, "` and the attributes.")]
            ///
            /// # Errors
            ///
            /// `DoesNotFit` if the payload of an attribute has more than 65531 bytes, `OutOfMemory` if there is no memory.
            pub fn to_bytes(&self) -> Result<Vec<u8>, RewriteError> {
                bytes_after(0, self)
            }
        }
    };
}

to_bytes! { TcMessage, "struct tcmsg" }
to_bytes! { TcActionMessage, "struct tcamsg" }

impl TcAttribute {
    /// `TCA_OPTIONS` of a kind whose options `tc` has no types for: an [`OptionsRaw`](TcAttribute::OptionsRaw) with these options,
    /// such as `TcOption::Other(DefaultNla::new(2, parameters))`.
    ///
    /// **Build such options with this, and not with [`TcMessage::upgrade`].** That is for values that were read by version 1: it takes a
    /// list of one `Other` with the type of `TCA_OPTIONS` (2) as the options themselves, and drops a level of nesting.
    ///
    /// # Errors
    ///
    /// `DoesNotFit` if an option has more than 65531 bytes, `OutOfMemory` if there is no memory.
    pub fn options_raw(options: &[TcOption]) -> Result<TcAttribute, RewriteError> {
        if !list_fits(options) {
            return Err(RewriteError::DoesNotFit);
        }
        let mut bytes = fallible::filled(0, list_len(options))?;
        emit_list(options, &mut bytes);
        Ok(TcAttribute::OptionsRaw(DefaultNla::new(2, bytes)))
    }
}
