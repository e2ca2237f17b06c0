//! Messages by their bytes in hex.

use crate::user::prelude::*;

use crate::tc_wire::{Emitable, ParseableBytes, TcActionMessage, TcMessage};
use crate::user::Fail;

/// The message of these bytes.
pub(crate) fn tc_message(digits: &str) -> Result<TcMessage, Fail> {
    let bytes = crate::hex::decode(digits)?;
    Ok(TcMessage::parse(&bytes)?)
}

/// The action message of these bytes.
pub(crate) fn action_message(digits: &str) -> Result<TcActionMessage, Fail> {
    let bytes = crate::hex::decode(digits)?;
    Ok(TcActionMessage::parse(&bytes)?)
}

// True if these are the digits of bytes.
fn are_digits(digits: &str, bytes: &[u8]) -> bool {
    match crate::hex::encode(bytes) {
        Ok(text) => text.as_str() == digits,
        Err(_) => false,
    }
}

/// True if these bytes are written of a value.
pub(crate) fn is_written<M: Emitable>(value: &M, digits: &str) -> bool {
    if !value.fits() {
        return false;
    }
    match fallible::filled(0, value.buffer_len()) {
        Ok(mut bytes) => {
            value.emit(&mut bytes);
            are_digits(digits, &bytes)
        }
        Err(_) => false,
    }
}
