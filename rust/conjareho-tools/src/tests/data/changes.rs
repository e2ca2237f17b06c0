//! Messages that were cut short or changed.

use crate::user::prelude::*;

use crate::tests::data::input::Input;

// A message cut at one place, or with another byte there.
fn changed(input: &Input, at: usize, change: u8) -> Result<Input, AllocError> {
    let length = if change == 0 { at } else { input.bytes.len() };
    let mut bytes = input.bytes.get(..length).unwrap_or(&[]).try_to_vec()?;
    if let Some(place) = bytes.get_mut(at) {
        *place = match change {
            1 => 0,
            2 => 0xff,
            _ => *place ^ 0x80,
        };
    }
    Ok(Input { form: input.form, bytes })
}

/// A message cut at every length, and with each of its bytes set to 0, to 255, and to itself with its top bit turned.
///
/// # Errors
///
/// A [`AllocError`].
pub fn cut_and_changed(input: &Input) -> Result<Vec<Input>, AllocError> {
    let mut inputs = Vec::new();
    for at in 0..input.bytes.len() {
        for change in 0..4 {
            inputs.try_push(changed(input, at, change)?)?;
        }
    }
    Ok(inputs)
}
