//! Messages that are read and can't be written.

use crate::user::prelude::*;

use crate::tests::data::input::{Form, Input};

// The kind ingress, and the front of its options and of one that isn't known.
#[rustfmt::skip]
const INGRESS: [u8; 20] = [
    12, 0, 1, 0, 0x69, 0x6e, 0x67, 0x72, 0x65, 0x73, 0x73, 0,
    0xff, 0xff, 2, 0, 0xfb, 0xff, 99, 0,
];

// The front of a list of actions, of an action of the kind nat, and of its cookie.
#[rustfmt::skip]
const NAT: [u8; 20] = [
    0xff, 0xff, 1, 0, 0xfb, 0xff, 1, 0, 8, 0, 1, 0, 0x6e, 0x61, 0x74, 0,
    0xef, 0xff, 6, 0,
];

/// A message that would be written with one value too long: the last attribute in it, with bytes aa, isn't padded in full.
///
/// # Errors
///
/// A [`AllocError`].
pub fn too_long(form: Form) -> Result<Input, AllocError> {
    let (frames, length) = match form {
        Form::Tc => (INGRESS, 65527),
        Form::Action => (NAT, 65515),
    };
    let value = fallible::filled(0xaau8, length)?;
    Input::of_frames(form, &[&frames, &value, &[0]])
}
