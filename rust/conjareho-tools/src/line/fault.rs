//! Why the codec refuses a message: the members of a line that has `refused`.

use serde::{Deserialize, Serialize};

use super::Member;
use crate::nla_frames::DecodeError;

/// The name of a fault, its numbers in bytes, and its place. A number has its name in [`DecodeError`].
#[derive(Default, Serialize, Deserialize)]
#[serde(default)]
pub(crate) struct Fault {
    /// The name of a [`DecodeError`], such as `WrongLength`.
    #[serde(skip_serializing_if = "Member::is_missing")]
    pub(crate) refused: Member<String>,
    #[serde(skip_serializing_if = "Member::is_missing")]
    pub(crate) len: Member<usize>,
    #[serde(skip_serializing_if = "Member::is_missing")]
    pub(crate) needed: Member<usize>,
    #[serde(skip_serializing_if = "Member::is_missing")]
    pub(crate) length: Member<usize>,
    #[serde(skip_serializing_if = "Member::is_missing")]
    pub(crate) left: Member<usize>,
    #[serde(skip_serializing_if = "Member::is_missing")]
    pub(crate) expected: Member<usize>,
    #[serde(skip_serializing_if = "Member::is_missing")]
    pub(crate) got: Member<usize>,
    /// The offset of the fault in the message, in bytes.
    #[serde(skip_serializing_if = "Member::is_missing")]
    pub(crate) offset: Member<usize>,
    /// The path of the fault, such as `/attributes/1/Options`.
    #[serde(skip_serializing_if = "Member::is_missing")]
    pub(crate) path: Member<String>,
}

impl Fault {
    pub(crate) fn new(error: &DecodeError, offset: usize, path: String) -> Fault {
        Fault {
            refused: error.name().to_owned().into(),
            offset: offset.into(),
            path: path.into(),
            ..Fault::numbers_of(error)
        }
    }

    fn numbers_of(error: &DecodeError) -> Fault {
        let none = Fault::default();
        match *error {
            DecodeError::BufferTooSmall { len, needed } | DecodeError::SelectorShort { len, needed } => {
                Fault { len: len.into(), needed: needed.into(), ..none }
            }
            DecodeError::FrameTooLong { length, left } => Fault { length: length.into(), left: left.into(), ..none },
            DecodeError::WrongLength { expected, got } => Fault { expected: expected.into(), got: got.into(), ..none },
            DecodeError::FrameHeaderShort { left } => Fault { left: left.into(), ..none },
            DecodeError::FrameTooShort { length } => Fault { length: length.into(), ..none },
            DecodeError::XstatsShort { len } => Fault { len: len.into(), ..none },
            DecodeError::NotUtf8 | DecodeError::MissingKind | DecodeError::DuplicateKind | DecodeError::OutOfMemory => {
                none
            }
        }
    }

    /// The first detail, by name, that is there.
    pub(crate) fn first_detail(&self) -> Option<&'static str> {
        let all = [
            ("expected", self.expected.is_missing()),
            ("got", self.got.is_missing()),
            ("left", self.left.is_missing()),
            ("len", self.len.is_missing()),
            ("length", self.length.is_missing()),
            ("needed", self.needed.is_missing()),
            ("offset", self.offset.is_missing()),
            ("path", self.path.is_missing()),
        ];
        all.into_iter().find(|(_, is_missing)| !is_missing).map(|(name, _)| name)
    }
}
