//! The fate of a dump: whether a request is made for it.

use crate::user::prelude::*;

use crate::restore::RestoreError;
use core::fmt;

/// The fate of a dump: whether a request is made for it.
#[derive(PartialEq, Eq, Debug)]
pub enum Fate {
    /// A request restores it.
    Request,
    /// Another request makes it, or the kernel itself.
    Made,
    /// It is there already, as the request would make it.
    There,
    /// It is there, and a request with `NLM_F_REPLACE` changes it.
    Change,
    /// It can't be made.
    Refused(Reason),
}

impl Fate {
    /// True if it can't be made.
    #[must_use]
    pub fn is_refused(&self) -> bool {
        match self {
            Fate::Refused(_) => true,
            Fate::Request | Fate::Made | Fate::There | Fate::Change => false,
        }
    }
}

/// The kind and the index of an action.
#[derive(Clone, Copy, PartialEq, Eq, Debug)]
pub struct Named {
    /// The kind, padded with zeros.
    pub kind: [u8; 16],
    /// Its number in its kind.
    pub index: u32,
}

impl fmt::Display for Named {
    fn fmt(&self, f: &mut fmt::Formatter<'_>) -> fmt::Result {
        for c in self.kind {
            if c.is_ascii_graphic() {
                f.write_char(char::from(c))?;
            }
        }
        write!(f, " {}", self.index)
    }
}

/// The reason why a dump has no request.
#[derive(PartialEq, Eq, Debug)]
pub enum Reason {
    /// It can't be restored from what is dumped.
    Restore(RestoreError),

    /// Another dump of the same object is before it, or of one of these actions.
    Twice,

    /// A class whose parent, a class, isn't dumped: htb would put it at the root.
    NoParent,

    /// An action that is there is another one, and filters of other interfaces hold it.
    Held(Named),

    /// An action that it shares is there and is another one, and no dump of actions has it, so that no request can change it.
    NoDump(Named),

    /// Its parent is ffff:0 under clsact, which has two sides: `ffff:fff2` (ingress) and `ffff:fff3` (egress).
    NoSide,

    /// Filters share the action, and one of them has an offload flag (`skip_hw`, `skip_sw`). Linux refuses such a filter for an action that
    /// was made by a request of its own.
    Offload(Named),

    /// It needs an object that can't be made.
    Needs,

    /// It needs itself, by way of others, or an object that does.
    Circle,
}

impl core::fmt::Display for Reason {
    fn fmt(&self, f: &mut core::fmt::Formatter<'_>) -> core::fmt::Result {
        match self {
            /// It can't be restored from what is dumped.
            Self::Restore(it) => write!(f, "can't be restored: {0}", it),

            /// Another dump of the same object is before it, or of one of these actions.
            Self::Twice => write!(f, "a second dump of this"),

            /// A class whose parent, a class, isn't dumped: htb would put it at the root.
            Self::NoParent => write!(f, "the parent class is missing"),

            /// An action that is there is another one, and filters of other interfaces hold it.
            Self::Held(it) => write!(f, "the action {0} is there and differs, and others hold it", it),

            /// An action that it shares is there and is another one, and no dump of actions has it, so that no request can change it.
            Self::NoDump(it) => write!(f, "the action {0} is there and differs, and no line has it by itself", it),

            /// Its parent is ffff:0 under clsact, which has two sides: `ffff:fff2` (ingress) and `ffff:fff3` (egress).
            Self::NoSide => write!(f, "the parent ffff: doesn't say which side of clsact"),

            /// Filters share the action, and one of them has an offload flag (`skip_hw`, `skip_sw`). Linux refuses such a filter for an action that
            /// was made by a request of its own.
            Self::Offload(it) => write!(
                f,
                "the action {0} is shared by filters of which one has an offload flag, and can't be made by its own request",
                it
            ),

            /// It needs an object that can't be made.
            Self::Needs => write!(f, "it needs what can't be made"),

            /// It needs itself, by way of others, or an object that does.
            Self::Circle => write!(f, "it needs itself, in a circle"),
        }
    }
}

impl core::error::Error for Reason {}
