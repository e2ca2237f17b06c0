//! Settings that the kernel doesn't dump.

use crate::fallible::prelude::*;

use crate::nla_frames::Nla;
use crate::restore::numbers::number_at;
use crate::restore::restore_messages::{Object, kind_of_message};
use crate::tc_messages::{TcAttribute, TcMessage};

/// A setting of a qdisc that the kernel doesn't dump, so that it isn't restored.
#[derive(Clone, Copy, PartialEq, Eq, Debug, Hash)]
pub enum Notice {
    /// The distribution of netem's jitter (`TCA_NETEM_DELAY_DIST`): a request without one asks for a uniform one.
    Distribution,

    /// The limit of plug (`struct tc_plug_qopt`): a request without one asks for the default.
    PlugLimit,
}

impl core::fmt::Display for Notice {
    fn fmt(&self, f: &mut core::fmt::Formatter<'_>) -> core::fmt::Result {
        match self {
            /// The distribution of netem's jitter (`TCA_NETEM_DELAY_DIST`): a request without one asks for a uniform one.
            Self::Distribution => write!(f, "netem with a jitter: a distribution isn't dumped, and isn't restored"),

            /// The limit of plug (`struct tc_plug_qopt`): a request without one asks for the default.
            Self::PlugLimit => write!(f, "plug: a limit isn't dumped, and isn't restored"),
        }
    }
}

impl core::error::Error for Notice {}

/// The setting of a dumped object that the kernel doesn't dump, if it has one.
#[must_use]
pub fn notice_of(object: Object, dump: &TcMessage) -> Option<Notice> {
    match object {
        Object::Qdisc => notice_of_qdisc(dump),
        _ => None,
    }
}

fn notice_of_qdisc(dump: &TcMessage) -> Option<Notice> {
    if is_plug(dump) {
        Some(Notice::PlugLimit)
    } else if is_netem(dump) && any_jitter(&dump.attributes) {
        Some(Notice::Distribution)
    } else {
        None
    }
}

fn is_plug(dump: &TcMessage) -> bool {
    kind_of_message(dump) == "plug"
}

fn is_netem(dump: &TcMessage) -> bool {
    kind_of_message(dump) == "netem"
}

fn any_jitter(attributes: &[TcAttribute]) -> bool {
    attributes.iter().any(|attribute| has_jitter(attribute))
}

// True if these are netem's options, with a jitter.
fn has_jitter(attribute: &TcAttribute) -> bool {
    match attribute {
        TcAttribute::OptionsRaw(nla) => {
            let value = nla.value();
            value.len() >= 24 && number_at(value, 20) != 0
        }
        _ => false,
    }
}
