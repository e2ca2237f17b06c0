//! Dumps.

use crate::user::prelude::*;

use crate::restore::Object;
use crate::tc_action_messages::TcActionMessage;
use crate::tc_messages::TcMessage;

/// A message of a dump.
#[repr(u8)]
pub enum Dump {
    /// A qdisc, a class, a chain or a filter.
    Of(Object, TcMessage),
    /// Actions.
    Actions(TcActionMessage),
}
