//! The object that a request is about.

use crate::fallible::prelude::*;

use crate::nla_frames::AddressFamily;
use crate::tc_records::{TcHandle, TcHeader};

/// The object that a request is about: an interface and two handles.
#[derive(Clone, Copy, Default, Debug, PartialEq, Eq, Hash)]
pub struct Target {
    /// The index of the interface.
    pub index: i32,
    /// The handle of the qdisc or the filter. With 0 the kernel chooses one.
    pub handle: TcHandle,
    /// The handle of its parent.
    pub parent: TcHandle,
}

impl Target {
    /// The header of a request about this object, with this word `info` (priority and protocol of a filter).
    pub(crate) fn header(&self, info: u32) -> TcHeader {
        TcHeader { family: AddressFamily::Unspec, index: self.index, handle: self.handle, parent: self.parent, info }
    }
}
