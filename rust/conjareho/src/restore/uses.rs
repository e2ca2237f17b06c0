//! Indices of actions and counts of their holders, in a dump and in a request.

use crate::fallible::prelude::*;

use crate::nla_frames::DefaultNla;
use crate::restore::numbers::{number_at, with_number};
use crate::restore::restore::is_of;
use crate::tc_records::{TcActionGeneric, TcMirror, TcNat, TcTunnelKey};

/// The index of an action, its verdict and the counts of its holders.
#[derive(Clone, Copy, PartialEq, Eq, Debug, Hash)]
pub struct Use {
    /// The number of the action among the actions of its kind. 0 asks for a free one.
    pub index: u32,
    /// The verdict: what happens to the packet next, `TC_ACT_*`.
    pub next: u32,
    /// The number of its holders, filters and others (`refcnt`).
    pub references: u32,
    /// The number of filters that hold it (`bindcnt`).
    pub filters: u32,
}

/// The types of the parameters among an action's options, by its kind: `TCA_.._PARMS`, `TCA_POLICE_TBF`, `TCA_CTINFO_ACT`.
#[must_use]
pub fn parameters(kind: &[u8]) -> &'static [u16] {
    if kind == b"nat".as_slice() {
        &[1]
    } else if kind == b"csum".as_slice() {
        &[1]
    } else if kind == b"police".as_slice() {
        &[1]
    } else if kind == b"connmark".as_slice() {
        &[1]
    } else if kind == b"ife".as_slice() {
        &[1]
    } else if kind == b"ct".as_slice() {
        &[1]
    } else if kind == b"ctinfo".as_slice() {
        &[3]
    } else if kind == b"pedit".as_slice() {
        &[2, 4]
    } else {
        &[2]
    }
}

// True if a raw option of an action of this kind is its parameters.
pub(crate) fn are_parameters(kind: &str, nla: &DefaultNla) -> bool {
    is_of(parameters(kind.as_bytes()), nla)
}

// Reads the record of parameters.
pub(crate) fn use_in(kind: &str, bytes: &[u8]) -> Option<Use> {
    if kind == "police" {
        if bytes.len() >= 56 { Some(use_at(bytes, 4, 44, 48)) } else { None }
    } else if bytes.len() >= 20 {
        Some(use_at(bytes, 8, 12, 16))
    } else {
        None
    }
}

// The numbers of a record of parameters, little-endian: the index at byte 0, and at these bytes the verdict, the number of holders and
// the number of filters among them.
fn use_at(bytes: &[u8], next: usize, held: usize, bound: usize) -> Use {
    Use {
        index: number_at(bytes, 0),
        next: number_at(bytes, next),
        references: number_at(bytes, held),
        filters: number_at(bytes, bound),
    }
}

pub(crate) fn use_of_generic(generic: &TcActionGeneric) -> Use {
    Use {
        index: generic.index,
        next: i32::from(generic.action).unsigned(),
        references: generic.refcnt.unsigned(),
        filters: generic.bindcnt.unsigned(),
    }
}

// `TC_ACT_GOTO_CHAIN` of `linux/pkt_cls.h` is 2 in the upper four bits, the chain below them.
const CHAINS: u32 = 0x1000_0000;

// True if a packet continues in a chain after an action.
pub(crate) fn goes_to_chain(next: u32) -> bool {
    next / CHAINS == 2
}

/// True for one filter's own action: one filter holds it and nothing else, or filters hold it and it has `goto chain`
/// (`TC_ACT_GOTO_CHAIN`).
#[must_use]
pub fn is_private(found: Use) -> bool {
    found.references == 1 && found.filters == 1 || goes_to_chain(found.next) && found.filters != 0
}

// The index in a request: 0 for a filter's own action.
fn index_wanted(found: Use) -> u32 {
    if is_private(found) { 0 } else { found.index }
}

fn generic_restored(generic: TcActionGeneric) -> TcActionGeneric {
    TcActionGeneric {
        index: index_wanted(use_of_generic(&generic)),
        capab: generic.capab,
        action: generic.action,
        refcnt: 0,
        bindcnt: 0,
    }
}

pub(crate) fn mirror_restored(parameters: TcMirror) -> TcMirror {
    TcMirror { generic: generic_restored(parameters.generic), eaction: parameters.eaction, ifindex: parameters.ifindex }
}

pub(crate) fn nat_restored(parameters: TcNat) -> TcNat {
    TcNat {
        generic: generic_restored(parameters.generic),
        old_addr: parameters.old_addr,
        new_addr: parameters.new_addr,
        mask: parameters.mask,
        flags: parameters.flags,
    }
}

pub(crate) fn tunnel_key_restored(parameters: TcTunnelKey) -> TcTunnelKey {
    TcTunnelKey { generic: generic_restored(parameters.generic), t_action: parameters.t_action }
}

// A record with the index of a request, and 0 instead of the counts at these bytes.
pub(crate) fn record_restored(bytes: &[u8], next: usize, held: usize, bound: usize) -> Result<Vec<u8>, AllocError> {
    let index = index_wanted(use_at(bytes, next, held, bound));
    let made = with_number(bytes, 0, index)?;
    let made = with_number(&made, held, 0)?;
    with_number(&made, bound, 0)
}
