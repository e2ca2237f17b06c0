//! Actions without the counts of their holders.

use crate::fallible::prelude::*;

use crate::nla_frames::{DefaultNla, Nla};
use crate::restore::numbers::with_number;
use crate::restore::standalone::kind_of_action;
use crate::restore::uses::are_parameters;
use crate::tc_actions::{
    TcAction, TcActionAttribute, TcActionMirrorOption, TcActionNatOption, TcActionOption, TcActionTunnelKeyOption,
};
use crate::tc_records::{TcActionGeneric, TcMirror, TcNat, TcTunnelKey};

/// The same action with counts (`refcnt`, `bindcnt`) of 0, so that its request has its index even if it is a filter's own.
///
/// # Errors
///
/// A [`AllocError`].
pub fn unheld(action: TcAction) -> Result<TcAction, AllocError> {
    // The kind is copied, since the attributes that have it are consumed.
    let kind = fallible::text(kind_of_action(&action))?;
    let TcAction { tab, attributes } = action;
    let attributes = unheld_attributes(kind.as_str(), attributes)?;
    Ok(TcAction { tab, attributes })
}

fn unheld_attributes(kind: &str, attributes: Vec<TcActionAttribute>) -> Result<Vec<TcActionAttribute>, AllocError> {
    let mut made = fallible::with_capacity(attributes.len())?;
    for attribute in attributes {
        made.try_push(unheld_attribute(kind, attribute)?)?;
    }
    Ok(made)
}

fn unheld_attribute(kind: &str, attribute: TcActionAttribute) -> Result<TcActionAttribute, AllocError> {
    match attribute {
        TcActionAttribute::Options(options) => {
            let options = unheld_options(kind, options)?;
            Ok(TcActionAttribute::Options(options))
        }
        attribute => Ok(attribute),
    }
}

fn unheld_options(kind: &str, options: Vec<TcActionOption>) -> Result<Vec<TcActionOption>, AllocError> {
    let mut made = fallible::with_capacity(options.len())?;
    for option in options {
        made.try_push(unheld_option(kind, option)?)?;
    }
    Ok(made)
}

fn unheld_option(kind: &str, option: TcActionOption) -> Result<TcActionOption, AllocError> {
    match option {
        TcActionOption::Mirror(TcActionMirrorOption::Parms(p)) => {
            Ok(TcActionOption::Mirror(TcActionMirrorOption::Parms(TcMirror {
                generic: generic_unheld(p.generic),
                eaction: p.eaction,
                ifindex: p.ifindex,
            })))
        }
        TcActionOption::Nat(TcActionNatOption::Parms(p)) => Ok(TcActionOption::Nat(TcActionNatOption::Parms(TcNat {
            generic: generic_unheld(p.generic),
            old_addr: p.old_addr,
            new_addr: p.new_addr,
            mask: p.mask,
            flags: p.flags,
        }))),
        TcActionOption::TunnelKey(TcActionTunnelKeyOption::Parms(p)) => {
            Ok(TcActionOption::TunnelKey(TcActionTunnelKeyOption::Parms(TcTunnelKey {
                generic: generic_unheld(p.generic),
                t_action: p.t_action,
            })))
        }
        TcActionOption::Other(nla) => {
            if are_parameters(kind, &nla) {
                let value = unheld_parameters(kind, nla.value())?;
                Ok(TcActionOption::Other(DefaultNla::new(nla.kind(), value)))
            } else {
                Ok(TcActionOption::Other(nla))
            }
        }
        option => Ok(option),
    }
}

fn generic_unheld(generic: TcActionGeneric) -> TcActionGeneric {
    TcActionGeneric { index: generic.index, capab: generic.capab, action: generic.action, refcnt: 0, bindcnt: 0 }
}

fn unheld_parameters(kind: &str, bytes: &[u8]) -> Result<Vec<u8>, AllocError> {
    if kind == "police" {
        if bytes.len() >= 56 { unheld_record(bytes, 44, 48) } else { fallible::copy(bytes) }
    } else if bytes.len() >= 20 {
        unheld_record(bytes, 12, 16)
    } else {
        fallible::copy(bytes)
    }
}

// A record with 0 instead of the counts at these bytes.
fn unheld_record(bytes: &[u8], held: usize, bound: usize) -> Result<Vec<u8>, AllocError> {
    let made = with_number(bytes, held, 0)?;
    with_number(&made, bound, 0)
}
