//! Restoring actions: counted from 1, without statistics and times.

use crate::fallible::prelude::*;

use crate::nla_frames::{DecodeError, DefaultNla, NLA_TYPE_MASK, Nla, parse_list};
use crate::restore::numbers::{number_at, with_number};
use crate::restore::restore::{Around, NOTHING_AROUND, Restore, is_of, restore_after, restore_own};
use crate::restore::restore_error::RestoreError;
use crate::restore::restore_raw::{emitted, frames_in, nested};
use crate::restore::restore_tunnels::restored_tunnel;
use crate::restore::uses::{are_parameters, mirror_restored, nat_restored, record_restored, tunnel_key_restored};
use crate::tc_actions::{
    TcAction, TcActionAttribute, TcActionMirrorOption, TcActionNatOption, TcActionOption, TcActionTunnelKeyOption,
    TcStats2,
};

// The most actions in a list: `TCA_ACT_MAX_PRIO` of `linux/pkt_cls.h`.
const MOST_ACTIONS: usize = 32;

/// The types of options that occur only in dumps, by the action's kind: `TCA_.._TM`, `TCA_.._PAD`, the counters of ctinfo, and the rate
/// tables of police, which a request makes anew.
#[must_use]
pub fn only_dumped(kind: &[u8]) -> &'static [u16] {
    if kind == b"gact".as_slice() {
        &[1, 4]
    } else if kind == b"mirred".as_slice() {
        &[1, 3]
    } else if kind == b"nat".as_slice() {
        &[2, 3]
    } else if kind == b"tunnel_key".as_slice() {
        &[1, 8]
    } else if kind == b"police".as_slice() {
        &[2, 3, 6, 7]
    } else if kind == b"pedit".as_slice() {
        &[1, 3]
    } else if kind == b"simple".as_slice() {
        &[1, 4]
    } else if kind == b"skbedit".as_slice() {
        &[1, 6]
    } else if kind == b"vlan".as_slice() {
        &[1, 5]
    } else if kind == b"csum".as_slice() {
        &[2, 3]
    } else if kind == b"bpf".as_slice() {
        &[1, 7]
    } else if kind == b"connmark".as_slice() {
        &[2, 3]
    } else if kind == b"ife".as_slice() {
        &[2, 7]
    } else if kind == b"skbmod".as_slice() {
        &[1, 6]
    } else if kind == b"sample".as_slice() {
        &[1, 6]
    } else if kind == b"ct".as_slice() {
        &[2, 15]
    } else if kind == b"ctinfo".as_slice() {
        &[1, 2, 8, 9, 10]
    } else if kind == b"gate".as_slice() {
        &[1, 3]
    } else {
        &[]
    }
}

// The types of options that a request leaves out.
fn dumped_types(kind: &str, options: &[TcActionOption]) -> &'static [u16] {
    if kind == "mpls" { mpls_types(is_change(options)) } else { only_dumped(kind.as_bytes()) }
}

fn mpls_types(is_change: bool) -> &'static [u16] {
    if is_change { &[1, 3, 4] } else { &[1, 3] }
}

// True if one of these is mpls's parameters that change a label or its time to live.
fn is_change(options: &[TcActionOption]) -> bool {
    options.iter().any(|option| changes_label(option))
}

// True if this is mpls's parameters that change a label or its time to live.
fn changes_label(option: &TcActionOption) -> bool {
    match option {
        TcActionOption::Other(nla) => {
            let value = nla.value();
            if nla.kind() & NLA_TYPE_MASK == 2 && value.len() >= 24 {
                let change = number_at(value, 20);
                change == 3 || change == 4
            } else {
                false
            }
        }
        _ => false,
    }
}

impl Restore for TcAction {
    fn restore(
        self,
        _kind: &str,
        around: Around,
        _types: &[u16],
        place: usize,
    ) -> Result<Option<TcAction>, RestoreError> {
        if place > MOST_ACTIONS {
            return Err(RestoreError::TooManyActions);
        }
        if !any_options(&self.attributes) {
            return Err(RestoreError::Terse);
        }
        let attributes = restore_own(self.attributes, around)?;
        Ok(Some(TcAction { tab: place as u16, attributes }))
    }
}

// False for a terse dump.
fn any_options(attributes: &[TcActionAttribute]) -> bool {
    attributes.iter().any(|attribute| has_options(attribute))
}

fn has_options(attribute: &TcActionAttribute) -> bool {
    matches!(attribute, TcActionAttribute::Options(_))
}

impl Restore for TcActionAttribute {
    fn restore(
        self,
        kind: &str,
        around: Around,
        _types: &[u16],
        _place: usize,
    ) -> Result<Option<TcActionAttribute>, RestoreError> {
        match self {
            TcActionAttribute::Options(options) => {
                let options = restored_options(kind, around, options)?;
                Ok(Some(TcActionAttribute::Options(options)))
            }
            TcActionAttribute::Stats(stats) => {
                if has_estimator(&stats) {
                    Err(RestoreError::Estimator)
                } else {
                    Ok(None)
                }
            }
            TcActionAttribute::InHwCount(_) => Ok(None),
            TcActionAttribute::Other(nla) => {
                if is_of(&[5, 9], &nla) {
                    Ok(None)
                } else {
                    Ok(Some(TcActionAttribute::Other(nla)))
                }
            }
            attribute => Ok(Some(attribute)),
        }
    }
}

// Restores the options of an action.
fn restored_options(
    kind: &str,
    around: Around,
    options: Vec<TcActionOption>,
) -> Result<Vec<TcActionOption>, RestoreError> {
    let tables = rate_tables(kind, &options)?;
    let types = dumped_types(kind, &options);
    restore_after(tables, options, kind, around, types)
}

/// Restores police of a filter outside a list of actions (`TCA_U32_POLICE` and the like): it has the options of an action.
pub(crate) fn restored_police(nla: DefaultNla) -> Result<DefaultNla, RestoreError> {
    let value = police_restored(nla.value())?;
    Ok(DefaultNla::new(nla.kind(), value))
}

/// The same of its options.
pub(crate) fn police_restored(value: &[u8]) -> Result<Vec<u8>, RestoreError> {
    let options: Vec<DefaultNla> = match parse_list(value) {
        Ok(options) => options,
        Err(DecodeError::OutOfMemory) => return Err(RestoreError::OutOfMemory),
        Err(_) => return Err(RestoreError::PoliceOfFilter),
    };
    let options = options.into_iter().map(TcActionOption::Other).collect();
    emitted(&restored_options("police", NOTHING_AROUND, options)?)
}

// True if these statistics have an estimator's.
pub(crate) fn has_estimator(stats: &[TcStats2]) -> bool {
    stats.iter().any(|one| estimates(one))
}

fn estimates(stats: &TcStats2) -> bool {
    match stats {
        TcStats2::Other(nla) => is_of(&[2, 5], nla),
        _ => false,
    }
}

impl Restore for TcActionOption {
    fn restore(
        self,
        kind: &str,
        _around: Around,
        types: &[u16],
        _place: usize,
    ) -> Result<Option<TcActionOption>, RestoreError> {
        if is_only_dumped(&self, types) { Ok(None) } else { kept_option(kind, self) }
    }
}

// Restores an option that a request has.
fn kept_option(kind: &str, option: TcActionOption) -> Result<Option<TcActionOption>, RestoreError> {
    match option {
        TcActionOption::Mirror(TcActionMirrorOption::Parms(p)) => {
            Ok(Some(TcActionOption::Mirror(TcActionMirrorOption::Parms(mirror_restored(p)))))
        }
        TcActionOption::Nat(TcActionNatOption::Parms(p)) => {
            Ok(Some(TcActionOption::Nat(TcActionNatOption::Parms(nat_restored(p)))))
        }
        TcActionOption::TunnelKey(TcActionTunnelKeyOption::Parms(p)) => {
            Ok(Some(TcActionOption::TunnelKey(TcActionTunnelKeyOption::Parms(tunnel_key_restored(p)))))
        }
        TcActionOption::TunnelKey(TcActionTunnelKeyOption::Other(nla)) => {
            let nla = kept_tunnel(nla)?;
            Ok(Some(TcActionOption::TunnelKey(TcActionTunnelKeyOption::Other(nla))))
        }
        TcActionOption::Other(nla) => {
            let nla = restored_raw_option(kind, nla)?;
            Ok(Some(TcActionOption::Other(nla)))
        }
        option => Ok(Some(option)),
    }
}

// Restores a raw option.
fn restored_raw_option(kind: &str, nla: DefaultNla) -> Result<DefaultNla, RestoreError> {
    let number = nla.kind() & NLA_TYPE_MASK;
    if kind == "bpf" && number == 9 {
        return Err(RestoreError::ProgramByNumber);
    }
    if are_parameters(kind, &nla) {
        let value = restored_parameters(kind, nla.value())?;
        return Ok(DefaultNla::new(nla.kind(), value));
    }
    match kind {
        "tunnel_key" => kept_tunnel(nla),
        "gate" if number == ENTRIES => restored_entries(nla),
        _ => Ok(nla),
    }
}

// `TCA_GATE_ENTRY_LIST` of `linux/tc_act/tc_gate.h`.
const ENTRIES: u16 = 5;

// Restores the entries of gate, each of which Linux takes only with the nested flag.
fn restored_entries(nla: DefaultNla) -> Result<DefaultNla, RestoreError> {
    let entries = frames_in(nla.value())?;
    if entries.is_empty() {
        return Ok(nla);
    }
    let mut made = fallible::with_capacity(entries.len())?;
    for entry in &entries {
        made.try_push(nested(entry)?)?;
    }
    nested(&DefaultNla::new(nla.kind(), emitted(&made)?))
}

// `TCA_TUNNEL_KEY_ENC_OPTS` of `linux/tc_act/tc_tunnel_key.h`.
const TUNNEL: u16 = 11;

// Restores a raw option of tunnel_key.
fn kept_tunnel(nla: DefaultNla) -> Result<DefaultNla, RestoreError> {
    if nla.kind() & NLA_TYPE_MASK == TUNNEL { restored_tunnel(nla) } else { Ok(nla) }
}

// Restores the parameters of an action.
fn restored_parameters(kind: &str, bytes: &[u8]) -> Result<Vec<u8>, AllocError> {
    if kind == "police" {
        if bytes.len() >= 56 {
            let made = with_cell_logs(bytes)?;
            record_restored(&made, 4, 44, 48)
        } else {
            fallible::copy(bytes)
        }
    } else if bytes.len() >= 20 {
        record_restored(bytes, 8, 12, 16)
    } else {
        fallible::copy(bytes)
    }
}

fn with_cell_logs(bytes: &[u8]) -> Result<Vec<u8>, AllocError> {
    let made = with_cell_log(bytes, 20)?;
    with_cell_log(&made, 32)
}

// Sets the cell log of the rate at this byte of police's record, if it is a rate without one.
fn with_cell_log(bytes: &[u8], at: usize) -> Result<Vec<u8>, AllocError> {
    let first = number_at(bytes, at);
    if number_at(bytes, at + 8) != 0 && first % 0x100 == 0 {
        with_number(bytes, at, first + 3)
    } else {
        fallible::copy(bytes)
    }
}

// The rate tables of police.
fn rate_tables(kind: &str, options: &[TcActionOption]) -> Result<Vec<TcActionOption>, RestoreError> {
    if kind == "police" {
        let front = with_table(Vec::new(), 2, has_any_rate(options, 28))?;
        Ok(with_table(front, 3, has_any_rate(options, 40))?)
    } else {
        Ok(Vec::new())
    }
}

// Appends a rate table, if it is needed.
fn with_table(front: Vec<TcActionOption>, number: u16, is_needed: bool) -> Result<Vec<TcActionOption>, AllocError> {
    let mut made = front;
    if is_needed {
        made.try_push(rate_table(number)?)?;
    }
    Ok(made)
}

// True if one of these is police's record with a rate, whose number is at this byte.
fn has_any_rate(options: &[TcActionOption], at: usize) -> bool {
    options.iter().any(|option| has_rate(option, at))
}

fn rate_table(number: u16) -> Result<TcActionOption, AllocError> {
    let table = zeros(1024)?;
    Ok(TcActionOption::Other(DefaultNla::new(number, table)))
}

fn zeros(count: usize) -> Result<Vec<u8>, AllocError> {
    let made = fallible::filled(0u8, count)?;
    Ok(made)
}

// True if this is police's record with a rate, whose number is at this byte.
fn has_rate(option: &TcActionOption, at: usize) -> bool {
    match option {
        TcActionOption::Other(nla) => {
            let value = nla.value();
            nla.kind() & NLA_TYPE_MASK == 1 && value.len() >= 56 && number_at(value, at) != 0
        }
        _ => false,
    }
}

// True if an option occurs only in dumps: times, and raw options of these types.
fn is_only_dumped(option: &TcActionOption, types: &[u16]) -> bool {
    match option {
        TcActionOption::Mirror(TcActionMirrorOption::Tm(_)) => true,
        TcActionOption::Nat(TcActionNatOption::Tm(_)) => true,
        TcActionOption::TunnelKey(TcActionTunnelKeyOption::Tm(_)) => true,
        TcActionOption::Mirror(TcActionMirrorOption::Other(nla))
        | TcActionOption::Nat(TcActionNatOption::Other(nla))
        | TcActionOption::TunnelKey(TcActionTunnelKeyOption::Other(nla))
        | TcActionOption::Other(nla) => is_of(types, nla),
        _ => false,
    }
}
