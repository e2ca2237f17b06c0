//! Restoring options of known kinds: flags cleared, without counts, actions counted from 1.

use crate::fallible::prelude::*;

use crate::bitflags::Flags;
use crate::restore::codel_times::time_set;
use crate::restore::restore::{Around, NOTHING_AROUND, Restore, is_of, restore_after, restore_all};
use crate::restore::restore_actions::{police_restored, restored_police};
use crate::restore::restore_error::RestoreError;
use crate::restore::restore_filters::restored_actions;
use crate::restore::restore_tunnels::restored_tunnel;
use crate::tc_options::{
    TcFilterBpfOption, TcFilterFlowerOption, TcFilterMatchAllOption, TcFilterU32Option, TcOption, TcQdiscFqCodelOption,
};
use crate::tc_records::TcU32OptionFlags;
use crate::tc_texts::info_protocol;

impl Restore for TcOption {
    fn restore(
        self,
        _kind: &str,
        around: Around,
        _types: &[u16],
        _place: usize,
    ) -> Result<Option<TcOption>, RestoreError> {
        match self {
            TcOption::FqCodel(option) => Ok(Some(TcOption::FqCodel(restored_fq_codel(option)))),
            TcOption::Flower(option) => match restored_flower(around.info, option)? {
                Some(option) => Ok(Some(TcOption::Flower(option))),
                None => Ok(None),
            },
            TcOption::U32(option) => match restored_u32(around.in_root, option)? {
                Some(option) => Ok(Some(TcOption::U32(option))),
                None => Ok(None),
            },
            TcOption::MatchAll(option) => match restored_matchall(option)? {
                Some(option) => Ok(Some(TcOption::MatchAll(option))),
                None => Ok(None),
            },
            TcOption::Bpf(option) => match restored_bpf(option)? {
                Some(option) => Ok(Some(TcOption::Bpf(option))),
                None => Ok(None),
            },
            option => Ok(Some(option)),
        }
    }
}

// All bits but `InHw` and `NotInHw` of a filter's flags.
const KEPT_FLAGS: u32 = 0xFFFF_FFF3;

fn restored_fq_codel(option: TcQdiscFqCodelOption) -> TcQdiscFqCodelOption {
    match option {
        TcQdiscFqCodelOption::Target(us) => TcQdiscFqCodelOption::Target(time_set(us)),
        TcQdiscFqCodelOption::Interval(us) => TcQdiscFqCodelOption::Interval(time_set(us)),
        TcQdiscFqCodelOption::CeThreshold(us) => TcQdiscFqCodelOption::CeThreshold(time_set(us)),
        option => option,
    }
}

// True for 802.1Q, 802.1ad and PPPoE sessions.
fn is_outer(protocol: u16) -> bool {
    protocol == 0x8100 || protocol == 0x88a8 || protocol == 0x8864
}

// The options that come before those of the dump: of a flower filter with an outer protocol, this protocol as its `EthType`.
fn outer_type(kind: &str, info: u32) -> Result<Vec<TcOption>, RestoreError> {
    let protocol = info_protocol(info);
    if kind == "flower" { Ok(type_if(is_outer(protocol), protocol)?) } else { Ok(Vec::new()) }
}

// The option `EthType`, if it is needed.
fn type_if(is_needed: bool, protocol: u16) -> Result<Vec<TcOption>, AllocError> {
    if is_needed { one_type(protocol) } else { Ok(Vec::new()) }
}

fn one_type(protocol: u16) -> Result<Vec<TcOption>, AllocError> {
    let mut made = fallible::with_capacity(1)?;
    made.try_push(TcOption::Flower(TcFilterFlowerOption::EthType(protocol)))?;
    Ok(made)
}

// Restores the options of a message.
pub(crate) fn restored_options(
    kind: &str,
    around: Around,
    options: Vec<TcOption>,
) -> Result<Vec<TcOption>, RestoreError> {
    let front = outer_type(kind, around.info)?;
    restore_after(front, options, kind, around, &[])
}

// `TCA_FLOWER_KEY_ENC_OPTS` and `TCA_FLOWER_KEY_ENC_OPTS_MASK` of `linux/pkt_cls.h`.
const TUNNELS: &[u16] = &[84, 85];

fn restored_flower(info: u32, option: TcFilterFlowerOption) -> Result<Option<TcFilterFlowerOption>, RestoreError> {
    match option {
        TcFilterFlowerOption::EthType(n) => {
            if is_outer(info_protocol(info)) {
                Ok(None)
            } else {
                Ok(Some(TcFilterFlowerOption::EthType(n)))
            }
        }
        TcFilterFlowerOption::Flags(n) => Ok(Some(TcFilterFlowerOption::Flags(n & KEPT_FLAGS))),
        TcFilterFlowerOption::InHwCount(_) => Ok(None),
        TcFilterFlowerOption::Actions(actions) => {
            let actions = restore_all(actions, "", NOTHING_AROUND)?;
            Ok(Some(TcFilterFlowerOption::Actions(actions)))
        }
        TcFilterFlowerOption::Other(nla) => {
            if is_of(TUNNELS, &nla) {
                let nla = restored_tunnel(nla)?;
                Ok(Some(TcFilterFlowerOption::Other(nla)))
            } else {
                Ok(Some(TcFilterFlowerOption::Other(nla)))
            }
        }
        option => Ok(Some(option)),
    }
}

fn restored_u32(in_root: bool, option: TcFilterU32Option) -> Result<Option<TcFilterU32Option>, RestoreError> {
    match option {
        TcFilterU32Option::Hash(n) => Ok(Some(TcFilterU32Option::Hash(hash_restored(in_root, n)))),
        TcFilterU32Option::Flags(flags) => Ok(Some(TcFilterU32Option::Flags(cleared(flags)))),
        TcFilterU32Option::Pnct(_) => Ok(None),
        TcFilterU32Option::Police(value) => Ok(Some(TcFilterU32Option::Police(police_restored(&value)?))),
        TcFilterU32Option::Action(actions) => {
            let actions = restore_all(actions, "", NOTHING_AROUND)?;
            Ok(Some(TcFilterU32Option::Action(actions)))
        }
        TcFilterU32Option::Other(nla) => {
            if is_of(&[12], &nla) {
                Ok(None)
            } else {
                Ok(Some(TcFilterU32Option::Other(nla)))
            }
        }
        option => Ok(Some(option)),
    }
}

// `TC_U32_ROOT` of `linux/pkt_cls.h`: the root table of a priority.
const ROOT: u32 = 0xFFF0_0000;

fn hash_restored(in_root: bool, hash: u32) -> u32 {
    if in_root { ROOT } else { hash }
}

fn cleared(flags: TcU32OptionFlags) -> TcU32OptionFlags {
    TcU32OptionFlags::from_bits_retain(flags.bits() & KEPT_FLAGS)
}

fn restored_matchall(option: TcFilterMatchAllOption) -> Result<Option<TcFilterMatchAllOption>, RestoreError> {
    match option {
        TcFilterMatchAllOption::Flags(n) => Ok(Some(TcFilterMatchAllOption::Flags(n & KEPT_FLAGS))),
        TcFilterMatchAllOption::Pnct(_) => Ok(None),
        TcFilterMatchAllOption::Action(actions) => {
            let actions = restore_all(actions, "", NOTHING_AROUND)?;
            Ok(Some(TcFilterMatchAllOption::Action(actions)))
        }
        TcFilterMatchAllOption::Other(nla) => {
            if is_of(&[5], &nla) {
                Ok(None)
            } else {
                Ok(Some(TcFilterMatchAllOption::Other(nla)))
            }
        }
        option => Ok(Some(option)),
    }
}

fn restored_bpf(option: TcFilterBpfOption) -> Result<Option<TcFilterBpfOption>, RestoreError> {
    match option {
        TcFilterBpfOption::FlagsGeneric(flags) => Ok(Some(TcFilterBpfOption::FlagsGeneric(cleared(flags)))),
        TcFilterBpfOption::ProgId(_) => Err(RestoreError::ProgramByNumber),
        TcFilterBpfOption::Other(nla) => {
            if is_of(&[1], &nla) {
                let actions = restored_actions(nla)?;
                Ok(Some(TcFilterBpfOption::Other(actions)))
            } else if is_of(&[2], &nla) {
                Ok(Some(TcFilterBpfOption::Other(restored_police(nla)?)))
            } else {
                Ok(Some(TcFilterBpfOption::Other(nla)))
            }
        }
        option => Ok(Some(option)),
    }
}
