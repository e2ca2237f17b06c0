//! Configurations of dumps that no request restores: filters and actions of eBPF programs.

use crate::user::prelude::*;

use crate::nla_frames::ParseableBytes;
use crate::plan::configs::requested::config_of_action;
use crate::plan::configs::{Sort, config_of, message_of};
use crate::restore::Object;
use crate::tc_action_messages::{TcActionMessage, TcActionMessageAttribute};
use crate::tc_wire::TcMessage;
use crate::user::Fail;

// A filter of an eBPF program with two actions of mirred, as Linux 6.1 sent it (`uml61.note.newtfilter.bpf.002` of `model/labelled`).
const EBPF: [u8; 464] = [
    0, 0, 0, 0, 10, 0, 0, 0, 1, 0, 0, 0, 243, 255, 255, 255, 0, 3, 9, 0, 8, 0, 1, 0, 98, 112, 102, 0, 8, 0, 11, 0, 0,
    0, 0, 0, 172, 1, 2, 0, 24, 0, 7, 0, 112, 114, 111, 103, 46, 111, 58, 91, 99, 108, 97, 115, 115, 105, 102, 105, 101,
    114, 93, 0, 8, 0, 11, 0, 56, 0, 0, 0, 12, 0, 10, 0, 89, 144, 66, 41, 197, 161, 245, 93, 116, 1, 1, 0, 184, 0, 1, 0,
    11, 0, 1, 0, 109, 105, 114, 114, 101, 100, 0, 0, 4, 0, 5, 0, 80, 0, 4, 0, 4, 0, 6, 0, 20, 0, 1, 0, 0, 0, 0, 0, 0,
    0, 0, 0, 0, 0, 0, 0, 0, 0, 0, 0, 4, 0, 6, 0, 20, 0, 7, 0, 0, 0, 0, 0, 0, 0, 0, 0, 0, 0, 0, 0, 0, 0, 0, 0, 4, 0, 6,
    0, 24, 0, 3, 0, 0, 0, 0, 0, 0, 0, 0, 0, 0, 0, 0, 0, 0, 0, 0, 0, 0, 0, 0, 0, 8, 0, 10, 0, 0, 0, 0, 0, 76, 0, 2, 0,
    32, 0, 2, 0, 2, 0, 0, 0, 0, 0, 0, 0, 4, 0, 0, 0, 1, 0, 0, 0, 1, 0, 0, 0, 1, 0, 0, 0, 8, 0, 0, 0, 4, 0, 3, 0, 36, 0,
    1, 0, 0, 0, 0, 0, 0, 0, 0, 0, 0, 0, 0, 0, 0, 0, 0, 0, 0, 0, 0, 0, 0, 0, 0, 0, 0, 0, 0, 0, 0, 0, 0, 0, 184, 0, 2, 0,
    11, 0, 1, 0, 109, 105, 114, 114, 101, 100, 0, 0, 4, 0, 5, 0, 80, 0, 4, 0, 4, 0, 6, 0, 20, 0, 1, 0, 0, 0, 0, 0, 0,
    0, 0, 0, 0, 0, 0, 0, 0, 0, 0, 0, 4, 0, 6, 0, 20, 0, 7, 0, 0, 0, 0, 0, 0, 0, 0, 0, 0, 0, 0, 0, 0, 0, 0, 0, 4, 0, 6,
    0, 24, 0, 3, 0, 0, 0, 0, 0, 0, 0, 0, 0, 0, 0, 0, 0, 0, 0, 0, 0, 0, 0, 0, 0, 8, 0, 10, 0, 0, 0, 0, 0, 76, 0, 2, 0,
    32, 0, 2, 0, 3, 0, 0, 0, 0, 0, 0, 0, 3, 0, 0, 0, 1, 0, 0, 0, 1, 0, 0, 0, 2, 0, 0, 0, 9, 0, 0, 0, 4, 0, 3, 0, 36, 0,
    1, 0, 0, 0, 0, 0, 0, 0, 0, 0, 0, 0, 0, 0, 0, 0, 0, 0, 0, 0, 0, 0, 0, 0, 0, 0, 0, 0, 0, 0, 0, 0, 0, 0, 8, 0, 9, 0,
    8, 0, 0, 0,
];

// The same without what only a kernel writes: of each action `TCA_ACT_PAD`, `TCA_ACT_STATS`, `TCA_ACT_IN_HW_COUNT`, `TCA_MIRRED_PAD` and
// `TCA_MIRRED_TM`, and in `TCA_MIRRED_PARMS` 0 for index, `refcnt` and `bindcnt`, since only the filter holds it.
const EBPF_WITHOUT_COUNTS: [u8; 200] = [
    0, 0, 0, 0, 10, 0, 0, 0, 1, 0, 0, 0, 243, 255, 255, 255, 0, 3, 9, 0, 8, 0, 1, 0, 98, 112, 102, 0, 8, 0, 11, 0, 0,
    0, 0, 0, 164, 0, 2, 0, 24, 0, 7, 0, 112, 114, 111, 103, 46, 111, 58, 91, 99, 108, 97, 115, 115, 105, 102, 105, 101,
    114, 93, 0, 8, 0, 11, 0, 56, 0, 0, 0, 12, 0, 10, 0, 89, 144, 66, 41, 197, 161, 245, 93, 108, 0, 1, 0, 52, 0, 1, 0,
    11, 0, 1, 0, 109, 105, 114, 114, 101, 100, 0, 0, 36, 0, 2, 0, 32, 0, 2, 0, 0, 0, 0, 0, 0, 0, 0, 0, 4, 0, 0, 0, 0,
    0, 0, 0, 0, 0, 0, 0, 1, 0, 0, 0, 8, 0, 0, 0, 52, 0, 2, 0, 11, 0, 1, 0, 109, 105, 114, 114, 101, 100, 0, 0, 36, 0,
    2, 0, 32, 0, 2, 0, 0, 0, 0, 0, 0, 0, 0, 0, 3, 0, 0, 0, 0, 0, 0, 0, 0, 0, 0, 0, 2, 0, 0, 0, 9, 0, 0, 0, 8, 0, 9, 0,
    8, 0, 0, 0,
];

// An action of an eBPF program, as Linux 6.1 sent it (`tdc61.note.newaction.bpf.0002` of `model/labelled`).
const EBPF_ACTION: [u8; 224] = [
    0, 0, 0, 0, 220, 0, 1, 0, 216, 0, 1, 0, 8, 0, 1, 0, 98, 112, 102, 0, 80, 0, 4, 0, 4, 0, 6, 0, 20, 0, 1, 0, 0, 0, 0,
    0, 0, 0, 0, 0, 0, 0, 0, 0, 0, 0, 0, 0, 4, 0, 6, 0, 20, 0, 7, 0, 0, 0, 0, 0, 0, 0, 0, 0, 0, 0, 0, 0, 0, 0, 0, 0, 4,
    0, 6, 0, 24, 0, 3, 0, 0, 0, 0, 0, 0, 0, 0, 0, 0, 0, 0, 0, 0, 0, 0, 0, 0, 0, 0, 0, 8, 0, 10, 0, 0, 0, 0, 0, 116, 0,
    2, 0, 24, 0, 2, 0, 155, 2, 0, 0, 0, 0, 0, 0, 3, 0, 0, 0, 1, 0, 0, 0, 0, 0, 0, 0, 28, 0, 6, 0, 97, 99, 116, 105,
    111, 110, 45, 101, 98, 112, 102, 58, 91, 97, 99, 116, 105, 111, 110, 45, 111, 107, 93, 0, 8, 0, 9, 0, 4, 0, 0, 0,
    12, 0, 8, 0, 160, 79, 94, 239, 6, 167, 245, 85, 4, 0, 7, 0, 36, 0, 1, 0, 0, 0, 0, 0, 0, 0, 0, 0, 0, 0, 0, 0, 0, 0,
    0, 0, 0, 0, 0, 0, 0, 0, 0, 0, 0, 0, 0, 0, 0, 0, 0, 0,
];

// The same without `TCA_ACT_STATS`, `TCA_ACT_IN_HW_COUNT`, `TCA_ACT_BPF_PAD` and `TCA_ACT_BPF_TM`, with 0 for `refcnt`, and with `NLA_F_NESTED` on
// the options, as the codec writes them.
const EBPF_ACTION_WITHOUT_COUNTS: [u8; 96] = [
    0, 0, 0, 0, 92, 0, 1, 0, 88, 0, 1, 0, 8, 0, 1, 0, 98, 112, 102, 0, 76, 0, 2, 128, 24, 0, 2, 0, 155, 2, 0, 0, 0, 0,
    0, 0, 3, 0, 0, 0, 0, 0, 0, 0, 0, 0, 0, 0, 28, 0, 6, 0, 97, 99, 116, 105, 111, 110, 45, 101, 98, 112, 102, 58, 91,
    97, 99, 116, 105, 111, 110, 45, 111, 107, 93, 0, 8, 0, 9, 0, 4, 0, 0, 0, 12, 0, 8, 0, 160, 79, 94, 239, 6, 167,
    245, 85,
];

// The configuration of a filter. Empty if it is too long.
fn config_in(bytes: &[u8]) -> Result<Vec<u8>, Fail> {
    let dump = TcMessage::parse(bytes)?;
    let parent = u32::from(dump.header.parent);
    let made = config_of(&[], Object::Filter, Sort::Filter, parent, dump)?;
    match made {
        Some(made) => Ok(made.config),
        None => Ok(Vec::new()),
    }
}

// The configuration of an action. Empty if there is none.
fn action_config_in(bytes: &[u8]) -> Result<Vec<u8>, Fail> {
    let dump = TcActionMessage::parse(bytes)?;
    let sort = Sort::Action(*b"bpf\0\0\0\0\0\0\0\0\0\0\0\0\0");
    for attribute in dump.attributes {
        if let TcActionMessageAttribute::Actions(actions) = attribute {
            for action in actions {
                if let Some(config) = config_of_action(sort, false, action)? {
                    return Ok(config);
                }
            }
        }
    }
    Ok(Vec::new())
}

// Bytes with another one at a place.
fn with(bytes: &[u8], at: usize, byte: u8) -> Result<Vec<u8>, Fail> {
    let mut made = fallible::copy(bytes)?;
    if let Some(place) = made.get_mut(at) {
        *place = byte;
    }
    Ok(made)
}

#[test]
fn a_filter_loses_counts_and_times() -> Result<(), Fail> {
    let config = config_in(&EBPF)?;
    assert!(message_of(&config) == EBPF_WITHOUT_COUNTS.as_slice());
    assert!(config.first().copied() == Some(0));
    // packets, the index of an action that only this filter holds, and the times since it was made, used and first used
    for at in [128, 204, 240, 248, 264, 432] {
        let later = with(&EBPF, at, 1)?;
        assert!(config_in(&later)? == config);
    }
    // the interface of mirred
    let other = with(&EBPF, 228, 9)?;
    assert!(config_in(&other)? != config);
    Ok(())
}

#[test]
fn an_action_loses_counts_and_times() -> Result<(), Fail> {
    let config = action_config_in(&EBPF_ACTION)?;
    assert!(message_of(&config) == EBPF_ACTION_WITHOUT_COUNTS.as_slice());
    // packets, `refcnt`, and the time since it was used
    for at in [40, 128, 200] {
        let later = with(&EBPF_ACTION, at, 2)?;
        assert!(action_config_in(&later)? == config);
    }
    // the number of the program
    let other = with(&EBPF_ACTION, 168, 5)?;
    assert!(action_config_in(&other)? != config);
    Ok(())
}
