//! The normal form of a request, and of a dump that no request restores: counters and whatever else a kernel puts into options of its own are 0,
//! and no option is padding. A dump also loses its statistics, and times and counts of its actions.

use crate::user::prelude::*;

use crate::nla_frames::{DefaultNla, Nla};
use crate::plan::configs::actions::{normal_actions, options_of};
use crate::plan::configs::frames::{after, framed, frames_of, front, type_of};
use crate::plan::configs::parts::put;

// The lengths of `struct tcmsg` and `struct tcamsg`.
const HEADER: usize = 20;

const ACTION_HEADER: usize = 4;

// `TCA_OPTIONS` of `linux/rtnetlink.h`, and `TCA_ACT_TAB`.
const TCA_OPTIONS: u16 = 2;

const TCA_ACT_TAB: u16 = 1;

/// The message of a request for an object of this kind, or a dump of one that no request restores.
pub(crate) fn normal(of_dump: bool, kind: &str, message: Vec<u8>) -> Result<Vec<u8>, AllocError> {
    if of_dump || has_such(kind) { normal_message(of_dump, kind, &message) } else { Ok(message) }
}

/// A dump of an action that no request restores.
pub(crate) fn normal_action_dump(message: &[u8]) -> Result<Vec<u8>, AllocError> {
    let frames = frames_of(after(message, ACTION_HEADER))?;
    let lists = normal_lists(frames)?;
    let bytes = framed(&lists)?;
    let mut made = fallible::copy(front(message, ACTION_HEADER))?;
    made.try_extend(&bytes)?;
    Ok(made)
}

fn normal_lists(frames: Vec<DefaultNla>) -> Result<Vec<DefaultNla>, AllocError> {
    let mut made = fallible::with_capacity(frames.len())?;
    for frame in frames {
        made.try_push(normal_list(frame)?)?;
    }
    Ok(made)
}

fn normal_list(frame: DefaultNla) -> Result<DefaultNla, AllocError> {
    if type_of(&frame) == TCA_ACT_TAB {
        let value = normal_actions(frame.value())?;
        Ok(DefaultNla::new(frame.kind(), value))
    } else {
        Ok(frame)
    }
}

// True for the kinds with options that are normalized.
fn has_such(kind: &str) -> bool {
    matches!(kind, "htb" | "u32" | "tbf" | "netem" | "cake" | "cake_mq" | "taprio" | "dualpi2")
}

// The same, and in dumps for the kinds of filters with actions.
fn has_list(of_dump: bool, kind: &str) -> bool {
    has_such(kind) || of_dump && lists_of(kind).len() != 0
}

fn normal_message(of_dump: bool, kind: &str, message: &[u8]) -> Result<Vec<u8>, AllocError> {
    let frames = frames_of(after(message, HEADER))?;
    let attributes = normal_attributes(of_dump, kind, frames)?;
    let bytes = framed(&attributes)?;
    let mut made = fallible::copy(front(message, HEADER))?;
    made.try_extend(&bytes)?;
    Ok(made)
}

fn normal_attributes(of_dump: bool, kind: &str, frames: Vec<DefaultNla>) -> Result<Vec<DefaultNla>, AllocError> {
    let mut made = fallible::with_capacity(frames.len())?;
    for frame in frames {
        if is_set(of_dump, &frame) {
            made.try_push(normal_attribute(of_dump, kind, frame)?)?;
        }
    }
    Ok(made)
}

// False for what only a kernel writes.
fn is_set(of_dump: bool, frame: &DefaultNla) -> bool {
    !(of_dump && is_count(type_of(frame)))
}

fn is_count(attribute: u16) -> bool {
    let counts: &[u16] = &[3, 4, 6, 7, 9, 12, 16];
    counts.contains(&attribute)
}

fn normal_attribute(of_dump: bool, kind: &str, frame: DefaultNla) -> Result<DefaultNla, AllocError> {
    if type_of(&frame) == TCA_OPTIONS && has_list(of_dump, kind) {
        let value = normal_value(of_dump, kind, frame.value())?;
        Ok(DefaultNla::new(frame.kind(), value))
    } else {
        Ok(frame)
    }
}

fn normal_value(of_dump: bool, kind: &str, value: &[u8]) -> Result<Vec<u8>, AllocError> {
    let start = before_options(kind);
    let frames = frames_of(after(value, start))?;
    let options = normal_options(of_dump, kind, frames)?;
    let bytes = framed(&options)?;
    let mut made = fallible::copy(front(value, start))?;
    made.try_extend(&bytes)?;
    Ok(made)
}

// The length of the record before the options: `struct tc_netem_qopt`.
fn before_options(kind: &str) -> usize {
    if kind == "netem" { 24 } else { 0 }
}

fn normal_options(of_dump: bool, kind: &str, frames: Vec<DefaultNla>) -> Result<Vec<DefaultNla>, AllocError> {
    let mut made = fallible::with_capacity(frames.len())?;
    for frame in frames {
        if is_kept(of_dump, kind, &frame) {
            made.try_push(normal_option(of_dump, kind, &frame)?)?;
        }
    }
    Ok(made)
}

// False for padding, and in a dump for counts of a filter.
fn is_kept(of_dump: bool, kind: &str, frame: &DefaultNla) -> bool {
    !(is_padding(kind, type_of(frame)) || of_dump && counts_of(kind).contains(&type_of(frame)))
}

// True for an option that only aligns the next one.
fn is_padding(kind: &str, option: u16) -> bool {
    match kind {
        "htb" | "tbf" => option == 8,
        "netem" => option == 9,
        "cake" | "cake_mq" => option == 1,
        "taprio" => option == 6,
        "dualpi2" => option == 16,
        _ => false,
    }
}

// The types of the options in which a filter counts.
fn counts_of(kind: &str) -> &'static [u16] {
    match kind {
        "flower" => &[86],
        "u32" => &[9, 12],
        "matchall" => &[4, 5],
        "basic" => &[5, 6],
        _ => &[],
    }
}

// The types of the options that are lists of actions.
pub(crate) fn lists_of(kind: &str) -> &'static [u16] {
    match kind {
        "flower" => &[3],
        "u32" => &[7],
        "matchall" => &[2],
        "bpf" => &[1],
        "basic" => &[3],
        "fw" => &[4],
        "route" => &[6],
        "flow" => &[9],
        "cgroup" => &[1],
        "tcindex" => &[7],
        "rsvp" => &[6],
        "rsvp6" => &[6],
        _ => &[],
    }
}

fn normal_option(of_dump: bool, kind: &str, frame: &DefaultNla) -> Result<DefaultNla, AllocError> {
    let value = value_by(of_dump, kind, type_of(frame), frame.value())?;
    Ok(DefaultNla::new(frame.kind(), value))
}

fn value_by(of_dump: bool, kind: &str, option: u16, value: &[u8]) -> Result<Vec<u8>, AllocError> {
    if is_list(of_dump, kind, option) {
        normal_actions(value)
    } else if of_dump && option != 0 && police_of(kind) == option {
        options_of(b"police", value)
    } else if is_schedule(kind, option) {
        normal_schedule(value)
    } else {
        value_of_option(kind, option, value)
    }
}

// The type of the option that is police outside a list of actions (`TCA_U32_POLICE` and the like); 0 of a kind that has none.
fn police_of(kind: &str) -> u16 {
    match kind {
        "u32" | "tcindex" => 6,
        "basic" => 4,
        "bpf" | "fw" | "cgroup" => 2,
        "route" | "rsvp" | "rsvp6" => 5,
        "flow" => 10,
        _ => 0,
    }
}

// True for a list of actions among the options of a dump.
fn is_list(of_dump: bool, kind: &str, option: u16) -> bool {
    of_dump && lists_of(kind).contains(&option)
}

// True for a schedule of taprio among its options.
fn is_schedule(kind: &str, option: u16) -> bool {
    kind == "taprio" && option == 7
}

fn normal_schedule(value: &[u8]) -> Result<Vec<u8>, AllocError> {
    let frames = frames_of(value)?;
    let parts = without_padding(frames)?;
    framed(&parts)
}

// The parts of a schedule without `TCA_TAPRIO_PAD`.
fn without_padding(frames: Vec<DefaultNla>) -> Result<Vec<DefaultNla>, AllocError> {
    let mut made = fallible::with_capacity(frames.len())?;
    for frame in frames {
        if type_of(&frame) != 6 {
            made.try_push(frame)?;
        }
    }
    Ok(made)
}

// The value of an option. Of htb: the packets that went past all classes (`struct tc_htb_glob`). Of u32: the packets with a mark (`struct tc_u32_mark`).
fn value_of_option(kind: &str, option: u16, value: &[u8]) -> Result<Vec<u8>, AllocError> {
    if kind == "htb" && option == 2 {
        put(16, &[0, 0, 0, 0], value)
    } else if kind == "u32" && option == 10 {
        put(8, &[0, 0, 0, 0], value)
    } else {
        fallible::copy(value)
    }
}

#[cfg(test)]
mod tests {
    use super::{counts_of, is_padding};
    use crate::plan::configs::actions::times_of_action;
    use crate::plan::configs::kinds::LEFT_OUT;

    // Rate tables of a police action are in no dump, so `kinds/` doesn't say that the normal form leaves them out.
    const OF_REQUESTS: [(&str, u16); 2] = [("police", 2), ("police", 3)];

    #[test]
    fn options_that_the_tables_leave_out_are_left_out() {
        for &(sort, kind, option) in LEFT_OUT {
            assert!(is_left_out(sort, kind, option), "{sort} {kind} {option}");
        }
        let kinds = LEFT_OUT.iter().map(|&(sort, kind, _)| (sort, kind));
        for ((sort, kind), option) in kinds.flat_map(|it| (0..512).map(move |option| (it, option))) {
            let is_listed = LEFT_OUT.contains(&(sort, kind, option)) || OF_REQUESTS.contains(&(kind, option));
            assert_eq!(is_left_out(sort, kind, option), is_listed, "{sort} {kind} {option}");
        }
    }

    fn is_left_out(sort: &str, kind: &str, option: u16) -> bool {
        match sort {
            "qdisc" => is_padding(kind, option),
            "filter" => counts_of(kind).contains(&option),
            _ => times_of_action(kind.as_bytes()).contains(&option),
        }
    }
}
