//! The configuration of what a request makes.

use crate::user::prelude::*;

use crate::nla_frames::{DefaultNla, Nla};
use crate::plan::configs::config::{CHANGED, Config, MADE, written};
use crate::plan::configs::frames::{bytes_of, frames_of, type_of};
use crate::plan::configs::kinds::{Change, Rule, rule_of};
use crate::plan::configs::sort::Sort;

// The lengths of `struct tcmsg` and `struct tcamsg`.
const HEADER: usize = 20;

const ACTION_HEADER: usize = 4;

// `TCA_OPTIONS` of `linux/rtnetlink.h`, and `TCA_ACT_OPTIONS` of `linux/pkt_cls.h`.
const OPTIONS: u16 = 2;

// `TCA_ACT_COOKIE` of `linux/pkt_cls.h`.
const COOKIE: u16 = 6;

// The cookie of an action among the types of its options, which begin at 1.
const KEPT_COOKIE: u8 = 0;

/// The configuration of an object of this kind, which the request with this message makes.
pub(crate) fn configured(sort: Sort, kind: &str, message: &[u8]) -> Result<Vec<u8>, AllocError> {
    let rule = rule_of(sort, kind);
    if rule.change == Change::Never {
        return plain(MADE, message);
    }
    let options = options_of(sort, rule.skipped, message)?;
    let kept = kept_of(sort, rule, message, &options)?;
    let fixed = fixed_of(sort, rule, message, options)?;
    let change = match sort {
        Sort::Action(_) => Vec::new(),
        _ => changing(rule, message)?,
    };
    written(&Config { making: CHANGED, kept: &kept, fixed: &fixed, change: &change, message })
}

/// The configuration of a chain without a template, whose own request has this message. A chain that filters make has none: one that was made by itself may
/// become that, since with filters both are dumped alike, but not the other way, since such a chain goes with its last filter.
///
/// # Errors
///
/// A [`AllocError`].
pub(crate) fn chain(message: Option<&[u8]>) -> Result<Vec<u8>, AllocError> {
    let kept: &[u8] = if message.is_some() { &[] } else { b"by filters" };
    written(&Config { making: CHANGED, kept, fixed: b"chain", change: &[], message: message.unwrap_or_default() })
}

/// The configuration of an object that no change leads to.
///
/// # Errors
///
/// A [`AllocError`].
pub fn plain(making: u8, message: &[u8]) -> Result<Vec<u8>, AllocError> {
    written(&Config { making, kept: &[], fixed: &[], change: &[], message })
}

// The frames after a header.
fn frames_after(header: usize, message: &[u8]) -> Result<Vec<DefaultNla>, AllocError> {
    match message.split_at_checked(header) {
        Some((_, rest)) => frames_of(rest),
        None => Ok(Vec::new()),
    }
}

// The options in a message; of an action those of the first one.
fn options_of(sort: Sort, skipped: usize, message: &[u8]) -> Result<Vec<DefaultNla>, AllocError> {
    let frames = match sort {
        Sort::Action(_) => first_action(message)?,
        _ => frames_after(HEADER, message)?,
    };
    for frame in &frames {
        if type_of(frame) == OPTIONS {
            return frames_after(skipped, frame.value());
        }
    }
    Ok(Vec::new())
}

// The attributes of the first action in a message.
fn first_action(message: &[u8]) -> Result<Vec<DefaultNla>, AllocError> {
    let lists = frames_after(ACTION_HEADER, message)?;
    let actions = in_first(&lists)?;
    in_first(&actions)
}

// The frames in the first of these.
fn in_first(frames: &[DefaultNla]) -> Result<Vec<DefaultNla>, AllocError> {
    match frames.first() {
        Some(frame) => frames_of(frame.value()),
        None => Ok(Vec::new()),
    }
}

// The types of what stays as it is if a change lacks it: options, if the kind keeps them, and the cookie of an action of any kind.
fn kept_of(sort: Sort, rule: Rule, message: &[u8], options: &[DefaultNla]) -> Result<Vec<u8>, AllocError> {
    let mut kept = match rule.change {
        Change::Keeps => types_of(options)?,
        Change::Never | Change::Whole => Vec::new(),
    };
    if let Sort::Action(_) = sort {
        let attributes = first_action(message)?;
        if attributes.iter().any(|attribute| type_of(attribute) == COOKIE) {
            kept.try_push(KEPT_COOKIE)?;
        }
    }
    Ok(kept)
}

// The types of options, those above 255 as that.
fn types_of(options: &[DefaultNla]) -> Result<Vec<u8>, AllocError> {
    let mut types = Vec::new();
    for option in options {
        types.try_push(u8::try_from(type_of(option)).unwrap_or(255))?;
    }
    Ok(types)
}

// What has to be the same in both, if the one is changed into the other: the header, all attributes but the options, and what the rule says of
// options.
fn fixed_of(sort: Sort, rule: Rule, message: &[u8], options: Vec<DefaultNla>) -> Result<Vec<u8>, AllocError> {
    let mut fixed = Vec::new();
    let mut frames = Vec::new();
    if let Sort::Action(_) = sort {
    } else if let Some((header, rest)) = message.split_at_checked(HEADER) {
        fixed.try_extend(header)?;
        for frame in frames_of(rest)? {
            if type_of(&frame) != OPTIONS {
                frames.try_push(frame)?;
            }
        }
    }
    for option in options {
        let found = type_of(&option);
        if rule.fixed.contains(&found) || rule.equal.contains(&found) {
            frames.try_push(option)?;
        } else if rule.by_name && !rule.free.contains(&found) {
            frames.try_push(DefaultNla::new(found, Vec::new()))?;
        }
    }
    if let Some(bytes) = bytes_of(&frames)? {
        fixed.try_extend(&bytes)?;
    }
    Ok(fixed)
}

// The message of a request that changes an object: without the options that only making it takes; empty if it has none.
fn changing(rule: Rule, message: &[u8]) -> Result<Vec<u8>, AllocError> {
    if rule.fixed.is_empty() {
        return Ok(Vec::new());
    }
    let Some((header, rest)) = message.split_at_checked(HEADER) else {
        return Ok(Vec::new());
    };
    let mut frames = Vec::new();
    for frame in frames_of(rest)? {
        if type_of(&frame) == OPTIONS {
            let value = without(rule.fixed, frame.value())?;
            frames.try_push(DefaultNla::new(frame.kind(), value))?;
        } else {
            frames.try_push(frame)?;
        }
    }
    let mut made = fallible::copy(header)?;
    if let Some(bytes) = bytes_of(&frames)? {
        made.try_extend(&bytes)?;
    }
    Ok(made)
}

// The list of options without those of these types.
fn without(types: &[u16], bytes: &[u8]) -> Result<Vec<u8>, AllocError> {
    let mut frames = Vec::new();
    for frame in frames_of(bytes)? {
        if !types.contains(&type_of(&frame)) {
            frames.try_push(frame)?;
        }
    }
    match bytes_of(&frames)? {
        Some(made) => Ok(made),
        None => fallible::copy(bytes),
    }
}
