//! The form in which configurations are compared, where that isn't what is sent.

use crate::nla_frames::{DefaultNla, Nla};
use crate::plan::configs::frames::{after, framed, frames_of, front, name_in, type_of};
use crate::plan::configs::normal::lists_of;
use crate::plan::configs::parts::put;
use crate::plan::configs::sort::Sort;
use crate::restore::uses::parameters;
use crate::user::prelude::AllocError;

/// The length of `struct tcmsg`.
const HEADER: usize = 20;

/// `TCA_OPTIONS` of `linux/rtnetlink.h`, `TCA_ACT_KIND` and `TCA_ACT_OPTIONS` of `linux/pkt_cls.h`.
const OPTIONS: u16 = 2;
const ACT_KIND: u16 = 1;
const ACT_OPTIONS: u16 = 2;

/// The options of a class of htb: `TCA_HTB_PARMS`, of which `struct tc_htb_opt` has the quantum, the level and the priority at the end.
const HTB_PARMS: u16 = 1;
const HTB_QUANTUM: usize = 32;
const HTB_LEVEL: usize = 36;
const HTB_PRIO: usize = 40;
const HTB_END: usize = 44;

/// A value that may be another one; `None` if it is the same.
type Changed = Result<Option<Vec<u8>>, AllocError>;

/// The message of a request, or of a dump, in the form in which it is compared; `None` if that is the message. A class of htb with children uses neither
/// its quantum nor its priority, and has a level, which no request sets. Of an action that filters share, a filter has the number: the parameters are the
/// action's.
pub(crate) fn compared(sort: Sort, kind: &str, message: &[u8]) -> Changed {
    match sort {
        Sort::Class if kind == "htb" && level_of(message)?.is_some_and(|level| level != 0) => {
            with_parameters(message, |value| put(HTB_QUANTUM, &[0; HTB_END - HTB_QUANTUM], value))
        }
        Sort::Filter => with_options(message, |options| {
            let mut made = None;
            for list in lists_of(kind) {
                let bytes = made.as_deref().unwrap_or(options);
                made = replaced(bytes, *list, shared_by_number)?.or(made);
            }
            Ok(made)
        }),
        _ => Ok(None),
    }
}

// ---- Classes of htb

/// The level of a class of htb; 0 is that of a leaf.
pub(crate) fn level_of(message: &[u8]) -> Result<Option<u32>, AllocError> {
    let level = |value: Vec<u8>| Some(u32::from_le_bytes(value.get(HTB_LEVEL..HTB_PRIO)?.try_into().ok()?));
    Ok(parameters_of(message)?.and_then(level))
}

/// The message of a class of htb with another level.
pub(crate) fn with_level(message: &[u8], level: u32) -> Changed {
    with_parameters(message, |value| put(HTB_LEVEL, &level.to_le_bytes(), value))
}

/// The quantum and the priority of a class of htb.
pub(crate) fn leaf_of(message: &[u8]) -> Result<Option<[u32; 2]>, AllocError> {
    let number = |value: &[u8], at: usize| Some(u32::from_le_bytes(value.get(at..)?.get(..4)?.try_into().ok()?));
    let both = |value: Vec<u8>| Some([number(&value, HTB_QUANTUM)?, number(&value, HTB_PRIO)?]);
    Ok(parameters_of(message)?.and_then(both))
}

fn parameters_of(message: &[u8]) -> Changed {
    let value = |bytes: &[u8], wanted: u16| {
        let frames = frames_of(bytes)?;
        Ok(frames.iter().find(|frame| type_of(frame) == wanted).map(|frame| frame.value().to_vec()))
    };
    let options: Option<Vec<u8>> = value(after(message, HEADER), OPTIONS)?;
    options.map_or(Ok(None), |options| value(&options, HTB_PARMS))
}

// The message with other parameters, if it has whole ones.
fn with_parameters(message: &[u8], change: impl FnOnce(&[u8]) -> Result<Vec<u8>, AllocError>) -> Changed {
    let change = |value: &[u8]| if value.len() < HTB_END { Ok(None) } else { change(value).map(Some) };
    with_options(message, |options| replaced(options, HTB_PARMS, change))
}

// ---- Actions that filters share

// A list of actions, those with a number by this alone: a filter's own action has none.
fn shared_by_number(list: &[u8]) -> Changed {
    let actions = frames_of(list)?;
    let mut made = Vec::with_capacity(actions.len());
    let mut is_changed = false;
    for action in actions {
        let short = by_number(action.value())?;
        is_changed |= short.is_some();
        made.push(short.map_or(action.clone(), |value| DefaultNla::new(action.kind(), value)));
    }
    if is_changed { framed(&made).map(Some) } else { Ok(None) }
}

// The kind and the number of an action; `None` if it has no number.
fn by_number(action: &[u8]) -> Changed {
    let frames = frames_of(action)?;
    let Some(kind) = frames.iter().find(|frame| type_of(frame) == ACT_KIND) else { return Ok(None) };
    let name = name_in(kind.value())?;
    let Some(options) = frames.iter().find(|frame| type_of(frame) == ACT_OPTIONS) else { return Ok(None) };
    let options = frames_of(options.value())?;
    let is_number = |frame: &&DefaultNla| parameters(&name).contains(&type_of(frame));
    let Some(number) = options.iter().find(is_number).and_then(|frame| frame.value().get(..4)) else { return Ok(None) };
    if number == [0; 4] {
        return Ok(None);
    }
    framed(&[kind.clone(), DefaultNla::new(ACT_OPTIONS, number.to_vec())]).map(Some)
}

// ---- Messages

/// The message of an object with other options, if it has some and they change.
pub(crate) fn with_options(message: &[u8], change: impl FnOnce(&[u8]) -> Changed) -> Changed {
    let attributes = replaced(after(message, HEADER), OPTIONS, change)?;
    Ok(attributes.map(|attributes| [front(message, HEADER), &attributes].concat()))
}

// Attributes with another value of the first of this type, if there is one and it changes.
fn replaced(bytes: &[u8], wanted: u16, change: impl FnOnce(&[u8]) -> Changed) -> Changed {
    let mut frames = frames_of(bytes)?;
    let Some(frame) = frames.iter_mut().find(|frame| type_of(frame) == wanted) else { return Ok(None) };
    let Some(value) = change(frame.value())? else { return Ok(None) };
    *frame = DefaultNla::new(frame.kind(), value);
    framed(&frames).map(Some)
}

#[cfg(test)]
mod tests {
    use super::*;

    fn put(bytes: &mut Vec<u8>, kind: u16, value: &[u8]) {
        crate::netlink::attributes::put(bytes, kind, value);
    }

    fn class(quantum: u32, level: u32, prio: u32) -> Vec<u8> {
        let (mut message, mut options) = (vec![7; HEADER], Vec::new());
        put(
            &mut options,
            HTB_PARMS,
            &[vec![1; HTB_QUANTUM], [quantum, level, prio].map(u32::to_le_bytes).concat()].concat(),
        );
        put(&mut message, 1, b"htb\0");
        put(&mut message, OPTIONS, &options);
        message
    }

    #[test]
    fn a_class_with_children_is_compared_without_what_it_doesnt_use() {
        let of = |message: &[u8]| compared(Sort::Class, "htb", message).expect("memory");
        assert_eq!(of(&class(5000, 7, 3)), Some(class(0, 0, 0)));
        assert_eq!(of(&class(5000, 0, 3)), None, "a leaf");
        assert_eq!(with_level(&class(5000, 7, 3), 0), Ok(Some(class(5000, 0, 3))));
        assert_eq!(leaf_of(&class(5000, 7, 3)), Ok(Some([5000, 3])));
        assert_eq!((level_of(&class(1, 2, 3)), level_of(&[7; HEADER])), (Ok(Some(2)), Ok(None)));
    }

    // A filter of matchall with mirred actions of these indices and interfaces.
    fn filter(actions: &[(u32, u32)]) -> Vec<u8> {
        let mut list = Vec::new();
        for (number, (index, interface)) in actions.iter().enumerate() {
            let (mut parameters, mut action) = (Vec::new(), Vec::new());
            put(&mut parameters, 2, &[*index, 0, 3, 0, 0, 2, *interface].map(u32::to_le_bytes).concat());
            put(&mut action, ACT_KIND, b"mirred\0");
            put(&mut action, ACT_OPTIONS, &parameters);
            put(&mut list, number as u16 + 1, &action);
        }
        let (mut message, mut options) = (vec![7; HEADER], Vec::new());
        put(&mut options, 2, &list);
        put(&mut message, 1, b"matchall\0");
        put(&mut message, OPTIONS, &options);
        message
    }

    #[test]
    fn a_shared_action_is_compared_by_its_number() {
        let of = |actions: &[(u32, u32)]| compared(Sort::Filter, "matchall", &filter(actions)).expect("memory");
        assert_eq!(of(&[(50, 8), (0, 9)]), of(&[(50, 7), (0, 9)]));
        assert!(of(&[(50, 8)]).is_some());
        assert_ne!(of(&[(50, 8)]), of(&[(51, 8)]));
        assert_ne!(of(&[(50, 8), (0, 9)]), of(&[(50, 8), (0, 8)]), "its own");
        assert_eq!(of(&[(0, 8)]), None, "no number");
    }
}
