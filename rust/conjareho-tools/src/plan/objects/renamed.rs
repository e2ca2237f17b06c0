//! Handles of qdiscs that the kernel chose: a wanted one becomes the handle that the same place has now.

use crate::user::prelude::*;

use crate::plan::objects::classes::classes_of;
use crate::plan::objects::dump::Dump;
use crate::plan::objects::requests::Handles;
use crate::restore::Object;
use crate::tc_changes::Key;
use crate::tc_messages::TcMessage;
use crate::tc_records::{TcHandle, TcHeader};
use std::collections::HashSet;

// A handle of an interface that becomes another one.
#[derive(Clone, Copy)]
struct Renaming {
    index: i32,
    from: u16,
    to: u16,
}

// How deep qdiscs with chosen handles are looked for, one below the other.
const DEPTH: usize = 4;

/// The dumps, with handles that the kernel chose as they are now in the same places. A handle stays whose classes a filter names, since only
/// headers are changed.
pub(crate) fn renamed(now: &Handles, dumps: Vec<Dump>) -> Result<Vec<Dump>, AllocError> {
    let mut dumps = dumps;
    for _ in 0..DEPTH {
        let renamings = renamings_of(now, &dumps)?;
        if renamings.is_empty() || !are_distinct(&renamings, &dumps)? {
            return Ok(dumps);
        }
        dumps = renamed_by(&renamings, dumps)?;
    }
    Ok(dumps)
}

fn renamed_by(renamings: &[Renaming], dumps: Vec<Dump>) -> Result<Vec<Dump>, AllocError> {
    let mut made = fallible::with_capacity(dumps.len())?;
    for dump in dumps {
        made.try_push(renamed_dump(renamings, dump))?;
    }
    Ok(made)
}

// True for the handle of a qdisc that the kernel chooses: 8000: to fffe:.
fn is_chosen(handle: TcHandle) -> bool {
    0x8000 <= handle.major && handle.major < 0xffff && handle.minor == 0
}

// The handles of wanted qdiscs that are others in the same places now.
fn renamings_of(now: &Handles, dumps: &[Dump]) -> Result<Vec<Renaming>, AllocError> {
    let mut renamings = Vec::new();
    for dump in dumps {
        if let Some(renaming) = renaming_in(now, dumps, dump)? {
            renamings.try_push(renaming)?;
        }
    }
    Ok(renamings)
}

// The renaming of a wanted qdisc, unless a filter names a class of it.
fn renaming_in(now: &Handles, dumps: &[Dump], dump: &Dump) -> Result<Option<Renaming>, AllocError> {
    let Dump::Of(Object::Qdisc, message) = dump else {
        return Ok(None);
    };
    let Some(renaming) = renaming_of(now, &message.header) else {
        return Ok(None);
    };
    if is_named(renaming, dumps)? {
        return Ok(None);
    }
    Ok(Some(renaming))
}

fn renaming_of(now: &Handles, header: &TcHeader) -> Option<Renaming> {
    let place = Key::Place { index: header.index, parent: u32::from(header.parent) };
    let own = header.handle;
    let there = TcHandle::from(now.get(&place).copied()?);
    if is_chosen(own) && is_chosen(there) && own.major != there.major {
        Some(Renaming { index: header.index, from: own.major, to: there.major })
    } else {
        None
    }
}

// True if a filter names a class of this qdisc.
fn is_named(renaming: Renaming, dumps: &[Dump]) -> Result<bool, AllocError> {
    for dump in dumps {
        if let Dump::Of(Object::Filter, message) = dump {
            for class in classes_of(message)? {
                if TcHandle::from(class).major == renaming.from {
                    return Ok(true);
                }
            }
        }
    }
    Ok(false)
}

// True if no two qdiscs of an interface would have the same handle.
fn are_distinct(renamings: &[Renaming], dumps: &[Dump]) -> Result<bool, AllocError> {
    let mut seen: HashSet<(i32, u16)> = HashSet::new();
    for dump in dumps {
        if let Dump::Of(Object::Qdisc, message) = dump {
            let index = message.header.index;
            let major = major_by(renamings, index, message.header.handle.major);
            if major != 0 {
                if seen.contains(&(index, major)) {
                    return Ok(false);
                }
                seen.insert((index, major));
            }
        }
    }
    Ok(true)
}

fn major_by(renamings: &[Renaming], index: i32, major: u16) -> u16 {
    for renaming in renamings {
        if renaming.index == index && renaming.from == major {
            return renaming.to;
        }
    }
    major
}

fn renamed_dump(renamings: &[Renaming], dump: Dump) -> Dump {
    match dump {
        Dump::Of(object, message) => {
            let TcMessage { header, attributes } = message;
            let header = renamed_header(renamings, object, header);
            Dump::Of(object, TcMessage { header, attributes })
        }
        Dump::Actions(message) => Dump::Actions(message),
    }
}

// The handle of a qdisc or a class, and the parent of anything.
fn renamed_header(renamings: &[Renaming], object: Object, header: TcHeader) -> TcHeader {
    let index = header.index;
    let handle = match object {
        Object::Qdisc | Object::Class => renamed_handle(renamings, index, header.handle),
        Object::Filter | Object::Chain => header.handle,
    };
    TcHeader {
        family: header.family,
        index,
        handle,
        parent: renamed_handle(renamings, index, header.parent),
        info: header.info,
    }
}

fn renamed_handle(renamings: &[Renaming], index: i32, handle: TcHandle) -> TcHandle {
    TcHandle { major: major_by(renamings, index, handle.major), minor: handle.minor }
}
