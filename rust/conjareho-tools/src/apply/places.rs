//! The handles that the kernel chose, as if it had chosen them by place.

use super::compare::{Key, Objects};
use crate::netlink::message::{RTM_NEWQDISC, RTM_NEWTCLASS};
use std::collections::BTreeMap;

/// The upper halves of the handles that the kernel chooses for qdiscs.
pub(crate) const CHOSEN: std::ops::RangeInclusive<u32> = 0x8000..=0xFFFE;

/// Objects with the handles that the kernel chose as if it had chosen them by place, from the root: the same for each state that differs in nothing else.
pub(crate) fn by_place(objects: Objects) -> Objects {
    // Those whose parents have such handles, by these; the others are the first level.
    let mut below: BTreeMap<(i32, u32), Vec<(u32, u32)>> = BTreeMap::new();
    let mut level = Vec::new();
    for (index, parent, handle) in objects.keys().filter_map(chosen) {
        if CHOSEN.contains(&(parent >> 16)) {
            below.entry((index, parent >> 16)).or_default().push((parent, handle));
        } else {
            level.push((index, parent, handle));
        }
    }
    let (mut majors, mut counts) = (Majors::new(), BTreeMap::new());
    while !level.is_empty() {
        level.sort_unstable();
        let mut next = Vec::new();
        for (index, _, handle) in level {
            let count = counts.entry(index).or_insert(0);
            let major = CHOSEN.start() + *count;
            *count += 1;
            majors.insert((index, handle >> 16), major);
            let children = below.remove(&(index, handle >> 16)).unwrap_or_default();
            next.extend(children.into_iter().map(|(parent, own)| (index, major << 16 | parent & 0xFFFF, own)));
        }
        level = next;
    }
    objects.into_iter().map(|(key, held)| (moved_key(key, &majors), held)).collect()
}

// The new upper halves of handles, by interface and upper half.
type Majors = BTreeMap<(i32, u32), u32>;

fn moved(majors: &Majors, index: i32, handle: u32) -> u32 {
    majors.get(&(index, handle >> 16)).map_or(handle, |major| major << 16 | handle & 0xFFFF)
}

fn moved_key(mut key: Key, majors: &Majors) -> Key {
    if let Key::Object { kind: RTM_NEWQDISC | RTM_NEWTCLASS, index, handle, .. } = &mut key {
        *handle = moved(majors, *index, *handle);
    }
    if let Key::Object { index, parent, .. } | Key::Order { index, parent, .. } = &mut key {
        *parent = moved(majors, *index, *parent);
    }
    key
}

// Interface, parent and handle of a qdisc whose handle the kernel chose.
fn chosen(key: &Key) -> Option<(i32, u32, u32)> {
    match key {
        Key::Object { kind: RTM_NEWQDISC, index, parent, handle, .. } if CHOSEN.contains(&(handle >> 16)) => {
            Some((*index, *parent, *handle))
        }
        _ => None,
    }
}

#[cfg(test)]
mod tests {
    use super::super::compare::Held;
    use super::*;
    use crate::netlink::message::RTM_NEWTFILTER;

    #[test]
    fn chosen_handles_are_those_of_their_places() {
        let object = |kind, parent, handle| Key::Object { kind, index: 7, parent, chain: 0, info: 0, handle };
        let state = |one: u32, two: u32| -> Vec<Key> {
            let keys = [
                object(RTM_NEWQDISC, 0x1_0010, one << 16),
                object(RTM_NEWQDISC, 0x1_0020, two << 16),
                object(RTM_NEWTCLASS, two << 16, two << 16 | 1),
                object(RTM_NEWTFILTER, two << 16, 1),
            ];
            by_place(keys.into_iter().map(|key| (key, Held::Handles(Vec::new()))).collect()).into_keys().collect()
        };
        assert_eq!(state(0x8001, 0x8002), state(0x8055, 0x8003));
        assert_ne!(state(0x8001, 0x20), state(0x8001, 0x8002));
    }

    #[test]
    fn a_chain_of_them_is_numbered_from_above() {
        // The handles fall from the root down: each level is found by the one above.
        let state = |handles: &[u32]| -> Vec<Key> {
            let parents = [0x1_0001].into_iter().chain(handles.iter().map(|handle| handle << 16 | 1));
            let object = |(handle, parent): (&u32, u32)| Key::Object {
                kind: RTM_NEWQDISC,
                index: 7,
                parent,
                chain: 0,
                info: 0,
                handle: handle << 16,
            };
            let keys = handles.iter().zip(parents).map(object);
            by_place(keys.map(|key| (key, Held::Handles(Vec::new()))).collect()).into_keys().collect()
        };
        let (down, up): (Vec<u32>, Vec<u32>) = ((0x8001..0x8041).rev().collect(), (0x8000..0x8040).collect());
        assert_eq!(state(&down), state(&up));
    }
}
