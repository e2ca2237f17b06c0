//! Qdiscs that are made anew, since they lose another one.

use super::messages::{kind_of, type_of};
use crate::netlink::attributes::put;
use crate::netlink::message::{RTM_NEWQDISC, tcmsg_of};
use std::collections::{BTreeMap, BTreeSet};

// In a class of these kinds Linux leaves nothing, if the qdisc there is deleted: packets are dropped. The one that was there at first comes back only with
// the whole.
const LEAVES_NOTHING: [&[u8]; 8] = [b"tbf", b"sfb", b"red", b"multiq", b"mq", b"mqprio", b"taprio", b"atm"];

/// The parents of root qdiscs and of ingress and clsact, and all above.
const TOPS: u32 = 0xFFFF_FFF1;

// An attribute that no kernel knows.
const MARK: u16 = 0x3FF0;

/// What is there now. Qdiscs that lose another one, which nothing follows, are marked, so that they aren't what is wanted, and are made anew.
pub(crate) fn marked(now: &[Vec<u8>], wanted: &[Vec<u8>]) -> Vec<Vec<u8>> {
    let mut ways = Ways::default();
    let (old, new) = (ways.of(now), ways.of(wanted));
    let emptied: BTreeSet<usize> =
        old.keys().filter(|way| !new.contains_key(*way)).filter_map(|way| ways.above(*way)).collect();
    let stays = |way: &usize| Some((now.get(*old.get(way)?)?, wanted.get(*new.get(way)?)?));
    let is_marked = |way: &&usize| {
        let is_emptied = |kind: &[u8]| LEAVES_NOTHING.contains(&kind);
        stays(way).is_some_and(|(was, is)| kind_of(was) == kind_of(is) && kind_of(was).is_some_and(is_emptied))
    };
    let mut marked = now.to_vec();
    for place in emptied.iter().filter(is_marked).filter_map(|way| old.get(way)) {
        mark(&mut marked[*place]);
    }
    marked
}

fn mark(message: &mut Vec<u8>) {
    put(message, MARK, b"anew");
    let len = message.len() as u32;
    message[..4].copy_from_slice(&len.to_ne_bytes());
}

// ---- Ways

// The ways to qdiscs from the root, whatever their handles are: each is the way to the qdisc above, by its number, and the minor number of the class
// there; for the first one the parent.
#[derive(Default)]
struct Ways {
    numbers: BTreeMap<(usize, i32, u32), usize>,
    // The way above each, whose number is one more than its place here.
    above: Vec<usize>,
}

// The way that all begin with.
const NONE: usize = 0;

impl Ways {
    // The number of the way that goes on from one above, on an interface.
    fn number(&mut self, above: usize, index: i32, step: u32) -> usize {
        let next = self.above.len() + 1;
        let number = *self.numbers.entry((above, index, step)).or_insert(next);
        if number == next {
            self.above.push(above);
        }
        number
    }

    // The way to the qdisc above.
    fn above(&self, number: usize) -> Option<usize> {
        self.above.get(number.checked_sub(1)?).copied().filter(|above| *above != NONE)
    }

    // The dump of each qdisc that has a handle, by its way. No qdisc is below itself, but a save that was edited may say so: that one has no way.
    fn of(&mut self, dumps: &[Vec<u8>]) -> BTreeMap<usize, usize> {
        let qdiscs = dumps.iter().enumerate().filter(|(_, dump)| type_of(dump) == RTM_NEWQDISC);
        let own: BTreeMap<(i32, u32), (u32, usize)> = qdiscs
            .filter_map(|(place, dump)| tcmsg_of(dump).map(|it| ((it.index, it.handle >> 16), (it.parent, place))))
            .filter(|((_, major), _)| *major != 0)
            .collect();
        let mut found: BTreeMap<(i32, u32), Option<usize>> = BTreeMap::new();
        for key in own.keys() {
            self.find(*key, &own, &mut found);
        }
        own.iter().filter_map(|(key, (_, place))| Some(((*found.get(key)?)?, *place))).collect()
    }

    // Finds the way to a qdisc, by its interface and major number, and those to all that are above it.
    fn find(
        &mut self,
        key: (i32, u32),
        own: &BTreeMap<(i32, u32), (u32, usize)>,
        found: &mut BTreeMap<(i32, u32), Option<usize>>,
    ) {
        let (mut steps, mut at) = (Vec::new(), key);
        let mut way = loop {
            match (found.get(&at), own.get(&at)) {
                (Some(way), _) => break *way,
                (None, None) => break Some(NONE),
                (None, Some(_)) if steps.len() > own.len() => break None,
                (None, Some((parent, _))) => {
                    let is_top = *parent >= TOPS;
                    steps.push((at, if is_top { *parent } else { *parent & 0xFFFF }));
                    at.1 = if is_top { 0 } else { *parent >> 16 };
                }
            }
        };
        for (key, step) in steps.into_iter().rev() {
            way = way.map(|above| self.number(above, key.0, step));
            found.insert(key, way);
        }
    }
}

#[cfg(test)]
mod tests {
    use super::super::plan::plan;
    use super::*;
    use crate::netlink::message::{Tcmsg, tc_request};

    fn qdisc(handle: u32, parent: u32, name: &str) -> Vec<u8> {
        let mut message = tc_request(RTM_NEWQDISC, 0, Tcmsg { index: 7, handle, parent, info: 0 });
        put(&mut message, 1, &[name.as_bytes(), &[0]].concat());
        let len = message.len() as u32;
        message[..4].copy_from_slice(&len.to_ne_bytes());
        message
    }

    fn sent(now: &[Vec<u8>], wanted: &[Vec<u8>]) -> Vec<(u16, u32)> {
        let steps = plan(now, wanted, |_| false).expect("a plan");
        steps.iter().map(|step| (type_of(step), tcmsg_of(step).expect("a header").parent)).collect()
    }

    #[test]
    fn what_would_be_left_without_a_qdisc_is_made_anew() {
        const ROOT: u32 = 0xFFFF_FFFF;
        let of = |kind, child: Option<&str>| {
            [vec![qdisc(0x1_0000, ROOT, kind)], child.map(|name| qdisc(0x2_0000, 0x1_0001, name)).into_iter().collect()]
                .concat()
        };
        for kind in ["tbf", "sfb", "multiq", "mq", "mqprio", "taprio"] {
            assert_eq!(sent(&of(kind, Some("sfq")), &of(kind, None)), [(37, ROOT), (36, ROOT)], "{kind}");
            assert!(sent(&of(kind, Some("sfq")), &of(kind, Some("sfq"))).is_empty(), "{kind}");
            assert_eq!(
                sent(&of(kind, Some("sfq")), &of(kind, Some("drr"))),
                [(37, 0x1_0001), (36, 0x1_0001)],
                "{kind}"
            );
        }
        assert_eq!(sent(&of("prio", Some("sfq")), &of("prio", None)), [(37, 0x1_0001)]);
        // The handles that the kernel chose differ.
        let (now, wanted) = (qdisc(0x8001_0000, ROOT, "tbf"), qdisc(0x8005_0000, ROOT, "tbf"));
        let below = |handle: u32| qdisc(0x2_0000, handle | 1, "sfq");
        assert!(sent(&[now.clone(), below(0x8001_0000)], &[wanted.clone(), below(0x8005_0000)]).is_empty());
        assert_eq!(sent(&[now, below(0x8001_0000)], &[wanted]), [(37, ROOT), (36, ROOT)]);
    }

    #[test]
    fn ways_are_the_same_whatever_the_handles_are() {
        const ROOT: u32 = 0xFFFF_FFFF;
        let tree = |one: u32, two: u32| {
            [
                qdisc(one << 16, ROOT, "prio"),
                qdisc(two << 16, one << 16 | 2, "prio"),
                qdisc(0x77_0000, two << 16 | 1, "sfq"),
            ]
        };
        let mut ways = Ways::default();
        let (some, other) = (ways.of(&tree(1, 2)), ways.of(&tree(0x8005, 0x8001)));
        assert_eq!(some, other);
        assert_eq!((some.len(), ways.above.len()), (3, 3));
        // one is below the other, and that below it; and one below these
        let circle =
            [qdisc(0x1_0000, 0x2_0001, "prio"), qdisc(0x2_0000, 0x1_0001, "prio"), qdisc(0x3_0000, 0x2_0002, "prio")];
        assert!(ways.of(&circle).is_empty());
        // where the parent is missing
        assert_eq!(ways.of(&[qdisc(0x2_0000, 0x1_0001, "prio")]).len(), 1);
    }

    #[test]
    fn a_deep_tree_takes_memory_by_its_size() {
        let parent = |n: u32| if n == 1 { u32::MAX } else { (n - 1) << 16 | 1 };
        let deep: Vec<Vec<u8>> = (1..=0x7000).map(|n| qdisc(n << 16, parent(n), "prio")).collect();
        let mut ways = Ways::default();
        assert_eq!((ways.of(&deep).len(), ways.above.len()), (0x7000, 0x7000));
    }
}
