//! The order of a tree: each object after the one that it is below, with what is below that.

use super::compare::key_of;
use super::messages::{as_new, chain_of, type_of};
use crate::netlink::message::{
    MAGIC_BLOCK, RTM_NEWCHAIN, RTM_NEWQDISC, RTM_NEWTCLASS, RTM_NEWTFILTER, is_action, tcmsg_of,
};
use std::collections::HashMap;

/// How deep trees are looked at.
const DEPTH: usize = 64;

/// The parents of root qdiscs and of ingress and clsact, and all above.
const TOPS: u32 = 0xFFFF_FFF1;

/// Where an object is in a tree.
#[derive(Clone, PartialEq, Eq, PartialOrd, Ord, Debug)]
pub(crate) struct Way {
    // Actions, which belong to no interface, come first, and blocks last.
    rank: u8,
    index: i32,
    // The handles from the root to it.
    handles: Vec<u32>,
    // An object itself, what filters it, and what is below it.
    part: u8,
    // Of a filter or a chain the chain, and the priority.
    chain: u32,
    priority: u32,
}

/// The trees of dumps: what is above each qdisc and class.
pub(crate) struct Trees(HashMap<(i32, u32), u32>);

impl Trees {
    pub(crate) fn of<'a>(dumps: impl Iterator<Item = &'a Vec<u8>>) -> Trees {
        let nodes = dumps
            .filter(|dump| matches!(type_of(dump), RTM_NEWQDISC | RTM_NEWTCLASS))
            .filter_map(|dump| tcmsg_of(dump));
        Trees(nodes.filter(|it| it.handle != 0).map(|it| ((it.index, it.handle), it.parent)).collect())
    }

    /// Where the object of a request or a dump is.
    pub(crate) fn way(&self, message: &[u8]) -> Way {
        let message = &as_new(message);
        let none = Way { rank: 0, index: 0, handles: Vec::new(), part: 0, chain: 0, priority: 0 };
        let Some(header) = tcmsg_of(message).filter(|_| !is_action(type_of(message)) && key_of(message).is_some())
        else {
            return none;
        };
        let rank = if header.index == MAGIC_BLOCK { 2 } else { 1 };
        let of = |handles, part, chain, priority| Way { rank, index: header.index, handles, part, chain, priority };
        match type_of(message) {
            // A request to delete a class has no parent.
            RTM_NEWQDISC | RTM_NEWTCLASS => of(self.handles(header.index, header.handle), 0, 0, 0),
            RTM_NEWCHAIN => of(self.handles(header.index, header.parent), 1, chain_of(message), 0),
            RTM_NEWTFILTER => {
                of(self.handles(header.index, header.parent), 1, chain_of(message), 1 + (header.info >> 16))
            }
            _ => none,
        }
    }

    // The handles from the root to this one. A save that was edited may have a circle.
    fn handles(&self, index: i32, handle: u32) -> Vec<u32> {
        let (mut handles, mut at) = (Vec::new(), handle);
        while handles.len() < DEPTH {
            handles.push(at);
            let qdisc = at & 0xFFFF_0000;
            // What is at the root, or at ingress, is below nothing; so is a class, but for its qdisc.
            at = match self.0.get(&(index, at)).copied() {
                Some(above) if above < TOPS => above,
                _ if at != qdisc => qdisc,
                _ => break,
            };
        }
        handles.reverse();
        handles
    }
}

#[cfg(test)]
mod tests {
    use super::*;
    use crate::netlink::message::{Tcmsg, tc_request};

    fn of(kind: u16, handle: u32, parent: u32, info: u32) -> Vec<u8> {
        tc_request(kind, 0, Tcmsg { index: 7, handle, parent, info })
    }

    #[test]
    fn each_object_comes_after_what_it_is_below() {
        const ROOT: u32 = u32::MAX;
        let tree = [
            of(RTM_NEWQDISC, 0x1_0000, ROOT, 0),
            of(RTM_NEWTFILTER, 1, 0x1_0000, 0x1_0008),
            of(RTM_NEWTFILTER, 1, 0x1_0000, 0x2_0008),
            of(RTM_NEWTCLASS, 0x1_0001, ROOT, 0),
            of(RTM_NEWTCLASS, 0x1_0010, 0x1_0001, 0),
            of(RTM_NEWQDISC, 0x3_0000, 0x1_0010, 0),
            of(RTM_NEWQDISC, 0x4_0000, 0x3_0001, 0),
            of(RTM_NEWTCLASS, 0x1_0020, 0x1_0001, 0),
            of(RTM_NEWQDISC, 0x2_0000, 0x1_0020, 0),
            of(RTM_NEWTCLASS, 0x1_0002, ROOT, 0),
            of(RTM_NEWQDISC, 0xFFFF_0000, 0xFFFF_FFF1, 0),
            of(RTM_NEWTFILTER, 1, 0xFFFF_FFF2, 0x1_0008),
        ];
        let trees = Trees::of(tree.iter());
        let mut sorted = tree.to_vec();
        sorted.reverse();
        sorted.sort_by_cached_key(|it| trees.way(it));
        assert_eq!(sorted, tree);
        let deleted = of(RTM_NEWTCLASS + 1, 0x1_0010, 0, 0);
        assert_eq!(trees.way(&deleted), trees.way(&tree[4]), "without a parent");
    }

    #[test]
    fn a_circle_ends() {
        let circle = [of(RTM_NEWTCLASS, 0x1_0001, 0x1_0002, 0), of(RTM_NEWTCLASS, 0x1_0002, 0x1_0001, 0)];
        let way = Trees::of(circle.iter()).way(&circle[0]);
        assert_eq!(way.handles.len(), DEPTH);
    }
}
