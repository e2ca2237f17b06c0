//! The order of filters within a priority, of the kinds where packets meet them in the order in which they were made.

use crate::restore::{Object, kind_of_message};
use crate::tc_changes::Key;
use crate::tc_messages::TcMessage;
use std::collections::{HashMap, HashSet};

/// Where the kernel puts a new filter of a priority. A change leaves a filter where it is.
#[derive(Clone, Copy, PartialEq, Eq, Debug)]
pub(crate) enum NewIs {
    /// Before all others: basic and bpf.
    First,
    /// After all others: flow.
    Last,
}

impl NewIs {
    /// Where a new filter of this dump's kind is put; `None` of a kind whose filters are found otherwise. u32 sorts keys by their handles, flower has
    /// one for each key, and the others have one for each handle.
    pub(crate) fn of(object: Object, message: &TcMessage) -> Option<NewIs> {
        match (object, kind_of_message(message)) {
            (Object::Filter, "basic" | "bpf") => Some(NewIs::First),
            (Object::Filter, "flow") => Some(NewIs::Last),
            _ => None,
        }
    }
}

/// The filters of a priority, in the order in which packets meet them.
#[derive(Clone, Debug)]
pub(crate) struct InOrder {
    pub(crate) new_is: NewIs,
    pub(crate) filters: Vec<Key>,
}

/// Those of priorities where the order counts, by the key of the priority.
pub(crate) type Orders = HashMap<Key, InOrder>;

/// Of the filters of a priority that can stay those that may: deletes of the others and makes of all that is wanted and doesn't stay lead to the wanted
/// order. It is the longest part that ends what is wanted (if new ones are the last: that begins it) and is in the order that it has.
pub(crate) fn kept_in_order<K: Copy + Eq>(old: &[K], new: &[K], stays: impl Fn(&K) -> bool, new_is: NewIs) -> Vec<K> {
    let mut there: Vec<K> = old.iter().copied().filter(stays).collect();
    let mut wanted = new.to_vec();
    if new_is == NewIs::First {
        there.reverse();
        wanted.reverse();
    }
    let mut rest = there.into_iter();
    wanted.into_iter().take_while(|filter| rest.any(|it| it == *filter)).collect()
}

/// The filters that stay, and that would come in another order than is wanted.
pub(crate) fn displaced(there: &Orders, wanted: &Orders, stays: impl Fn(&Key) -> bool) -> HashSet<Key> {
    let mut found = HashSet::new();
    for (priority, InOrder { new_is, filters }) in there {
        let Some(new) = wanted.get(priority) else { continue };
        let kept: HashSet<Key> = kept_in_order(filters, &new.filters, &stays, *new_is).into_iter().collect();
        found.extend(filters.iter().filter(|key| stays(key) && !kept.contains(key)));
    }
    found
}

#[cfg(test)]
mod tests {
    use super::*;

    // What a kernel has, if what isn't kept is deleted, and what is wanted and isn't kept is made in the order of the plan.
    fn end(old: &[u8], new: &[u8], kept: &[u8], new_is: NewIs) -> Vec<u8> {
        let mut there: Vec<u8> = old.iter().copied().filter(|it| kept.contains(it)).collect();
        let made: Vec<u8> = new.iter().copied().filter(|it| !kept.contains(it)).collect();
        match new_is {
            NewIs::First => made.into_iter().rev().for_each(|it| there.insert(0, it)),
            NewIs::Last => there.extend(made),
        }
        there
    }

    #[test]
    fn the_longest_part_that_is_in_order_stays() {
        let all = |_: &u8| true;
        // bpf: what was made last is the first; the end of what is wanted can stay
        assert_eq!(kept_in_order(&[2, 1], &[2, 3], all, NewIs::First), [0_u8; 0]);
        assert_eq!(kept_in_order(&[1, 2], &[3, 1, 2], all, NewIs::First), [2, 1]);
        assert_eq!(kept_in_order(&[1], &[1, 2], all, NewIs::First), [0_u8; 0]);
        assert_eq!(kept_in_order(&[3, 2, 1], &[3, 1], all, NewIs::First), [1, 3]);
        // flow: the beginning can
        assert_eq!(kept_in_order(&[1, 3], &[2, 1, 3], all, NewIs::Last), [0_u8; 0]);
        assert_eq!(kept_in_order(&[1, 3], &[1, 3, 2], all, NewIs::Last), [1, 3]);
        assert_eq!(kept_in_order(&[1, 2, 3], &[1, 3], |it| *it != 1, NewIs::Last), [0_u8; 0]);
    }

    // All pairs of orders of up to four filters, with all sets of those that can stay.
    #[test]
    fn what_stays_leads_to_the_order_that_is_wanted_and_no_more_could() {
        let orders = orders_of(&[0, 1, 2, 3]);
        for (old, new) in orders.iter().flat_map(|old| orders.iter().map(move |new| (old, new))) {
            for (mask, new_is) in (0_u8..16).flat_map(|mask| [(mask, NewIs::First), (mask, NewIs::Last)]) {
                let is_in = |mask: u8, it: u8| mask >> it & 1 == 1;
                let stays = |it: &u8| is_in(mask, *it) && new.contains(it);
                let kept = kept_in_order(old, new, stays, new_is);
                assert_eq!(end(old, new, &kept, new_is), *new, "{old:?} {new:?} {mask:b} {new_is:?}");
                let could = |some: &u8| {
                    let kept: Vec<u8> = old.iter().copied().filter(|it| stays(it) && is_in(*some, *it)).collect();
                    (end(old, new, &kept, new_is) == *new).then_some(kept.len())
                };
                assert_eq!(
                    (0_u8..16).filter_map(|some| could(&some)).max(),
                    Some(kept.len()),
                    "{old:?} {new:?} {mask:b}"
                );
            }
        }
    }

    fn orders_of(all: &[u8]) -> Vec<Vec<u8>> {
        let mut found = vec![Vec::new()];
        for first in all {
            let others: Vec<u8> = all.iter().copied().filter(|it| it != first).collect();
            found.extend(orders_of(&others).into_iter().map(|rest| [vec![*first], rest].concat()));
        }
        found
    }
}
