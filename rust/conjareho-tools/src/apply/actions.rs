//! Actions, which belong to no interface: who holds them, and which of them stay where interfaces are cleared.

use super::compare::{Key, key_of};
use super::messages::{Action, actions_of, all_actions, deletes, listed_in, replaces, type_of};
use crate::netlink::message::{MAGIC_BLOCK, RTM_NEWTFILTER, is_action, tcmsg_of};
use std::collections::{BTreeMap, BTreeSet};

/// The actions of dumps, and how often the filters of these dumps hold each.
#[derive(Debug)]
pub(crate) struct Actions {
    all: Vec<Action>,
    own: BTreeMap<Key, u32>,
}

impl Actions {
    pub(crate) fn of(dumps: &[Vec<u8>]) -> Actions {
        let of_actions = dumps.iter().filter(|dump| is_action(type_of(dump)));
        Actions { all: of_actions.flat_map(|dump| listed_in(dump)).collect(), own: held_in(dumps) }
    }

    /// All of them, each as a dump of its own of an action that nothing holds.
    pub(crate) fn alone(&self) -> Vec<Vec<u8>> {
        self.all.iter().filter_map(Action::unheld).collect()
    }

    /// The same without those that only filters of these dumps hold: with these filters they go. The filters are there, since what else they hold
    /// is held by no others.
    pub(crate) fn staying(&self) -> Vec<Vec<u8>> {
        let goes = |action: &&Action| {
            let own = self.own_of(&action.key());
            own != 0 && action.references == own && action.filters == own
        };
        self.all.iter().filter(|action| !goes(action)).filter_map(Action::unheld).collect()
    }

    /// Those that these requests change although filters of other interfaces hold them too.
    pub(crate) fn of_others(&self, steps: &[Vec<u8>]) -> Vec<Key> {
        let changes = steps.iter().filter(|step| is_action(type_of(step)) && replaces(step));
        let changed: BTreeSet<Key> = changes.flat_map(|step| actions_of(step)).map(|action| action.key()).collect();
        let is_others = |action: &&Action| action.filters != self.own_of(&action.key());
        self.all.iter().filter(is_others).map(Action::key).filter(|key| changed.contains(key)).collect()
    }

    /// Those that these requests make although a filter that isn't of these dumps has an action of its own under the number.
    pub(crate) fn taken(&self, steps: &[Vec<u8>]) -> Vec<Key> {
        let makes = |step: &&Vec<u8>| is_action(type_of(step)) && !replaces(step) && !deletes(step);
        let made: BTreeSet<Key> =
            steps.iter().filter(makes).flat_map(|step| actions_of(step)).map(|action| action.key()).collect();
        let is_taken = |action: &&Action| action.filters > self.own_of(&action.key());
        self.all.iter().filter(is_taken).map(Action::key).filter(|key| made.contains(key)).collect()
    }

    /// Those that only filters hold, of which not all are among these: others hold them, or deleted ones that live on for a time.
    pub(crate) fn unheld(&self) -> Vec<Key> {
        let is_unheld =
            |action: &&Action| action.references == action.filters && action.filters > self.own_of(&action.key());
        self.all.iter().filter(is_unheld).map(Action::key).collect()
    }

    fn own_of(&self, key: &Key) -> u32 {
        self.own.get(key).copied().unwrap_or_default()
    }
}

// How often filters hold each action. Those of a block are dumped for each of its interfaces, and count once.
fn held_in(dumps: &[Vec<u8>]) -> BTreeMap<Key, u32> {
    let mut held = BTreeMap::new();
    let mut seen = BTreeSet::new();
    for dump in dumps.iter().filter(|dump| type_of(dump) == RTM_NEWTFILTER) {
        let is_shared = tcmsg_of(dump).is_some_and(|header| header.index == MAGIC_BLOCK);
        if is_shared && key_of(dump).is_some_and(|key| !seen.insert(key)) {
            continue;
        }
        for action in all_actions(dump).into_iter().filter_map(Action::of) {
            *held.entry(action.key()).or_default() += 1;
        }
    }
    held
}

#[cfg(test)]
mod tests {
    use super::*;
    use crate::netlink::attributes::put;
    use crate::netlink::message::{RTM_NEWACTION, Tcmsg, request, tc_request};

    // A list of mirred actions: index, references and filters of each.
    fn list(actions: &[[u32; 3]]) -> Vec<u8> {
        let mut list = Vec::new();
        for (number, [index, references, filters]) in actions.iter().enumerate() {
            let parameters = [*index, 0, 3, *references, *filters, 1, 8].map(u32::to_ne_bytes).concat();
            let (mut options, mut action) = (Vec::new(), Vec::new());
            put(&mut options, 2, &parameters);
            put(&mut action, 1, b"mirred\0");
            put(&mut action, 2, &options);
            put(&mut list, number as u16 + 1, &action);
        }
        list
    }

    fn of_actions(actions: &[[u32; 3]], flags: u16) -> Vec<u8> {
        let mut body = vec![0; 4];
        put(&mut body, 1, &list(actions));
        request(RTM_NEWACTION, flags, &body)
    }

    fn filter(index: i32, handle: u32, actions: &[[u32; 3]]) -> Vec<u8> {
        let header = Tcmsg { index, handle, parent: 5, info: 0x0001_0008 };
        let mut body = tc_request(0, 0, header)[16..].to_vec();
        let mut options = Vec::new();
        put(&mut options, 2, &list(actions));
        put(&mut body, 1, b"matchall\0");
        put(&mut body, 2, &options);
        request(RTM_NEWTFILTER, 0, &body)
    }

    fn numbers(messages: &[Vec<u8>]) -> Vec<u32> {
        messages.iter().flat_map(|it| actions_of(it)).map(|action| action.index).collect()
    }

    #[test]
    fn what_only_filters_hold_goes_with_them() {
        // alone; of one filter; of two; of two and standalone; of two and of another interface's
        let all = [[1, 1, 0], [2, 1, 1], [3, 2, 2], [4, 3, 2], [5, 3, 3]];
        let dumps = [of_actions(&all, 0), filter(7, 1, &all[1..]), filter(7, 2, &all[2..])];
        let actions = Actions::of(&dumps);
        assert_eq!(numbers(&actions.staying()), [1, 4, 5]);
        assert_eq!(numbers(&actions.alone()), [1, 2, 3, 4, 5]);
        assert_eq!(actions.of_others(&[of_actions(&[[4, 0, 0], [5, 0, 0]], 0x505)]).len(), 1);
        assert_eq!(actions.of_others(&[of_actions(&[[5, 0, 0]], 0x605)]), [], "it is made");
        assert_eq!(actions.taken(&[of_actions(&[[4, 0, 0], [5, 0, 0]], 0x605)]).len(), 1);
        assert_eq!(actions.taken(&[of_actions(&[[5, 0, 0]], 0x505)]), [], "it is changed");
        let unheld: Vec<String> = actions.unheld().iter().map(ToString::to_string).collect();
        assert_eq!(unheld, ["action mirred index 5"]);
    }

    #[test]
    fn filters_of_a_block_count_once() {
        let one = [[2, 1, 1]];
        let dumps = [of_actions(&one, 0), filter(MAGIC_BLOCK, 1, &one), filter(MAGIC_BLOCK, 1, &one)];
        assert_eq!(numbers(&Actions::of(&dumps).staying()), [0_u32; 0]);
        assert_eq!(numbers(&Actions::of(&dumps[..1]).staying()), [2]);
    }
}
