//! Actions of which a filter of another interface would hear, since it uses them too.

use super::actions::Actions;
use super::arguments::Arguments;
use super::compare::Key;
use super::messages::{Action, all_actions, type_of};
use super::world::{Place, World};
use crate::netlink::message::RTM_NEWTFILTER;
use crate::netlink::{Devices, Fault, Transport};
use std::collections::{BTreeMap, BTreeSet};

/// How many filters of an action are named.
const MOST_NAMED: usize = 5;

/// Actions, each with the filters of other interfaces that use it.
pub(crate) type Holders = BTreeMap<Key, BTreeSet<String>>;

/// What requests do to actions that others use.
#[derive(Debug)]
pub(crate) struct Touched {
    /// Those that they change.
    pub(crate) changed: Vec<Key>,
    /// Those that they make, although a filter has one of its own under the number.
    pub(crate) taken: Vec<Key>,
}

impl Touched {
    pub(crate) fn by(steps: &[Vec<u8>], actions: &Actions) -> Touched {
        Touched { changed: actions.of_others(steps), taken: actions.taken(steps) }
    }

    /// True if nothing is sent because of them.
    pub(crate) fn is_refused(&self, arguments: &Arguments) -> bool {
        !self.taken.is_empty() || !self.changed.is_empty() && !arguments.replaces_actions
    }

    /// Those who hold them, on other interfaces than these.
    pub(crate) fn holders<T: Transport, L: Transport>(
        &self,
        world: &mut World<'_, T, L>,
        devices: &Devices,
        own: &[u32],
    ) -> Result<Holders, Fault> {
        let mut holders: Holders =
            self.changed.iter().chain(&self.taken).map(|key| (key.clone(), BTreeSet::new())).collect();
        if holders.is_empty() {
            return Ok(holders);
        }
        let others: Vec<u32> = devices.indices().into_iter().filter(|index| !own.contains(index)).collect();
        let place = Place { devices: devices.iter().cloned().collect(), blocks: Vec::new() };
        for filter in world.dump(&others)?.messages.iter().filter(|it| type_of(it) == RTM_NEWTFILTER) {
            for action in all_actions(filter).into_iter().filter_map(Action::of) {
                if let Some(filters) = holders.get_mut(&action.key()) {
                    filters.insert(place.what_of(filter));
                }
            }
        }
        Ok(holders)
    }

    /// Why nothing is sent, for each of them.
    pub(crate) fn faults(&self, arguments: &Arguments, holders: &Holders) -> Vec<(Key, String)> {
        let changed = self.changed.iter().filter(|_| !arguments.replaces_actions).map(|key| {
            let text = format!(
                "the {key} is there and differs, and others hold it{}; --replace-actions changes it for them too",
                listed(holders, key)
            );
            (key.clone(), text)
        });
        let taken = self.taken.iter().map(|key| {
            let text = format!("the number of the {key} is that of a filter's own action{}", listed(holders, key));
            (key.clone(), text)
        });
        changed.chain(taken).collect()
    }

    /// What changes for others.
    pub(crate) fn warnings(&self, holders: &Holders) -> Vec<String> {
        let has_holders = |key: &&Key| holders.get(*key).is_some_and(|filters| !filters.is_empty());
        let said = |key| format!("the {key} changes for others too{}", listed(holders, key));
        self.changed.iter().filter(has_holders).map(said).collect()
    }
}

fn listed(holders: &Holders, key: &Key) -> String {
    let Some(filters) = holders.get(key).filter(|filters| !filters.is_empty()) else { return String::new() };
    let mut names: Vec<String> = filters.iter().take(MOST_NAMED).cloned().collect();
    if filters.len() > MOST_NAMED {
        names.push(format!("and {} more", filters.len() - MOST_NAMED));
    }
    format!(": {}", names.join(", "))
}
