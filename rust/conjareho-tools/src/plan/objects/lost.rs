//! What a plan loses although it leaves it where it is: filters that would come in another order, and what vanishes with all that refers to it.

use crate::plan::configs::config::lose;
use crate::plan::objects::in_order::displaced;
use crate::plan::objects::objects::is_common;
use crate::plan::objects::state::State;
use crate::tc_changes::{Key, Object, Plan, Step};
use std::collections::{HashMap, HashSet};

/// The objects of now that a plan leaves and that are lost, of those that are wanted.
pub(crate) fn lost(now: &State, want: &State, plan: &Plan) -> HashSet<Key> {
    let Plan::Steps(steps) = plan else { return HashSet::new() };
    let there = There::after(now, steps);
    let mut lost = displaced(&now.orders, &want.orders, |key| there.stays(key));
    lost.extend(there.unheld(now));
    lost.extend(there.emptied(now));
    let wanted: HashSet<Key> = want.objects.iter().map(|object| object.key).collect();
    lost.retain(|key| wanted.contains(key));
    lost
}

/// The objects that go without a request of their own, of those that a plan deletes: what is weak goes with all that refers to it; what is under another
/// object that goes, goes with it, unless something that it refers to has to be deleted after it.
pub(crate) fn going_along(now: &State, steps: &[Step]) -> HashSet<Key> {
    let gone = There::after(now, steps).gone;
    let by_key: HashMap<Key, &Object> = now.objects.iter().map(|object| (object.key, object)).collect();
    let mut holders: HashMap<Key, usize> = HashMap::new();
    for key in now.objects.iter().flat_map(|object| &object.refers).filter(|key| now.weak.contains(key)) {
        let count = holders.entry(*key).or_default();
        *count = count.saturating_add(1);
    }
    let vanishes = |key: &Key| now.weak.contains(key) && gone.contains(key);
    let mut along: HashSet<Key> = HashSet::new();
    for object in now.objects.iter().filter(|object| gone.contains(&object.key)) {
        // A table of u32 is under what its priority has in common with others, and refers to the priority. It goes with the only one. Beside others it would
        // outlive it, and no dump would show it.
        let is_only = |key: &Key| object.under.contains(key) && vanishes(key) && holders.get(key) == Some(&1);
        let holds_above = |key: &Key| by_key.get(key).is_some_and(|it| it.refers.iter().any(is_only));
        let passes = |key: &Key| !gone.contains(key) || along.contains(key) || holds_above(key);
        let is_under = object.under.iter().any(|key| gone.contains(key));
        if vanishes(&object.key) || is_under && object.refers.iter().all(passes) {
            along.insert(object.key);
        }
    }
    along
}

/// Marks these objects as ones that are to be made again.
pub(crate) fn marked(objects: &mut [Object], keys: &HashSet<Key>) {
    objects.iter_mut().filter(|object| keys.contains(&object.key)).for_each(|object| lose(&mut object.config));
}

/// The same objects.
pub(crate) fn copied(objects: &[Object]) -> Vec<Object> {
    objects.iter().map(copy_of).collect()
}

/// The same object.
pub(crate) fn copy_of(object: &Object) -> Object {
    let Object { key, under, refers, config } = object;
    Object { key: *key, under: under.clone(), refers: refers.clone(), config: config.clone() }
}

// What deletes leave.
struct There {
    gone: HashSet<Key>,
}

impl There {
    // Objects come after all that they are under.
    fn after(now: &State, steps: &[Step]) -> There {
        let deleted = steps.iter().filter_map(|step| match step {
            Step::Delete(key) => Some(*key),
            Step::Make(_) | Step::Change(_) => None,
        });
        let mut gone: HashSet<Key> = deleted.collect();
        for object in &now.objects {
            if object.under.iter().any(|key| gone.contains(key)) {
                gone.insert(object.key);
            }
        }
        There { gone }
    }

    fn stays(&self, key: &Key) -> bool {
        !self.gone.contains(key)
    }

    // The weak objects to which nothing refers any more.
    fn unheld(&self, now: &State) -> Vec<Key> {
        let mut is_held: HashMap<Key, bool> = HashMap::new();
        for object in &now.objects {
            for key in object.refers.iter().filter(|key| now.weak.contains(key)) {
                *is_held.entry(*key).or_default() |= self.stays(&object.key);
            }
        }
        is_held.into_iter().filter(|(key, is_held)| !is_held && self.stays(key)).map(|(key, _)| key).collect()
    }

    // The priorities of u32 that go with their last key. Beside another priority of u32 that stays, one stays without keys. One that has only tables goes
    // with the last of these.
    fn emptied(&self, now: &State) -> Vec<Key> {
        let common_to =
            |object: &Object| object.refers.iter().chain(&object.under).copied().find(|key| is_common(*key));
        let mut alone: HashMap<Key, Vec<Key>> = HashMap::new();
        for priority in now.objects.iter().filter(|it| matches!(it.key, Key::Priority { .. }) && self.stays(&it.key)) {
            if let Some(common) = priority.refers.iter().copied().find(|key| is_common(*key)) {
                alone.entry(common).or_default().push(priority.key);
            }
        }
        alone.retain(|_, priorities| priorities.len() == 1);
        // Whether one of its keys stays, and whether a key or a table goes.
        let mut found: HashMap<Key, (bool, bool)> = HashMap::new();
        let only: HashMap<Key, Key> = alone.iter().filter_map(|(common, all)| Some((*all.first()?, *common))).collect();
        for object in now.objects.iter().filter(|it| matches!(it.key, Key::Filter { .. })) {
            let of_priority = object.under.iter().find_map(|key| only.get(key));
            if let Some(common) = of_priority.copied().or_else(|| common_to(object)) {
                let (stays, goes) = found.entry(common).or_default();
                *stays |= of_priority.is_some() && self.stays(&object.key);
                *goes |= !self.stays(&object.key);
            }
        }
        let is_emptied = |common: &Key| found.get(common) == Some(&(false, true));
        only.into_iter().filter(|(_, common)| is_emptied(common)).map(|(priority, _)| priority).collect()
    }
}
