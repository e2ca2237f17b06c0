//! What goes back after another program's change: each object that is as it was left, and none that isn't.

use super::compare::{Key, key_of};
use super::messages::type_of;
use super::requests::dumps_of;
use crate::make::program::plans::state_of_dumps;
use crate::netlink::message::RTM_NEWCHAIN;
use crate::plan::objects::{KindRules, State};
use crate::streams::Stop;
use crate::tc_changes::{self, Object, Rules as _};
use std::collections::{BTreeSet, HashMap, HashSet};

/// What is to be there.
#[derive(Debug, Default)]
pub(crate) struct Merged {
    /// As dumps: those of before, and of now what stays.
    pub(crate) dumps: Vec<Vec<u8>>,
    /// What another made or changed, which stays.
    pub(crate) theirs: Vec<Key>,
    /// How many objects another deleted, which don't come back.
    pub(crate) gone: usize,
}

/// What is to be there after another's change. What is as it was left goes back to what it was before. What is otherwise now, or new, stays as it is, with
/// what it needs; what was deleted stays deleted, with what needs it. Of actions, which belong to no interface, those of before are to be there. `None` if one
/// of the three shows no state.
pub(crate) fn merged(before: &[Vec<u8>], left: &[Vec<u8>], now: &[Vec<u8>]) -> Result<Option<Merged>, Stop> {
    let Some(is) = state_of_dumps(None, dumps_of(now))? else { return Ok(None) };
    let (Some(left), Some(was)) =
        (state_of_dumps(Some(&is), dumps_of(left))?, state_of_dumps(Some(&is), dumps_of(before))?)
    else {
        return Ok(None);
    };
    let three = Three { was: Side::of(&was), left: Side::of(&left), is: Side::of(&is) };
    let theirs = three.theirs();
    let staying = three.with_needs(&theirs);
    let back = three.back(&staying);
    let mut dumps = three.was.dumps(before, &back);
    // Of one object there is one dump: the priority of a filter and the like come with each.
    let known: BTreeSet<Key> = dumps.iter().filter_map(|dump| key_of(dump)).collect();
    let more = three.is.dumps(now, &staying);
    dumps.extend(
        more.into_iter().filter(|dump| key_of(dump).is_some_and(|key| !key.is_action() && !known.contains(&key))),
    );
    let named: BTreeSet<Key> = three.is.dumps(now, &theirs).iter().filter_map(|dump| key_of(dump)).collect();
    let gone = three.left.objects.keys().filter(|key| is_own(key) && !three.is.objects.contains_key(*key)).count();
    Ok(Some(Merged { dumps, theirs: named.into_iter().filter(Key::has_handle).collect(), gone }))
}

// True for what a request makes, and belongs to an interface or a block.
fn is_own(key: &tc_changes::Key) -> bool {
    use tc_changes::Key;
    matches!(key, Key::Place { .. } | Key::Class { .. } | Key::Chain { .. } | Key::Filter { .. })
}

// A state by keys.
struct Side<'s> {
    state: &'s State,
    objects: HashMap<tc_changes::Key, &'s Object>,
}

impl<'s> Side<'s> {
    fn of(state: &'s State) -> Side<'s> {
        Side { state, objects: state.objects.iter().map(|object| (object.key, object)).collect() }
    }

    // The dumps of these objects, and those that show no object of their own, such as the root tables of u32.
    fn dumps(&self, dumps: &[Vec<u8>], keys: &HashSet<tc_changes::Key>) -> Vec<Vec<u8>> {
        let origins = self.state.objects.iter().zip(&self.state.origins);
        let own =
            origins.filter(|(object, _)| is_own(&object.key) || matches!(object.key, tc_changes::Key::Action { .. }));
        let (wanted, other): (Vec<_>, Vec<_>) = own.partition(|(object, _)| {
            keys.contains(&object.key) || matches!(object.key, tc_changes::Key::Action { .. })
        });
        let wanted: HashSet<usize> = wanted.into_iter().map(|(_, origin)| origin.place).collect();
        let other: HashSet<usize> = other.into_iter().map(|(_, origin)| origin.place).collect();
        // A chain that isn't an object is made by its filters.
        let is_wanted = |(place, dump): &(usize, &Vec<u8>)| {
            wanted.contains(place) || !other.contains(place) && type_of(dump) != RTM_NEWCHAIN
        };
        dumps.iter().enumerate().filter(is_wanted).map(|(_, dump)| dump.clone()).collect()
    }
}

// What there was before, what was left, and what there is now.
struct Three<'s> {
    was: Side<'s>,
    left: Side<'s>,
    is: Side<'s>,
}

impl Three<'_> {
    // What another made or changed.
    fn theirs(&self) -> HashSet<tc_changes::Key> {
        let is_theirs =
            |object: &&&Object| self.left.objects.get(&object.key).is_none_or(|left| !left.is_alike(object));
        self.is.objects.values().filter(is_theirs).map(|object| object.key).filter(is_own).collect()
    }

    // These, and what they need, if that wasn't there before, or can only be made again.
    fn with_needs(&self, theirs: &HashSet<tc_changes::Key>) -> HashSet<tc_changes::Key> {
        let mut staying = theirs.clone();
        let mut left: Vec<tc_changes::Key> = staying.iter().copied().collect();
        while let Some(object) = left.pop().and_then(|key| self.is.objects.get(&key)) {
            for key in object.under.iter().chain(&object.refers) {
                if !self.goes_back_in_place(key) && staying.insert(*key) {
                    left.push(*key);
                }
            }
        }
        staying
    }

    // True for what is the same before and now, or can be changed into what it was.
    fn goes_back_in_place(&self, key: &tc_changes::Key) -> bool {
        let both = self.was.objects.get(key).zip(self.is.objects.get(key));
        both.is_some_and(|(was, is)| was.is_alike(is) || KindRules.takes(is, was))
    }

    // What there was before and is to be there again: not what stays otherwise, what another deleted, or what needs that.
    fn back(&self, staying: &HashSet<tc_changes::Key>) -> HashSet<tc_changes::Key> {
        let mut back = HashSet::new();
        for object in &self.was.state.objects {
            let key = object.key;
            let is_deleted = self.left.objects.contains_key(&key) && !self.is.objects.contains_key(&key);
            let is_there = |need: &tc_changes::Key| back.contains(need) || staying.contains(need);
            if !staying.contains(&key) && !is_deleted && object.under.iter().chain(&object.refers).all(is_there) {
                back.insert(key);
            }
        }
        back
    }
}
