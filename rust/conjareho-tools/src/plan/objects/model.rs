//! The model of a kernel that plans are made by: what there is after each request of a plan. Tests compare that with what a kernel has.

use crate::plan::configs::config::message_of;
use crate::plan::objects::beside::beside;
use crate::plan::objects::label::Label;
use crate::plan::objects::lost::{copied, copy_of, going_along};
use crate::plan::objects::objects::is_common;
use crate::plan::objects::state::{Sent, State};
use crate::tc_changes::{Key, Object, Rules, Step};
use crate::user::prelude::AllocError;
use std::collections::{HashMap, HashSet, VecDeque};

/// What there is after the requests so far, and the steps that are left.
pub struct Model {
    objects: HashMap<Key, Object>,
    steps: VecDeque<Step>,
    // What goes with something else.
    along: HashSet<Key>,
    // What is there only as long as something refers to it. What a plan makes by its own request has a hold of its own.
    weak: HashSet<Key>,
    // What objects are once another one is changed, by the upper half of the handle of what they are in.
    beside: Vec<((i32, u32), Object)>,
    handles: HashMap<Key, u32>,
    // The messages that are sent, where those aren't the ones that are compared: of what there is, and of what is wanted.
    sent: Sent,
    wanted: Sent,
}

impl Model {
    /// That of a plan with these steps.
    ///
    /// # Errors
    ///
    /// An [`AllocError`].
    pub(crate) fn of<R: Rules>(rules: &R, now: &State, want: &State, steps: Vec<Step>) -> Result<Model, AllocError> {
        let changed = beside(rules, now, want)?;
        let is_changed = |(was, is): &(&Object, &Object)| was.config != is.config;
        let in_qdisc = |object: &Object| match object.key {
            Key::Place { index, parent } => Some(((index, parent >> 16), copy_of(object))),
            _ => None,
        };
        let both = now.objects.iter().zip(&changed).filter(is_changed);
        Ok(Model {
            along: going_along(now, &steps),
            beside: both.filter_map(|(_, is)| in_qdisc(is)).collect(),
            objects: copied(&now.objects).into_iter().map(|object| (object.key, object)).collect(),
            weak: now.weak.clone(),
            handles: now.handles.clone(),
            sent: now.sent.clone(),
            wanted: want.sent.clone(),
            steps: steps.into(),
        })
    }

    /// Goes on to the end of the next request. The objects that the kernel makes or deletes with others have none. False if there is no more.
    pub(crate) fn pass(&mut self) -> bool {
        while let Some(step) = self.steps.pop_front() {
            match step {
                Step::Delete(key) if self.along.contains(&key) => continue,
                Step::Delete(key) => {
                    self.delete(key);
                    return true;
                }
                Step::Make(object) | Step::Change(object) if !is_asked_for(&object) => self.put(object),
                Step::Change(object) => {
                    self.put(object);
                    return true;
                }
                Step::Make(object) => {
                    // Its own request holds it.
                    self.weak.remove(&object.key);
                    self.put(object);
                    return true;
                }
            }
        }
        false
    }

    // The actions that one filter holds, once or more, and nothing else: to Linux they are the filter's own, and no objects.
    fn own_actions(&self) -> HashSet<Key> {
        let mut held: HashMap<Key, HashSet<Key>> = HashMap::new();
        for object in self.objects.values() {
            for key in object.refers.iter().filter(|key| matches!(key, Key::Action { .. }) && self.weak.contains(key)) {
                held.entry(*key).or_default().insert(object.key);
            }
        }
        held.into_iter().filter(|(_, filters)| filters.len() == 1).map(|(action, _)| action).collect()
    }

    fn put(&mut self, object: Object) {
        if let (Key::Place { index, .. }, Some(handle)) = (object.key, self.handles.get(&object.key)) {
            let own = (index, handle >> 16);
            for (_, changed) in self.beside.iter().filter(|(above, _)| *above == own) {
                if let Some(there) = self.objects.get_mut(&changed.key) {
                    there.config.clone_from(&changed.config);
                }
            }
        }
        match self.wanted.get(&object.key) {
            Some(message) => drop(self.sent.insert(object.key, message.clone())),
            None => drop(self.sent.remove(&object.key)),
        }
        if matches!(object.key, Key::Block { .. }) || is_common(object.key) {
            self.weak.insert(object.key);
        }
        self.objects.insert(object.key, object);
    }

    // With an object goes what is under it, and what is weak with all that refers to it.
    fn delete(&mut self, key: Key) {
        let mut gone = HashSet::from([key]);
        let mut before = 0;
        while before != gone.len() {
            before = gone.len();
            let held: HashSet<Key> = self
                .objects
                .values()
                .filter(|it| !gone.contains(&it.key))
                .flat_map(|it| it.refers.iter().copied())
                .collect();
            let was_held: HashSet<Key> = self
                .objects
                .values()
                .filter(|it| gone.contains(&it.key))
                .flat_map(|it| it.refers.iter().copied())
                .collect();
            let goes = |it: &&Object| {
                let is_unheld = self.weak.contains(&it.key) && was_held.contains(&it.key) && !held.contains(&it.key);
                is_unheld || it.under.iter().any(|above| gone.contains(above))
            };
            let more: Vec<Key> = self.objects.values().filter(goes).map(|it| it.key).collect();
            gone.extend(more);
        }
        self.objects.retain(|key, _| !gone.contains(key));
    }

    /// How what a kernel has differs. Actions of filters that were just deleted may be there for a time; an action that one filter is left to hold is shown as
    /// that filter's own, at once or later.
    ///
    /// # Errors
    ///
    /// An [`AllocError`].
    pub(crate) fn differences<R: Rules>(&self, rules: &R, found: &State) -> Result<Vec<String>, AllocError> {
        let objects = self.objects.values().map(copy_of).collect();
        let model = State { objects, sent: self.sent.clone(), ..State::default() };
        let there: HashMap<Key, Object> =
            beside(rules, found, &model)?.into_iter().map(|object| (object.key, object)).collect();
        let mut said = Vec::new();
        let own = self.own_actions();
        let is_own = |it: &Object| own.contains(&it.key) || it.refers.iter().any(|action| own.contains(action));
        for object in self.objects.values().filter(|object| is_asked_for(object) && !is_own(object)) {
            match there.get(&object.key) {
                None => said.push(format!("{} is gone", Label(object.key))),
                Some(it) if it.config != object.config => said.push(format!("{} is another one", Label(object.key))),
                Some(_) => {}
            }
        }
        let is_new = |it: &&Object| {
            is_asked_for(it) && !matches!(it.key, Key::Action { .. }) && !self.objects.contains_key(&it.key)
        };
        said.extend(there.values().filter(is_new).map(|it| format!("{} is new", Label(it.key))));
        said.sort();
        Ok(said)
    }
}

// True for what a request makes: not a priority, a chain that filters make, a block, or what priorities of u32 have in common.
fn is_asked_for(object: &Object) -> bool {
    !matches!(object.key, Key::Priority { .. } | Key::Block { .. }) && !message_of(&object.config).is_empty()
}
