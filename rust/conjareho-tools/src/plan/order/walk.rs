//! Steps in the order of a depth-first walk.

use crate::user::prelude::*;

use crate::plan::order::order::Step;
use std::collections::HashMap;
use std::hash::Hash;

// Sorts steps by a depth-first walk: each after those that it depends on, except in circles.
pub(crate) fn depth_first<T, K: Eq + Hash + Copy>(steps: Vec<Step<T, K>>) -> Result<Vec<Step<T, K>>, AllocError> {
    let numbers = numbers_of(&steps)?;
    let mut numbered = with_numbers(&numbers, steps)?;
    numbered.sort_by_key(|pair| pair.0);
    let made = without_numbers(numbered)?;
    Ok(made)
}

fn with_numbers<T, K>(numbers: &[usize], steps: Vec<Step<T, K>>) -> Result<Vec<(usize, Step<T, K>)>, AllocError> {
    let mut made = fallible::with_capacity(steps.len())?;
    for step in steps {
        let number = numbers.get(made.len()).copied().unwrap_or(usize::MAX);
        made.try_push((number, step))?;
    }
    Ok(made)
}

fn without_numbers<T, K>(numbered: Vec<(usize, Step<T, K>)>) -> Result<Vec<Step<T, K>>, AllocError> {
    let mut made = fallible::with_capacity(numbered.len())?;
    for (_, step) in numbered {
        made.try_push(step)?;
    }
    Ok(made)
}

// A step that provides a key, and the index in `all` of the previous provider of this key.
#[derive(Clone, Copy)]
struct Provider {
    place: usize,
    before: Option<usize>,
}

// The providers of each key, linked from the last to the first.
struct Providers<K: Eq + Hash> {
    last: HashMap<K, usize>,
    all: Vec<Provider>,
}

fn providers_of<T, K: Eq + Hash + Copy>(steps: &[Step<T, K>]) -> Result<Providers<K>, AllocError> {
    let mut last = HashMap::new();
    let mut all = Vec::new();
    for (place, step) in steps.iter().enumerate() {
        for key in &step.provides {
            let before = last.insert(*key, all.len());
            all.try_push(Provider { place, before })?;
        }
    }
    Ok(Providers { last, all })
}

// A visit of a step; its needs before `need` have been followed.
#[derive(Clone, Copy)]
struct Visit {
    place: usize,
    need: usize,
}

// The state of a walk.
struct Walk<K: Eq + Hash> {
    providers: Providers<K>,
    is_begun: Vec<bool>,
    numbers: Vec<usize>,
    next: usize,
    visits: Vec<Visit>,
}

// Numbers the steps: those that a step depends on have smaller numbers, except in circles.
fn numbers_of<T, K: Eq + Hash + Copy>(steps: &[Step<T, K>]) -> Result<Vec<usize>, AllocError> {
    let mut walk = Walk {
        providers: providers_of(steps)?,
        is_begun: fallible::filled(false, steps.len())?,
        numbers: fallible::filled(0, steps.len())?,
        next: 0,
        visits: Vec::new(),
    };
    for place in 0..steps.len() {
        walk.visits.try_push(Visit { place, need: 0 })?;
        for _ in 0..u64::MAX {
            match walk.visits.pop() {
                Some(visit) => walk.go_on(steps, visit)?,
                None => break,
            }
        }
    }
    let Walk { numbers, .. } = walk;
    Ok(numbers)
}

impl<K: Eq + Hash + Copy> Walk<K> {
    // Follows the next need of a step, or numbers the step if it has no more needs.
    fn go_on<T>(&mut self, steps: &[Step<T, K>], visit: Visit) -> Result<(), AllocError> {
        let Visit { place, need } = visit;
        if need == 0 && self.begins(place) {
            return Ok(());
        }
        match steps.get(place) {
            Some(step) => match step.needs.get(need) {
                Some(key) => {
                    self.visits.try_push(Visit { place, need: need.saturating_add(1) })?;
                    self.follow(*key)
                }
                None => {
                    self.number(place);
                    Ok(())
                }
            },
            None => Ok(()),
        }
    }

    // Marks a step as begun; true if it was already.
    fn begins(&mut self, place: usize) -> bool {
        match self.is_begun.get_mut(place) {
            Some(is_begun) => {
                let before = *is_begun;
                *is_begun = true;
                before
            }
            None => true,
        }
    }

    fn number(&mut self, place: usize) {
        if let Some(number) = self.numbers.get_mut(place) {
            *number = self.next;
            self.next = self.next.saturating_add(1);
        }
    }

    // Visits the providers of a key next, the first of them first. Each key is followed once.
    fn follow(&mut self, key: K) -> Result<(), AllocError> {
        let mut at = self.providers.last.remove(&key);
        for _ in 0..self.providers.all.len() {
            let provider = match at {
                Some(at) => match self.providers.all.get(at) {
                    Some(provider) => *provider,
                    None => return Ok(()),
                },
                None => return Ok(()),
            };
            self.visits.try_push(Visit { place: provider.place, need: 0 })?;
            at = provider.before;
        }
        Ok(())
    }
}
