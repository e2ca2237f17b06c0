//! Forests: each place has a parent, which is another place, or none.

use crate::user::prelude::*;

use std::collections::HashMap;

// The first place with each parent, and after each place the next one with its parent.
struct Links {
    first: HashMap<Option<usize>, usize>,
    next: Vec<Option<usize>>,
}

fn links_of(parents: &[Option<usize>]) -> Result<Links, AllocError> {
    let mut first = HashMap::new();
    let mut next = fallible::filled(None, parents.len())?;
    let mut place = parents.len();
    'down: while place > 0 {
        place -= 1;
        next[place] = first.insert(parents[place], place);
    }
    Ok(Links { first, next })
}

impl Links {
    fn first_of(&self, parent: Option<usize>) -> Option<usize> {
        self.first.get(&parent).copied()
    }

    fn next_of(&self, place: usize) -> Option<usize> {
        match self.next.get(place) {
            Some(next) => *next,
            None => None,
        }
    }
}

/// Each place with its depth, before those below it.
pub(crate) fn preorder(parents: &[Option<usize>]) -> Result<Vec<(usize, usize)>, AllocError> {
    let links = links_of(parents)?;
    let mut order = Vec::new();
    // What is left to visit: a place, the next ones with its parent, and all below them.
    let mut open = Vec::new();
    open.try_push((links.first_of(None), 0))?;
    'walk: while let Some((at, depth)) = open.pop() {
        let Some(place) = at else {
            continue;
        };
        if depth >= parents.len() {
            continue;
        }
        order.try_push((place, depth))?;
        open.try_push((links.next_of(place), depth))?;
        open.try_push((links.first_of(Some(place)), depth + 1))?;
    }
    Ok(order)
}

/// For each of so many places, if it is in an order.
pub(crate) fn reached(order: &[(usize, usize)], count: usize) -> Result<Vec<bool>, AllocError> {
    let mut flags = fallible::filled(false, count)?;
    for visit in order {
        if visit.0 < count {
            flags[visit.0] = true;
        }
    }
    Ok(flags)
}
