//! The check of requests before they are sent: each is one whole message, about nothing but what is asked for, and deletes and changes are of
//! what is there.

use super::compare::Key;
use super::messages::{actions_of, shared_by};
use super::world::{Place, Stop};
use crate::tc_check::{self, ActionName, first_outside, first_unnamed};
use std::collections::BTreeSet;

/// Requests, and the dumps that they lead from and to.
#[derive(Clone, Copy, Debug)]
pub(crate) struct Requests<'a> {
    pub(crate) now: &'a [Vec<u8>],
    pub(crate) wanted: &'a [Vec<u8>],
    pub(crate) requests: &'a [Vec<u8>],
}

/// What requests may be about.
#[derive(Debug)]
pub(crate) struct Scope {
    interfaces: Vec<u32>,
    blocks: Vec<u32>,
    actions: BTreeSet<(String, u32)>,
}

impl Scope {
    /// The interfaces and the blocks of a place.
    pub(crate) fn of(place: &Place) -> Scope {
        Scope { interfaces: place.indices(), blocks: place.blocks.clone(), actions: BTreeSet::new() }
    }

    /// The standalone actions of dumps, and those that their filters share, too.
    pub(crate) fn add_actions_of(&mut self, dumps: &[Vec<u8>]) {
        let shared = dumps.iter().flat_map(|dump| shared_by(dump));
        let named = dumps.iter().flat_map(|dump| actions_of(dump)).chain(shared).map(|action| action.key());
        self.actions.extend(named.filter_map(|key| match key {
            Key::Action(kind, index) => Some((kind, index)),
            _ => None,
        }));
    }

    /// An error if one of these requests isn't to be sent.
    pub(crate) fn check(&self, place: &Place, requests: &[Vec<u8>]) -> Result<(), Stop> {
        let named = self.actions.iter().map(|(kind, index)| ActionName { kind: kind.as_bytes(), index: *index });
        let actions: Vec<ActionName<'_>> = named.collect();
        let scope = tc_check::Scope { interfaces: &self.interfaces, blocks: &self.blocks, actions: &actions };
        let requests = slices(requests);
        let outside = first_outside(&scope, &requests).and_then(|first| requests.get(first));
        outside.map_or(Ok(()), |request| Err(refused(place, request)))
    }
}

/// An error if one of these requests, which lead from dumps to others, deletes or changes something that isn't there.
pub(crate) fn check_named(place: &Place, steps: Requests<'_>) -> Result<(), Stop> {
    let unnamed = first_unnamed(&slices(steps.now), &slices(steps.wanted), &slices(steps.requests));
    unnamed.map_or(Ok(()), |request| Err(refused(place, request)))
}

fn slices(messages: &[Vec<u8>]) -> Vec<&[u8]> {
    messages.iter().map(Vec::as_slice).collect()
}

fn refused(place: &Place, request: &[u8]) -> Stop {
    Stop::NotAccepted(place.asked_by(request))
}

#[cfg(test)]
mod tests;
