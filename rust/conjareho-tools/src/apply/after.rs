//! What is there afterwards, compared with what is wanted.

use super::actions::Actions;
use super::compare::{Difference, Held, Key, Objects, differences, objects_of};
use super::named::named;
use super::plan::plan;
use super::requests::requests_of_dump;
use super::sending::{PATIENCE, PAUSE, Sending};
use super::wanted::Wanted;
use super::world::{Place, Stop};
use crate::netlink::{Device, Transport};
use std::thread::sleep;
use std::time::Instant;

/// How many differences are named.
const MOST_NAMED: usize = 5;

/// What is there, as it is dumped; an error if it isn't what is wanted, as far as that is `seen`. What was deleted may live on for a time.
pub(crate) fn same<T: Transport, L: Transport>(
    sending: &mut Sending<'_, '_, T, L>,
    wanted: &Objects,
    seen: impl Fn(Objects) -> Objects,
    may_be: impl Fn(&Key, &Held) -> bool,
) -> Result<Vec<Vec<u8>>, Stop> {
    let wanted = seen(wanted.clone());
    let place = sending.place;
    let until = Instant::now() + PATIENCE;
    loop {
        sending.world.check_devices(place)?;
        let after = sending.world.dump(&place.indices())?.messages;
        sending.world.look(place)?;
        let all = requests_of_dump(&after).requests;
        let found = differences(&wanted, &seen(objects_of(&all)), &may_be);
        // An action that only a deleted filter holds by now isn't there for long.
        let is_held = || Actions::of(&after).unheld().iter().all(|key| !wanted.contains_key(key));
        if found.is_empty() && (sending.is_settled() || is_held()) {
            return Ok(after);
        }
        if !found.is_empty() && Instant::now() >= until {
            return Err(Stop::Differs(listed(&place.devices, &found)));
        }
        sleep(PAUSE);
    }
}

fn listed(devices: &[Device], all: &[Difference]) -> Vec<String> {
    let mut said: Vec<String> = all.iter().take(MOST_NAMED).map(|it| named(devices, it)).collect();
    if all.len() > MOST_NAMED {
        said.push(format!("and {} more", all.len() - MOST_NAMED));
    }
    said
}

/// An error if there is still a plan to what is wanted.
pub(crate) fn check_after(after: &[Vec<u8>], wanted: &Wanted, place: &Place) -> Result<(), Stop> {
    let left = plan(after, &wanted.messages, |_| false).map_err(|faults| Stop::Unplanned(wanted.said_of(&faults)))?;
    let what = || left.iter().map(|request| place.what_of(request)).collect();
    if left.is_empty() { Ok(()) } else { Err(Stop::Differs(what())) }
}
