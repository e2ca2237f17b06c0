//! The way back to what was there before: a plan from what is there.

use super::advice::command_for;
use super::after::same;
use super::blocks::{Others, without};
use super::check::Requests;
use super::compare::{Key, Objects, objects_of};
use super::messages::is_read;
use super::named::named;
use super::others::{Merged, merged};
use super::places::by_place;
use super::plan::{Fault, plan};
use super::requests::requests_of_dump;
use super::sending::Sending;
use super::status::Status;
use super::world::{Place, Stop};
use crate::netlink::{Devices, Transport};

/// How often it is planned, where the kernel refuses something.
const MOST_PLANS: u32 = 3;

/// How many objects are named.
const MOST_NAMED: usize = 5;

/// What was there before.
#[derive(Debug)]
pub(crate) struct Before {
    /// As it was dumped.
    pub(crate) dumps: Vec<Vec<u8>>,
    /// What all of it is.
    pub(crate) objects: Objects,
    /// The blocks in it that aren't touched.
    pub(crate) others: Others,
    /// The file that has the save of it; none if nothing is to be sent.
    pub(crate) kept: Option<String>,
}

impl Before {
    // What of dumps a plan is about: what the codec refuses isn't touched.
    fn planned(&self, dumps: &[Vec<u8>]) -> Vec<Vec<u8>> {
        without(dumps, &self.others).into_iter().filter(|dump| is_read(dump)).collect()
    }

    /// Makes it again, unless nothing was sent, or it `is_left`, or others are at work; of actions only those that are wanted change. How the run ends;
    /// why is added to `said`.
    pub(crate) fn ended<T: Transport, L: Transport>(
        &self,
        wanted: &Objects,
        is_left: bool,
        sending: &mut Sending<'_, '_, T, L>,
        stop: &Stop,
        said: &mut Vec<String>,
    ) -> Status {
        let Some(kept) = self.kept.as_ref().filter(|_| sending.has_sent()) else {
            said.push("nothing was sent".to_string());
            return Status::NothingSent;
        };
        if is_left || matches!(stop, Stop::Other { .. } | Stop::Moved(_)) {
            let far = if sending.is_carried_out() { "as applied" } else { "as far as it was applied" };
            said.push(left(far, stop, kept, sending));
            return Status::Lost;
        }
        match self.made_again(wanted, sending) {
            Ok(None) => {
                said.push(format!("what was there before is there again; {kept} has a copy"));
                Status::Back
            }
            Ok(Some(merged)) => {
                said.push(format!("{}; {kept} has a copy", but_for(&merged, sending.place)));
                Status::Back
            }
            Err(why) => {
                said.extend([
                    format!("on the way back: {why}"),
                    left("as far as the way back got", &why, kept, sending),
                ]);
                Status::Lost
            }
        }
    }

    // What is to be there, if another program changed something after all was applied.
    fn merged<T: Transport, L: Transport>(&self, sending: &mut Sending<'_, '_, T, L>) -> Result<Option<Merged>, Stop> {
        let Some(left) = sending.changed_since()? else { return Ok(None) };
        let now = self.planned(&sending.world.dump(&sending.place.indices())?.messages);
        let none = || Stop::Unplanned(vec!["what another program changed meanwhile can't be told apart".to_string()]);
        merged(&self.planned(&self.dumps), &self.planned(&left), &now).ok().flatten().ok_or_else(none).map(Some)
    }

    // Plans from what is there now, and anew where something was refused. Returns what is there instead of what was there before, if another program changed
    // something.
    fn made_again<T: Transport, L: Transport>(
        &self,
        wanted: &Objects,
        sending: &mut Sending<'_, '_, T, L>,
    ) -> Result<Option<Merged>, Stop> {
        sending.turn_back();
        let merged = self.merged(sending)?;
        let before = merged.as_ref().map_or_else(|| self.planned(&self.dumps), |merged| merged.dumps.clone());
        let objects = match &merged {
            Some(merged) => &objects_of(&requests_of_dump(&merged.dumps).requests),
            None => &self.objects,
        };
        sending.scope.add_actions_of(&before);
        let mut refused = None;
        for _ in 0..MOST_PLANS {
            let now = self.planned(&sending.world.dump(&sending.place.indices())?.messages);
            let steps = plan(&now, &before, |key| wanted.contains_key(key))
                .map_err(|faults| unplanned(sending.place, &faults))?;
            match sending.carry_out(Requests { now: &now, wanted: &before, requests: &steps }) {
                Ok(()) => break,
                Err(stop @ Stop::Refused { .. }) => drop(refused.get_or_insert(stop)),
                Err(stop) => return Err(stop),
            }
        }
        // Actions that neither side names are others'.
        let is_seen = |key: &Key| !key.is_action() || wanted.contains_key(key);
        let seen = |all: Objects| by_place(all.into_iter().filter(|(key, _)| is_seen(key)).collect());
        match (same(sending, objects, seen, |_, _| false), refused) {
            (Ok(_), _) => Ok(merged),
            (Err(_), Some(stop)) | (Err(stop), None) => Err(stop),
        }
    }
}

// What is there, if that isn't what was there before: how far it is left, and what the file that has that would do.
fn left<T: Transport, L: Transport>(far: &str, stop: &Stop, kept: &str, sending: &mut Sending<'_, '_, T, L>) -> String {
    let (with, so) = match stop {
        Stop::Other { .. } => (", with the other's change", "would undo the other's change too"),
        _ => ("", "makes it"),
    };
    // Interfaces may have got other names meanwhile.
    let today = Devices::of(&mut sending.world.kernel).ok();
    let then = match command_for(kept, today.as_ref()) {
        Ok(command) => format!("{command} {so}"),
        Err(gone) => gone,
    };
    format!("it is left {far}{with}; {kept} has what was there before, and {then}")
}

// What is there again, and what isn't.
fn but_for(merged: &Merged, place: &Place) -> String {
    let names: Vec<String> = merged.theirs.iter().take(MOST_NAMED).map(|key| named(&place.devices, key)).collect();
    let more = merged.theirs.len().saturating_sub(names.len());
    let mut said: Vec<String> = names;
    said.extend((more != 0).then(|| format!("and {more} more")));
    said.extend((merged.gone != 0).then(|| format!("{} that it deleted", merged.gone)));
    format!(
        "what was there before is there again, but for what another program changed meanwhile, which stays: {}",
        said.join(", ")
    )
}

fn unplanned(place: &Place, faults: &[Fault]) -> Stop {
    Stop::Unplanned(faults.iter().map(|fault| named(&place.devices, &fault.text)).collect())
}
