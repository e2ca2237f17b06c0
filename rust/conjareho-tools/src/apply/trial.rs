//! What new network namespaces are for: a command that makes what is wanted, and a plan that is tried.

use super::arguments::Arguments;
use super::check::Requests;
use super::check_after;
use super::command;
use super::links::Ran;
use super::messages::{blocks_of, deletes};
use super::places::by_place;
use super::plan::plan;
use super::prepare::{Planned, planned};
use super::requests::requests_of_dump;
use super::scratch::within;
use super::sending::Sending;
use super::status::Ended;
use super::status::Status;
use super::wanted::{Wanted, wanted_of};
use super::world::{Place, Stop, World, text_of};
use super::{hardware, open_kernel, same};
use crate::netlink::message::tcmsg_of;
use crate::netlink::{Device, Devices, Fault, Kernel, Transport, state_of};
use std::ffi::OsString;

fn nothing_sent(why: String) -> Ended {
    Ended::because(Status::NothingSent, vec![why])
}

// ---- A command

/// What is wanted, as it is given: a file, or the save of what a command made.
pub(crate) struct Given {
    pub(crate) bytes: Vec<u8>,
    /// The command, if it wrote to standard error although it ended well.
    pub(crate) doubted: Option<String>,
}

/// What is said of a command that wrote to standard error, if the plan deletes something.
pub(crate) fn doubt(command: Option<&str>, steps: &[Vec<u8>]) -> Option<String> {
    let command = command.filter(|_| steps.iter().any(|step| deletes(step)))?;
    Some(format!(
        "{command} wrote to standard error (above); if a command of it failed, what that was to make is missing, and the plan deletes it"
    ))
}

/// The save of what a command makes of interfaces. It is an error if that isn't all that it does to interfaces.
pub(crate) fn made_by(command: &[OsString], devs: &[String]) -> Result<Given, Ended> {
    let devices = Devices::of(&mut Kernel::open()?)?;
    let own = own_of(&devices, devs)?;
    let made = within(&devices, || {
        let found = Devices::of(&mut Kernel::open().map_err(said)?).map_err(said)?;
        let has_errors = command::run(command)?;
        Ok((has_errors, saved(&own, found)?))
    });
    let (has_errors, (text, ran)) = made.map_err(nothing_sent)?;
    let program = command.first().map(|it| it.to_string_lossy()).unwrap_or_default();
    let mut faults = ran.faults(&program, &devices, &own);
    if !faults.is_empty() {
        faults.push("nothing is sent".to_string());
        return Err(Ended::because(Status::NothingSent, faults));
    }
    Ok(Given { bytes: text.into_bytes(), doubted: has_errors.then(|| program.into_owned()) })
}

fn said(fault: Fault) -> String {
    fault.to_string()
}

// The interfaces that these words name, each once.
fn own_of(devices: &Devices, devs: &[String]) -> Result<Vec<Device>, Ended> {
    let mut own: Vec<Device> = Vec::new();
    for dev in devs {
        let device = devices.find(dev).ok_or_else(|| nothing_sent(format!("there is no interface {dev}")))?;
        if own.iter().all(|it| it.index != device.index) {
            own.push(device.clone());
        }
    }
    Ok(own)
}

// The save of interfaces of this namespace, and how all are then. Before, these were `found`.
fn saved(own: &[Device], found: Devices) -> Result<(String, Ran), String> {
    let (mut kernel, [mut listener, watch]) = open_kernel()?;
    let left = Devices::of(&mut kernel).map_err(said)?;
    let index_of = |device: &Device| {
        let same = left.iter().find(|it| it.name == device.name).map(|it| it.index);
        same.ok_or_else(|| format!("the command renamed or deleted {}", device.name))
    };
    let indices = own.iter().map(index_of).collect::<Result<Vec<u32>, String>>()?;
    let dump = state_of(&mut kernel, &mut listener, &indices).map_err(said)?;
    let text = match text_of(&dump, &indices).map_err(said)? {
        (text, false) if hardware::count_alone(text.lines()) == 0 => text,
        (_, false) => return Err(format!("the command made a filter with skip_sw; {}", command::NO_HARDWARE)),
        _ => return Err("the command made something that the codec refuses".to_string()),
    };
    let qdiscs = World::new(kernel, listener, watch, &|| None).qdiscs().map_err(said)?;
    // The kernel's own ones have no handle.
    let made = qdiscs.iter().filter_map(|qdisc| tcmsg_of(qdisc)).filter(|it| it.handle != 0);
    let used = made.filter_map(|it| u32::try_from(it.index).ok()).collect();
    Ok((text, Ran { found, left, used }))
}

// ---- A trial

/// Makes what is there now in a new network namespace, and carries the plan out there.
pub(crate) fn check<T: Transport, L: Transport>(
    arguments: &Arguments,
    given: Given,
    world: &mut World<'_, T, L>,
    said: &mut Vec<String>,
) -> Result<Status, Ended> {
    let Given { bytes, doubted } = given;
    let mut wanted = wanted_of(arguments, bytes, world, said)?;
    let Planned { dump, before, others, steps, warnings } = planned(arguments, world, &mut wanted)?;
    said.extend(warnings);
    said.extend(doubt(doubted.as_deref(), &steps));
    wanted.objects.retain(|key, _| key.block().is_none_or(|block| !others.contains_key(&block)));
    let now = requests_of_dump(&before);
    if now.is_void || !now.complaints.is_empty() {
        return Err(Ended::because(
            Status::NothingSent,
            now.complaints.iter().map(|it| format!("what is there now can't be made there: {it}")).collect(),
        ));
    }
    let count = within(&dump.devices, || tried(&now.requests, &wanted)).map_err(nothing_sent)?;
    let done = match count {
        0 => arguments.nothing_to_do(),
        1 => "in a new network namespace 1 request made what is wanted".to_string(),
        _ => format!("in a new network namespace {count} requests made what is wanted"),
    };
    said.extend((!arguments.quiet).then(|| format!("{done}; nothing is sent here")));
    Ok(Status::Restored)
}

// Makes what there was elsewhere, and then what is wanted. Returns how many requests the latter took.
fn tried(now: &[Vec<u8>], wanted: &Wanted) -> Result<usize, String> {
    let (mut kernel, [dumps, watch]) = open_kernel()?;
    let own = wanted.targets.own();
    let devices = Devices::of(&mut kernel).map_err(|fault| fault.to_string())?;
    let devices: Vec<Device> = own.iter().filter_map(|index| devices.at(*index).cloned()).collect();
    let mut world = World::new(kernel, dumps, watch, &|| None);
    let blocks = now.iter().chain(&wanted.messages).flat_map(|it| blocks_of(it)).collect();
    let place = Place { devices, blocks };
    let mut sending = Sending::new(&mut world, &place, true);
    sending.scope.add_actions_of(now);
    sending.scope.add_actions_of(&wanted.messages);
    sending
        .carry_out(Requests { now: &[], wanted: &[], requests: now })
        .map_err(|stop| format!("what is there now can't be made in a new network namespace: {stop}"))?;
    made_there(&mut sending, &own, wanted).map_err(|stop| format!("in a new network namespace: {stop}"))
}

fn made_there<T: Transport, L: Transport>(
    sending: &mut Sending<'_, '_, T, L>,
    own: &[u32],
    wanted: &Wanted,
) -> Result<usize, Stop> {
    let there = sending.world.first_dump(own)?.messages;
    let steps = plan(&there, &wanted.messages, |_| false).map_err(|faults| Stop::Unplanned(wanted.said_of(&faults)))?;
    sending.carry_out(Requests { now: &there, wanted: &wanted.messages, requests: &steps })?;
    check_after(&same(sending, &wanted.objects, by_place, |key, _| key.is_action())?, wanted, sending.place)?;
    Ok(steps.len())
}

#[cfg(test)]
mod tests {
    use super::*;
    use crate::netlink::message::{RTM_NEWQDISC, Tcmsg, tc_request};

    #[test]
    fn doubts_a_command_only_if_something_is_deleted() {
        let step = |kind| tc_request(kind, 0, Tcmsg::default());
        let (made, deleted) = (vec![step(RTM_NEWQDISC)], vec![step(RTM_NEWQDISC + 1), step(RTM_NEWQDISC)]);
        let text = "./shaper.sh wrote to standard error (above); if a command of it failed, what that was to make is missing, \
                    and the plan deletes it";
        assert_eq!(doubt(Some("./shaper.sh"), &deleted).as_deref(), Some(text));
        assert_eq!(
            [doubt(Some("./shaper.sh"), &made), doubt(Some("./shaper.sh"), &[]), doubt(None, &deleted)],
            [None, None, None]
        );
    }
}
