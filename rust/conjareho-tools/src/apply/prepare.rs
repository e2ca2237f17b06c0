//! What is planned and asked before the first request is sent.

use super::actions::Actions;
use super::arguments::{Arguments, Way};
use super::back::Before;
use super::blocks::{Others, blocks_of_others, check_blocks, is_in_block, without};
use super::compare::{key_of, objects_of};
use super::holders::Touched;
use super::messages::{blocks_of, has_unnumbered_action};
use super::mirred::astray;
use super::named::named;
use super::notes::notes;
use super::outline::counted;
use super::plan::{Fault, Plan, plan, plan_beside};
use super::requests::requests_of_dump;
use super::sending::{PATIENCE, PAUSE};
use super::state;
use super::status::{Ended, Status};
use super::targets::Targets;
use super::wanted::Wanted;
use super::world::{Place, World, text_of};
use crate::netlink::clear::clearing;
use crate::netlink::{Dump, Transport};
use std::thread::sleep;
use std::time::Instant;

/// All that is known before the first request.
#[derive(Debug)]
pub(crate) struct Prepared {
    pub(crate) place: Place,
    pub(crate) wanted: Wanted,
    /// The requests.
    pub(crate) steps: Vec<Vec<u8>>,
    /// What is said of them before they are sent.
    pub(crate) warnings: Vec<String>,
    /// What is said of them if all goes well; nothing if it isn't to be said.
    pub(crate) summary: Option<String>,
    /// What there is now.
    pub(crate) before: Before,
}

/// What there is, and the requests that lead to what is wanted.
#[derive(Debug)]
pub(crate) struct Planned {
    /// All of it.
    pub(crate) dump: Dump,
    /// Without what is in blocks of others.
    pub(crate) before: Vec<Vec<u8>>,
    pub(crate) others: Others,
    pub(crate) steps: Vec<Vec<u8>>,
    /// What is said of them before they are sent.
    pub(crate) warnings: Vec<String>,
}

/// Dumps what there is, and plans. What is in blocks of others has to be as it is wanted, and is left out. The actions of filters that were just deleted
/// are there for a time, and held by nobody's filter.
pub(crate) fn planned<T: Transport, L: Transport>(
    arguments: &Arguments,
    world: &mut World<'_, T, L>,
    wanted: &mut Wanted,
) -> Result<Planned, Ended> {
    let others = blocks_of_others(world, &wanted.targets)?;
    check_blocks(world, &others, &wanted.requests, &wanted.targets)?;
    wanted.leave_out(|message| is_in_block(message, &others));
    let until = Instant::now() + PATIENCE;
    loop {
        let dump = world.first_dump(&wanted.targets.own())?;
        let before = without(&dump.messages, &others);
        if arguments.way != Way::Change {
            check_numbers(arguments, wanted, &before)?;
        }
        let actions = Actions::of(&before);
        let steps = steps_to(wanted, arguments.way, &before, &actions);
        let steps = steps.map_err(|faults| nothing_sent(wanted.said_of(&faults)))?;
        let touched = Touched::by(&steps, &actions);
        if touched.is_refused(arguments) && Instant::now() < until {
            sleep(PAUSE);
            continue;
        }
        let mut warnings = checked(arguments, world, wanted, &dump, &steps, &touched)?;
        if arguments.way == Way::Change {
            warnings.extend(notes(&before, &wanted.messages, &steps, &dump.devices));
        }
        return Ok(Planned { dump, before, others, steps, warnings });
    }
}

// What is said of requests that would do something to others, or to packets that go elsewhere. The error is that nothing is to be sent because of that.
fn checked<T: Transport, L: Transport>(
    arguments: &Arguments,
    world: &mut World<'_, T, L>,
    wanted: &Wanted,
    dump: &Dump,
    steps: &[Vec<u8>],
    touched: &Touched,
) -> Result<Vec<String>, Ended> {
    let holders = touched.holders(world, &dump.devices, &wanted.targets.own())?;
    let astray = astray(steps, &dump.devices, arguments.allows_down);
    let mut faults = wanted.said_of_actions(touched.faults(arguments, &holders));
    faults.extend(astray.faults);
    if faults.is_empty() {
        Ok([touched.warnings(&holders), astray.warnings].concat())
    } else {
        Err(nothing_sent(faults))
    }
}

// An error if an action can't be found again, so that there is no plan for a way back.
fn check_numbers(arguments: &Arguments, wanted: &Wanted, now: &[Vec<u8>]) -> Result<(), Ended> {
    let what = |message: &Vec<u8>| match key_of(message) {
        Some(key) => format!("{}: an action without a number", named(&wanted.targets.devices, key)),
        None => "an action without a number".to_string(),
    };
    let found = |messages: &[Vec<u8>], place: &str| {
        let some = messages.iter().filter(|message| has_unnumbered_action(message));
        some.map(|message| format!("{place}: {}", what(message))).collect::<Vec<_>>()
    };
    let mut said = found(&wanted.messages, &arguments.file_name());
    if !arguments.no_rollback {
        said.extend(found(now, "what is there now"));
    }
    if said.is_empty() { Ok(()) } else { Err(nothing_sent(said)) }
}

// The requests that lead to what is wanted. Where all is made, there is nothing, but for actions.
fn steps_to(wanted: &Wanted, way: Way, before: &[Vec<u8>], actions: &Actions) -> Plan {
    match way {
        Way::Change => plan(before, &wanted.messages, |_| false),
        Way::Beside => plan_beside(before, &actions.alone(), &wanted.messages),
        Way::Anew => {
            let makes = plan(&actions.staying(), &wanted.messages, |_| false)?;
            let own = wanted.targets.own();
            Ok(own.iter().flat_map(|index| clearing(before, *index)).chain(makes).collect())
        }
    }
}

/// Plans, and asks whether what is planned may be sent.
pub(crate) fn prepare<T: Transport, L: Transport>(
    arguments: &Arguments,
    wanted: Wanted,
    world: &mut World<'_, T, L>,
) -> Result<Prepared, Ended> {
    let mut wanted = wanted;
    let Planned { dump, before, others, steps, warnings } = planned(arguments, world, &mut wanted)?;
    let kept = if steps.is_empty() {
        None
    } else {
        check_back(arguments, &before, &wanted)?;
        Some(keep(arguments, &wanted.targets, &text_of(&dump, &wanted.targets.own())?.0)?)
    };
    let blocks = wanted.messages.iter().flat_map(|it| blocks_of(it)).chain(dump.blocks).collect();
    let summary = || match steps.as_slice() {
        [] => arguments.nothing_to_do(),
        steps => counted(steps, &before, &wanted.messages),
    };
    Ok(Prepared {
        summary: (!arguments.quiet).then(summary),
        place: Place { devices: wanted.targets.devices.clone(), blocks },
        steps,
        warnings,
        before: Before {
            objects: objects_of(&requests_of_dump(&dump.messages).requests),
            dumps: dump.messages,
            others,
            kept,
        },
        wanted,
    })
}

// The file that keeps what is there now.
fn keep(arguments: &Arguments, targets: &Targets, now: &str) -> Result<String, Ended> {
    let folder = &arguments.state;
    match state::keep(folder, &targets.names(), now) {
        Ok(path) => Ok(path.display().to_string()),
        Err(error) => {
            let why = format!("what is there now can't be kept in {}: {error}", folder.display());
            Err(Ended::because(Status::Failed, vec![why]))
        }
    }
}

fn nothing_sent(said: Vec<String>) -> Ended {
    Ended::because(Status::NothingSent, said)
}

// An error if what there is now can't be made again once it is as wanted, or once it is cleared: then all of it is to be made.
fn check_back(arguments: &Arguments, now: &[Vec<u8>], wanted: &Wanted) -> Result<(), Ended> {
    let (why, so) = match arguments.way {
        _ if arguments.no_rollback => return Ok(()),
        Way::Beside => return Ok(()),
        Way::Change => {
            (said_of(plan(&wanted.messages, now, |_| true), wanted), "couldn't be made again, so that it isn't changed")
        }
        Way::Anew => {
            let back = || said_of(plan(&Actions::of(now).staying(), now, |_| false), wanted);
            let why = Some(requests_of_dump(now).complaints).filter(|said| !said.is_empty()).unwrap_or_else(back);
            (why, "can't be made again, so that it isn't deleted")
        }
    };
    if why.is_empty() {
        return Ok(());
    }
    let mut said: Vec<String> = why.iter().map(|why| format!("what is there now: {why}")).collect();
    said.push(format!("what is there now {so} without --no-rollback"));
    Err(nothing_sent(said))
}

// Why there is no plan.
fn said_of(plan: Plan, wanted: &Wanted) -> Vec<String> {
    let text = |fault: &Fault| named(&wanted.targets.devices, &fault.text);
    plan.err().iter().flatten().map(text).collect()
}
