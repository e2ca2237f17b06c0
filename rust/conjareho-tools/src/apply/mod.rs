//! The program tcapply: from what interfaces have to what a file says. tcrestore is a call of it.

mod actions;
mod advice;
mod after;
mod anew;
mod arguments;
mod back;
mod blocks;
mod check;
mod command;
mod compare;
mod file;
mod folder;
mod hardware;
mod hold;
mod holders;
mod links;
mod lock;
mod messages;
mod mirred;
mod named;
mod notes;
mod others;
mod outline;
mod places;
mod plan;
mod prepare;
mod progress;
mod queues;
mod requests;
mod restore;
mod scratch;
mod sending;
mod shell;
mod signals;
mod state;
mod status;
mod targets;
#[cfg(test)]
mod tests;
mod tree;
mod trial;
mod wanted;
mod words;
mod world;

use after::{check_after, same};
use arguments::{Arguments, Way};
use blocks::without;
use check::Requests;
use compare::{Held, Key};
use places::by_place;
use plan::plan_anew;
use prepare::{Planned, Prepared, planned, prepare};
use sending::Sending;
use signals::Signals;
use status::{Ended, Status};
use trial::{Given, doubt};
use wanted::{Wanted, wanted_of};
use world::{Stop, World};

use crate::netlink::fault::Printable;
use crate::netlink::{Fault, Kernel, Listener, Socket, Transport};
use crate::save::release;
use crate::shown::lines_of;
use crate::status::print;
use std::fs::{self, File};
use std::io::{self, Read as _, Write as _};
use std::os::fd::AsFd as _;
use std::process::ExitCode;
use std::time::Duration;

/// How often it is planned anew, if another program changes something before the first request.
const MOST_PLANS: u32 = 3;

/// Prints lines, and waits this long for somebody to say that what is there now is to stay. The error is why it isn't.
type Hold<'h> = &'h mut dyn FnMut(Vec<String>, Duration) -> Result<(), Stop>;

/// The whole program.
pub fn tcapply() -> ExitCode {
    program("tcapply", arguments::arguments_of(std::env::args_os()))
}

/// The whole program tcrestore.
pub fn tcrestore() -> ExitCode {
    program("tcrestore", restore::arguments_of(std::env::args_os()))
}

fn program(name: &'static str, arguments: Result<Arguments, ::clap::Error>) -> ExitCode {
    match arguments {
        Ok(arguments) => obey(name, &arguments).into(),
        Err(error) => {
            let is_wrong = error.use_stderr();
            print(error);
            ExitCode::from(if is_wrong { Status::Usage as u8 } else { 0 })
        }
    }
}

fn obey(name: &'static str, arguments: &Arguments) -> Status {
    let mut said = Vec::new();
    let status = opened(name, arguments, &mut said).unwrap_or_else(|ended| {
        said.extend(ended.said);
        ended.status
    });
    say_all(name, &said);
    status
}

fn failed(why: String) -> Ended {
    Ended::because(Status::Failed, vec![why])
}

// Reads the file, or runs the command, and does what is asked for.
fn opened(name: &'static str, arguments: &Arguments, said: &mut Vec<String>) -> Result<Status, Ended> {
    let given = match &arguments.command {
        Some(command) => trial::made_by(command, &arguments.devs)?,
        None => {
            let bytes = read(arguments).map_err(|error| failed(format!("{}: {error}", arguments.file_name())))?;
            Given { bytes, doubted: None }
        }
    };
    // Until here nothing was asked for that a signal shouldn't end.
    let signals = Signals::catch().map_err(failed)?;
    let signal = || signals.caught();
    let (kernel, [dumps, watch]) = open_kernel().map_err(failed)?;
    let mut world = World::new(kernel, dumps, watch, &signal);
    if arguments.dry_run {
        return dry_run(arguments, given, &mut world, said);
    }
    if arguments.check {
        return trial::check(arguments, given, &mut world, said);
    }
    let _lock = lock::lock(arguments.patience, &signal)?;
    let mut hold = |first: Vec<String>, time| {
        // Not through a buffer, which would keep what isn't asked for yet.
        let input = io::stdin().as_fd().try_clone_to_owned();
        let mut input = File::from(input.map_err(|error| Stop::Unconfirmed(format!("standard input: {error}")))?);
        hold::hold(&mut input, time, &signal, first, move |lines| say_all(name, &lines))
    };
    Ok(apply(arguments, given, &mut world, &mut hold, said))
}

/// The kernel of this network namespace, and two that hear what changes in it.
pub(crate) fn open_kernel() -> Result<(Kernel, [Listener; 2]), String> {
    let said = |fault: Fault| fault.to_string();
    Ok((Kernel::open().map_err(said)?, [Listener::open().map_err(said)?, Listener::open().map_err(said)?]))
}

// Reads the file that is named, or standard input.
fn read(arguments: &Arguments) -> io::Result<Vec<u8>> {
    match &arguments.file {
        Some(path) => fs::read(path),
        None => {
            let mut bytes = Vec::new();
            io::stdin().read_to_end(&mut bytes)?;
            Ok(bytes)
        }
    }
}

/// Says what is to be said. A terminal that nobody reads would hold up what is sent, so nothing is written before the end.
pub(crate) fn say_all(program: &str, said: &[String]) {
    let text: String = said.iter().map(|line| format!("{program}: {}\n", Printable(line))).collect();
    let _ = io::stderr().write_all(text.as_bytes());
}

// Prints the plan.
fn dry_run(
    arguments: &Arguments,
    given: Given,
    world: &mut World<'_, Socket, Socket>,
    said: &mut Vec<String>,
) -> Result<Status, Ended> {
    let Given { bytes, doubted } = given;
    let mut wanted = wanted_of(arguments, bytes, world, said)?;
    let Planned { dump, before, steps, warnings, .. } = planned(arguments, world, &mut wanted)?;
    said.extend(warnings);
    said.extend(doubt(doubted.as_deref(), &steps));
    let text: String = outline::lines(&steps, &before, &wanted.messages, &dump.devices)
        .iter()
        .map(|line| format!("{}\n", Printable(line)))
        .collect();
    let written = io::stdout().lock().write_all(text.as_bytes());
    written.map_err(|error| failed(format!("standard output: {error}")))?;
    Ok(if steps.is_empty() { Status::Restored } else { Status::Otherwise })
}

/// Brings interfaces to what a file says. What is to be said is added to `said`.
fn apply<T: Transport, L: Transport>(
    arguments: &Arguments,
    given: Given,
    world: &mut World<'_, T, L>,
    hold: Hold<'_>,
    said: &mut Vec<String>,
) -> Status {
    let Given { bytes, doubted } = given;
    let begun = wanted_of(arguments, bytes, world, said).and_then(|wanted| begun(arguments, wanted, world));
    let prepared = match begun {
        Ok(prepared) => prepared,
        Err(ended) => {
            said.extend(ended.said);
            said.push("nothing is sent".to_string());
            return ended.status;
        }
    };
    said.extend(prepared.warnings.iter().cloned());
    said.extend(doubt(doubted.as_deref(), &prepared.steps));
    let mut sending = Sending::new(world, &prepared.place, arguments.way != Way::Beside);
    sending.scope.add_actions_of(&prepared.wanted.messages);
    match carried_out(arguments, &prepared, &mut sending, hold, said) {
        Ok(()) if prepared.wanted.is_partial => Status::Otherwise,
        Ok(()) => {
            let is_kept = arguments.trial.is_some() && !prepared.steps.is_empty();
            // The summary was printed with the question.
            let kept = || Some("Enter was pressed, so it stays".to_string());
            said.extend(if is_kept { kept() } else { prepared.summary.clone() });
            Status::Restored
        }
        Err(stop) => {
            said.push(stop.to_string());
            prepared.before.ended(&prepared.wanted.objects, arguments.no_rollback, &mut sending, &stop, said)
        }
    }
}

// Plans, and anew if another program, or the kernel, changed something meanwhile.
fn begun<T: Transport, L: Transport>(
    arguments: &Arguments,
    wanted: Wanted,
    world: &mut World<'_, T, L>,
) -> Result<Prepared, Ended> {
    let mut wanted = wanted;
    for left in (0..=MOST_PLANS).rev() {
        let prepared = prepare(arguments, wanted, world)?;
        let looked = world
            .check_signal()
            .and_then(|()| world.check_devices(&prepared.place))
            .and_then(|()| world.look_before(&prepared.place));
        match looked {
            Ok(()) => return Ok(prepared),
            Err(Stop::Other { .. }) if left > 0 => wanted = prepared.wanted,
            Err(stop) => return Err(Ended::because(Status::NothingSent, vec![stop.to_string()])),
        }
    }
    Err(Ended::because(Status::NothingSent, Vec::new()))
}

// Sends all, compares, and waits. What was said until then is printed with the question.
fn carried_out<T: Transport, L: Transport>(
    arguments: &Arguments,
    prepared: &Prepared,
    sending: &mut Sending<'_, '_, T, L>,
    hold: Hold<'_>,
    said: &mut Vec<String>,
) -> Result<(), Stop> {
    let (way, wanted) = (arguments.way, &prepared.wanted);
    if arguments.compares_steps {
        let now = without(&prepared.before.dumps, &prepared.before.others);
        let none = || Stop::Unplanned(vec!["there is no model of what there is".to_string()]);
        let model = plan::model(&now, &wanted.messages).ok_or_else(none)?;
        sending.compare_with(model, prepared.before.others.clone());
    }
    let now = &prepared.before.dumps;
    sending.carry_out(Requests { now, wanted: &wanted.messages, requests: &prepared.steps })?;
    said.extend(sending.compared().map(|count| format!("compared after each of {count} requests")));
    let after = match reached(way, prepared, sending) {
        Err(stop @ Stop::Differs(_)) if way != Way::Beside => {
            made_anew(prepared, sending, stop, said)?;
            reached(way, prepared, sending)?
        }
        after => after?,
    };
    if wanted.in_hardware > 0 {
        said.extend(hardware::lost(wanted.in_hardware, hardware::count(lines_of(&after)?.text.lines())));
    }
    if prepared.steps.is_empty() {
        return Ok(());
    }
    let Some(time) = arguments.trial else { return sending.world.look(sending.place) };
    let first = std::mem::take(said).into_iter().chain(prepared.summary.clone());
    sending.leave(after);
    hold(first.collect(), time)?;
    // While Enter was waited for, others may have changed something. That stays too.
    match sending.world.look(sending.place) {
        Err(stop @ Stop::Other { .. }) => said.push(stop.to_string()),
        looked => looked?,
    }
    Ok(())
}

// What is there, as it is dumped; an error if it isn't what is wanted. Actions belong to no interface: others may be there.
fn reached<T: Transport, L: Transport>(
    way: Way,
    prepared: &Prepared,
    sending: &mut Sending<'_, '_, T, L>,
) -> Result<Vec<Vec<u8>>, Stop> {
    let (wanted, before) = (&prepared.wanted, &prepared.before);
    if way == Way::Beside {
        let was_there = |key: &Key, held: &Held| before.objects.get(key).is_some_and(|it| it.is_same(held));
        return same(sending, &wanted.objects, |all| all, |key, held| key.is_action() || was_there(key, held));
    }
    let after = same(sending, &wanted.objects, by_place, |key, _| key.is_action())?;
    check_after(&without(&after, &before.others), wanted, sending.place)?;
    Ok(after)
}

// Plans once more, without changes in place, if the kernel took a change and didn't make it.
fn made_anew<T: Transport, L: Transport>(
    prepared: &Prepared,
    sending: &mut Sending<'_, '_, T, L>,
    stop: Stop,
    said: &mut Vec<String>,
) -> Result<(), Stop> {
    let wanted = &prepared.wanted;
    let dump = sending.world.dump(&prepared.place.indices())?;
    let now = without(&dump.messages, &prepared.before.others);
    let unmade = outline::unmade(&prepared.steps, &now, &wanted.messages, &dump.devices);
    if unmade.is_empty() {
        return Err(stop);
    }
    let warning = |what| format!("Linux {} took a change and didn't make it, so this is made anew: {what}", release());
    said.extend(unmade.into_iter().map(warning));
    let steps = plan_anew(&now, &wanted.messages).map_err(|faults| Stop::Unplanned(wanted.said_of(&faults)))?;
    sending.carry_out(Requests { now: &now, wanted: &wanted.messages, requests: &steps })
}
