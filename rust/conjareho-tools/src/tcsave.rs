//! The program tcsave.

use crate::netlink::{Device, Devices, Dump, Kernel, Listener, state_of};
use crate::save::save_of;
use crate::shown::lines_of;
use crate::status::{Ending, Status, words_of};
use ::clap::builder::NonEmptyStringValueParser;
use ::clap::{Arg, Command};
use std::io::Write;
use std::process::ExitCode;

const NOTES: &str = "\
Examples:
  tcsave wan ifb0 > saved.json
  tcapply saved.json

The save has all actions of the network namespace too, since these belong to no interface. Nothing
is written before all of it was read. Whatever else changes meanwhile, it shows one state: if one
of the interfaces changes, it is dumped again.

Exit status:
  0  saved
  1  no such interface, a name that isn't UTF-8, a dump that the kernel refused, an interface that
     kept changing, or a message that the codec refuses (its line says so)
  2  usage error
  3  a socket or standard output failed";

fn command() -> Command {
    Command::new("tcsave")
        .version(env!("CARGO_PKG_VERSION"))
        .about("Saves the traffic control configuration of interfaces, as lines of JSON on standard output")
        .after_help(NOTES)
        .arg(
            Arg::new("DEV")
                .help("Interfaces: each by its name, by one of its altnames, or by its index")
                .required(true)
                .num_args(1..)
                .value_parser(NonEmptyStringValueParser::new()),
        )
}

/// Saves the interfaces that its arguments name.
pub fn tcsave() -> ExitCode {
    let mut words = match words_of("tcsave", command()) {
        Ok(words) => words,
        Err(code) => return code,
    };
    let words: Vec<String> = words.remove_many("DEV").into_iter().flatten().collect();
    match save(&words) {
        Ok(()) => ExitCode::SUCCESS,
        Err(ending) => ending.say("tcsave"),
    }
}

fn save(words: &[String]) -> Result<(), Ending> {
    let mut kernel = Kernel::open()?;
    let mut listener = Listener::open()?;
    let found = found_in(&Devices::of(&mut kernel)?, words)?;
    let indices: Vec<u32> = found.iter().map(|device| device.index).collect();
    let Dump { messages, devices, .. } = state_of(&mut kernel, &mut listener, &indices)?;
    let shown = lines_of(&messages)?;
    drop(messages);
    let saved = found.iter().map(|device| same_in(&devices, device)).collect::<Result<Vec<_>, _>>()?;
    let text = save_of(&saved, &devices, &shown.text)?;
    let mut output = std::io::stdout().lock();
    output
        .write_all(text.as_bytes())
        .and_then(|()| output.flush())
        .map_err(|error| Ending::new(Status::Stream, format!("standard output: {error}")))?;
    if shown.has_refused {
        return Err(Ending::new(Status::Refused, "the codec refuses a message, whose line can't be restored"));
    }
    Ok(())
}

// The interfaces that these words name, each once.
fn found_in(devices: &Devices, words: &[String]) -> Result<Vec<Device>, Ending> {
    let mut found: Vec<Device> = Vec::new();
    for word in words {
        let device = devices.find(word).ok_or_else(|| Ending::no_interface(word))?;
        if !found.contains(device) {
            found.push(device.clone());
        }
    }
    Ok(found)
}

// An interface as it is after the dump, if it still has its name.
fn same_in<'a>(devices: &'a Devices, before: &Device) -> Result<&'a Device, Ending> {
    let same = devices.at(before.index).filter(|device| device.name == before.name);
    same.ok_or_else(|| Ending::new(Status::Refused, format!("{}: it was renamed or replaced meanwhile", before.name)))
}
