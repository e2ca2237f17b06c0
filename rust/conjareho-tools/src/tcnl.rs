//! The program tcnl.

use crate::netlink::devices::links;
use crate::netlink::fault::Printable;
use crate::netlink::{Devices, Fault, Kernel, Listener, Objects, clear, dump_of};
use crate::requests::{Stream, send_all};
use crate::shown::stream_of;
use crate::status::{Ending, Status, print, say, words_of};
use ::clap::builder::NonEmptyStringValueParser;
use ::clap::error::ErrorKind;
use ::clap::{Arg, ArgAction, ArgMatches, Command};
use std::io::{Read, Write};
use std::process::ExitCode;

const NOTES: &str = "\
Examples:
  tcnl dump --links dev wan | tcshow
  tcnl monitor --links | tcshow
  tcnl dump dev wan | tcshow --json | tcmake --request --stream | tcnl send
  tcshow --json f.pcap | sed -n 3s/10240/500/p | tcmake --stream | tcnl send

DEV is the name of an interface, one of its altnames, or its index. send and clear take
CAP_NET_ADMIN. monitor says where notifications were lost, and goes on.

Exit status:
  0  done
  1  no such interface, something that the kernel refused, or an interface that kept changing during
     a dump
  2  usage error
  3  a socket or a stream failed, or a stream to send has anything but whole requests of traffic
     control: nothing of it is sent";

/// What is said where the kernel had more to tell than there was room for.
const LOST: &str = "notifications were lost, since they weren't read fast enough; what waits comes next, and tcnl dump has what is there now";

const OBJECTS: [(&str, Objects); 5] = [
    ("qdisc", Objects { qdiscs: true, ..Objects::NONE }),
    ("class", Objects { classes: true, ..Objects::NONE }),
    ("filter", Objects { filters: true, ..Objects::NONE }),
    ("chain", Objects { chains: true, ..Objects::NONE }),
    ("action", Objects { actions: true, ..Objects::NONE }),
];

fn command() -> Command {
    let words = |name: &'static str, most: usize, help: &'static str| {
        Arg::new(name).help(help).num_args(0..=most).value_parser(NonEmptyStringValueParser::new())
    };
    let links = Arg::new("links")
        .long("links")
        .help("Begin with the interfaces of the kernel (RTM_NEWLINK)")
        .action(ArgAction::SetTrue);
    let any = Arg::new("any").long("any").help("Send requests of other types too").action(ArgAction::SetTrue);
    Command::new("tcnl")
        .version(env!("CARGO_PKG_VERSION"))
        .about("Dumps, monitors and sends traffic control messages as netlink streams")
        .after_help(NOTES)
        .subcommand_required(true)
        .subcommand(
            Command::new("dump")
                .about("Write what the kernel has as a stream")
                .override_usage("tcnl dump [--links] [qdisc|class|filter|chain|action] [dev DEV]")
                .arg(links.clone())
                .arg(words("WORDS", 3, "The objects (default: all), and their interface (default: all)")),
        )
        .subcommand(Command::new("monitor").about("Write what changes as a stream, until it is ended").arg(links))
        .subcommand(Command::new("send").about("Send the requests of the stream at standard input").arg(any))
        .subcommand(
            Command::new("clear")
                .about("Delete the root, ingress and clsact qdiscs of an interface")
                .override_usage("tcnl clear dev DEV")
                .arg(words("WORDS", 2, "dev and the interface")),
        )
}

/// Does what its arguments ask for.
pub fn tcnl() -> ExitCode {
    let words = match words_of("tcnl", command()) {
        Ok(words) => words,
        Err(code) => return code,
    };
    match obey(&words) {
        Ok(code) => code,
        Err(ending) => ending.say("tcnl"),
    }
}

fn obey(words: &ArgMatches) -> Result<ExitCode, Ending> {
    match words.subcommand() {
        Some(("dump", words)) => dump(words),
        Some(("monitor", words)) => monitor(words),
        Some(("send", words)) => send(words),
        Some(("clear", words)) => clear_interface(words),
        _ => Ok(ExitCode::from(Status::Usage as u8)),
    }
}

// What words say as iproute2's: an object, if any, and `dev DEV`, if any. The error is what is wrong with them.
fn objects_and_interface<'a>(words: &[&'a str]) -> Result<(Objects, Option<&'a str>), String> {
    let named = |name: &str| OBJECTS.iter().find(|(object, _)| *object == name).map(|(_, objects)| *objects);
    let (objects, rest) = match words {
        [object, rest @ ..] if named(object).is_some() => (named(object), rest),
        all => (None, all),
    };
    let device = if rest.is_empty() { None } else { Some(interface_in(rest)?) };
    Ok((objects.unwrap_or(Objects::ALL), device))
}

// The interface of `dev DEV`. The error is what is wrong with these words.
fn interface_in<'a>(words: &[&'a str]) -> Result<&'a str, String> {
    match words {
        ["dev", device] => Ok(device),
        ["dev"] => Err("the interface after dev is missing".to_string()),
        ["dev", _, other, ..] | [other, ..] => Err(format!("the word {} isn't understood", Printable(other))),
        [] => Err("dev and the interface are missing".to_string()),
    }
}

fn texts(words: &ArgMatches) -> Vec<&str> {
    words.get_many::<String>("WORDS").into_iter().flatten().map(String::as_str).collect()
}

// Says what is wrong with words, and how the subcommand is to be used.
fn misused(name: &str, why: &str) -> ExitCode {
    let mut command = command();
    if let Some(it) = command.find_subcommand_mut(name) {
        print(it.error(ErrorKind::UnknownArgument, why));
    }
    ExitCode::from(Status::Usage as u8)
}

fn index_of(kernel: &mut Kernel, word: &str) -> Result<u32, Ending> {
    let devices = Devices::of(kernel)?;
    devices.find(word).map(|device| device.index).ok_or_else(|| Ending::no_interface(word))
}

fn write(bytes: &[u8]) -> Result<(), Ending> {
    let mut output = std::io::stdout().lock();
    let written = output.write_all(bytes).and_then(|()| output.flush());
    written.map_err(|error| Ending::new(Status::Stream, format!("standard output: {error}")))
}

fn dump(words: &ArgMatches) -> Result<ExitCode, Ending> {
    let (objects, device) = match objects_and_interface(&texts(words)) {
        Ok(said) => said,
        Err(why) => return Ok(misused("dump", &why)),
    };
    let mut kernel = Kernel::open()?;
    let mut listener = Listener::open()?;
    let interface = device.map(|device| index_of(&mut kernel, device)).transpose()?.map(|index| [index]);
    let mut messages = if words.get_flag("links") { links(&mut kernel)? } else { Vec::new() };
    messages.extend(dump_of(&mut kernel, &mut listener, objects, interface.as_ref().map(|it| &it[..]))?.messages);
    write(&stream_of(&messages))?;
    Ok(ExitCode::SUCCESS)
}

fn monitor(words: &ArgMatches) -> Result<ExitCode, Ending> {
    let mut listener = Listener::open()?;
    if words.get_flag("links") {
        write(&stream_of(&links(&mut Kernel::open()?)?))?;
    }
    loop {
        match listener.receive(None) {
            Ok(notices) => write(&stream_of(&notices.into_iter().map(|notice| notice.message).collect::<Vec<_>>()))?,
            // What waited before is still there, and comes next.
            Err(Fault::Lost) => say("tcnl", LOST),
            Err(fault) => return Err(fault.into()),
        }
    }
}

fn send(words: &ArgMatches) -> Result<ExitCode, Ending> {
    let mut bytes = Vec::new();
    std::io::stdin()
        .lock()
        .read_to_end(&mut bytes)
        .map_err(|error| Ending::new(Status::Stream, format!("standard input: {error}")))?;
    let mut kernel = Kernel::open()?;
    let stream = Stream::of(&bytes, kernel.most(), words.get_flag("any"))?;
    let refused = send_all(&mut kernel, &stream, |text| say("tcnl", text))?;
    Ok(ExitCode::from(u8::from(refused > 0)))
}

fn clear_interface(words: &ArgMatches) -> Result<ExitCode, Ending> {
    let device = match interface_in(&texts(words)) {
        Ok(device) => device,
        Err(why) => return Ok(misused("clear", &why)),
    };
    let mut kernel = Kernel::open()?;
    let index = index_of(&mut kernel, device)?;
    clear(&mut kernel, index)?;
    Ok(ExitCode::SUCCESS)
}

#[cfg(test)]
mod tests {
    use super::*;

    #[test]
    fn reads_words_in_their_order() {
        let of = |words: &[&'static str]| {
            objects_and_interface(words).map(|(objects, device)| (objects.classes, objects.qdiscs, device))
        };
        assert_eq!(of(&[]), Ok((true, true, None)));
        assert_eq!(of(&["dev", "wan"]), Ok((true, true, Some("wan"))));
        assert_eq!(of(&["class"]), Ok((true, false, None)));
        assert_eq!(of(&["class", "dev", "dev"]), Ok((true, false, Some("dev"))));
        for (words, wrong) in [
            (&["dev", "wan", "class"][..], "the word class isn't understood"),
            (&["class", "wan"], "the word wan isn't understood"),
            (&["class", "qdisc", "wan"], "the word qdisc isn't understood"),
            (&["wan", "dev", "class"], "the word wan isn't understood"),
            (&["class", "dev"], "the interface after dev is missing"),
            (&["dev"], "the interface after dev is missing"),
        ] {
            assert_eq!(of(words), Err(wrong.to_string()), "{words:?}");
        }
        assert_eq!(interface_in(&["wan"]), Err("the word wan isn't understood".to_string()));
        assert_eq!(interface_in(&[]), Err("dev and the interface are missing".to_string()));
    }
}
