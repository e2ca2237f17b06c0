//! The arguments of tcrestore, which is a call of tcapply.

use super::arguments::{Arguments, STATE, Way, allowed, flag, pair_of};
use ::clap::builder::NonEmptyStringValueParser;
use ::clap::{Arg, ArgAction, Command, Error, value_parser};
use std::ffi::OsString;
use std::time::Duration;

/// How long another one at work is waited for: there may be one for each interface when a machine starts.
const PATIENCE: Duration = Duration::from_secs(90);

const ABOUT: &str = "\
Restores traffic control as tcsave saved it: qdiscs, classes, filters, chains and actions

It is a call of tcapply, which is the program to use: tcrestore goes after the next release.";

const NOTES: &str = "\
Examples:
  tcrestore --clear saved.json                   what was saved, instead of what is there
  tcrestore --clear --dev wan1 saved.json        the same on another interface
  tcrestore --clear --map ids=ids0 saved.json    filters that name ids name ids0
  tcapply saved.json                             what was saved; what is the same isn't touched

All is planned before the first request is sent, as tcapply plans where nothing is, and what there
is now is saved in DIR. Without --clear nothing is deleted, and what is there already is refused. If
a request is refused, or a signal comes, what was there before is made again. If another program
changes the interface, tcrestore stops. At the end it compares what there is with FILE. It takes
CAP_NET_ADMIN.

Exit status:
  0  what is there is what FILE says
  1  nothing was sent: FILE is cut, an interface is missing, or down and would get what a filter
     redirects, something can't be made, another program is changing the interface, or a signal came
  2  usage error
  3  a socket or a file failed, and nothing was sent
  4  as 0, except for what can't be made and was named (--partial)
  5  the kernel refused a request, a signal came, or the result differs from FILE; what was there
     before is there again, which was compared
  6  the same, or another program changed the interface meanwhile; what was there before isn't there
     again, and the message names the file that has it";

/// What these words say, the program's name first. The error is a mistake in them, or the help or the version that they ask for.
pub(crate) fn arguments_of(words: impl IntoIterator<Item = OsString>) -> Result<Arguments, Error> {
    let mut matches = command().try_get_matches_from(words)?;
    Ok(Arguments {
        way: if matches.get_flag("clear") { Way::Anew } else { Way::Beside },
        partial: matches.get_flag("partial"),
        patience: PATIENCE,
        ..Arguments::shared(&mut matches)
    })
}

fn command() -> Command {
    Command::new("tcrestore")
        .version(env!("CARGO_PKG_VERSION"))
        .about(ABOUT)
        .after_help(NOTES)
        .arg(
            Arg::new("file")
                .value_name("FILE")
                .required(true)
                .value_parser(value_parser!(OsString))
                .help("Save to restore; - for standard input"),
        )
        .arg(
            Arg::new("dev")
                .long("dev")
                .value_name("DEV")
                .value_parser(NonEmptyStringValueParser::new())
                .help("Restore the only interface of FILE as DEV"),
        )
        .arg(
            Arg::new("map")
                .long("map")
                .value_name("NAME=NAME")
                .action(ArgAction::Append)
                .value_parser(pair_of)
                .help("Interface of FILE, and its name now; can be repeated"),
        )
        .arg(flag("clear", "First delete the root, ingress and clsact qdiscs of the interfaces"))
        .arg(flag("partial", "Leave out what can't be made, and report it"))
        .args(allowed())
        .arg(flag("no-rollback", "Don't go back if something fails; --clear even what can't be made again"))
        .arg(
            Arg::new("state")
                .long("state")
                .value_name("DIR")
                .value_parser(value_parser!(OsString))
                .help(format!("Folder for the last ten states before [default: {STATE}]")),
        )
}

#[cfg(test)]
mod tests {
    use super::*;
    use ::clap::error::ErrorKind;
    use std::path::PathBuf;

    fn of(words: &[&str]) -> Result<Arguments, ErrorKind> {
        let words = ["tcrestore"].iter().chain(words).map(OsString::from);
        arguments_of(words).map_err(|error| error.kind())
    }

    #[test]
    fn reads_words() {
        let all = of(&["--dev", "eth1", "--map", "ids=ids0", "--map", "a=b", "--clear", "--state", "/tmp/x", "f"])
            .expect("read");
        assert_eq!(all.devs, ["eth1"]);
        assert_eq!(all.map["ids"], "ids0");
        assert_eq!(all.map["a"], "b");
        assert!(all.way == Way::Anew && !all.partial && !all.replaces_actions);
        assert_eq!(all.state, PathBuf::from("/tmp/x"));
        assert_eq!(of(&["-"]).expect("read").file, None);
        assert_eq!(of(&["f"]).expect("read").state, PathBuf::from(STATE));
        assert_eq!(of(&["f"]).expect("read").way, Way::Beside);
    }

    #[test]
    fn an_empty_name_is_a_wrong_usage() {
        assert!(of(&["--dev", "", "f"]).is_err());
        assert!(of(&["--map", "=b", "f"]).is_err());
        assert!(of(&["--map", "a", "f"]).is_err());
        assert!(of(&[]).is_err());
        assert_eq!(of(&["--help"]).expect_err("help"), ErrorKind::DisplayHelp);
        assert_eq!(of(&["--version"]).expect_err("version"), ErrorKind::DisplayVersion);
    }
}
