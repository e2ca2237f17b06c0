//! The arguments of tcapply.

use ::clap::builder::NonEmptyStringValueParser;
use ::clap::error::ErrorKind;
use ::clap::{Arg, ArgAction, ArgMatches, Command, Error, value_parser};
use std::collections::BTreeMap;
use std::ffi::OsString;
use std::path::PathBuf;
use std::time::Duration;

/// Where the states before are kept.
pub(crate) const STATE: &str = "/var/lib/conjareho";

/// How long another one at work is waited for.
const PATIENCE: Duration = Duration::from_secs(10);

const ABOUT: &str = "\
Brings interfaces from the traffic control configuration that they have to the one that FILE says,
and leaves alone what is the same in both

It is no transaction: packets pass between its requests. It can't make eBPF programs, and doesn't
see what is attached by tcx.";

const NOTES: &str = "\
Examples:
  tcapply -n wan.json                  the plan: - deletes, + makes, ~ changes
  tcapply wan.json                     what tcsave saved, or what was edited in it
  tcapply --try 30 wan.json            back again unless Enter is pressed within 30 seconds
  tcapply --dev wan -- ./shaper.sh     what a script of tc commands makes where nothing is

What is the same isn't touched, unless what it is under is made again. If a request is refused, or
a signal comes, what was there before is made again, by a plan from what is there then. If another
program changes the interface meanwhile, tcapply stops. At the end it compares what there is with
FILE. It takes CAP_NET_ADMIN.

A script of commands needs set -e (#!/bin/sh -e): otherwise it goes on after a command that failed,
and what that was to make is deleted. It runs where nothing is, so a first tc qdisc del fails there:
leave it out, or write || true after it. All that it makes is applied, or nothing: each interface
with traffic control has its --dev, and one that it makes or sets up has to be there and up.

Exit status:
  0  what is there is what FILE says; if it was before, nothing was sent
  1  nothing was sent: FILE is cut, an interface is missing, or down and would get what a filter
     redirects, something can't be made, an action that differs is used by other interfaces too, the
     COMMAND or --check failed, another program is changing the interface, or a signal came
  2  usage error
  3  a socket or a file failed, and nothing was sent
  4  --dry-run: what is there isn't what FILE says
  5  the kernel refused a request, a signal came, Enter wasn't pressed, or the result differs from
     FILE; what was there before is there again, which was compared
  6  the same, or another program changed the interface meanwhile; what was there before isn't there
     again, and the message names the file that has it";

/// What becomes of what is there.
#[derive(Clone, Copy, PartialEq, Eq, Default, Debug)]
pub(crate) enum Way {
    /// It becomes what is wanted, and what is the same in both isn't touched.
    #[default]
    Change,
    /// It stays, and all that is wanted is made beside it.
    Beside,
    /// It goes, and all that is wanted is made.
    Anew,
}

/// What the arguments say, of tcapply or of tcrestore.
#[derive(Debug)]
pub(crate) struct Arguments {
    /// The file of the save; none for standard input.
    pub(crate) file: Option<PathBuf>,
    /// What makes the configuration that is wanted; none if a file has it.
    pub(crate) command: Option<Vec<OsString>>,
    /// The interface instead of the file's; all that the command sets up.
    pub(crate) devs: Vec<String>,
    /// The names of today by those of the file.
    pub(crate) map: BTreeMap<String, String>,
    pub(crate) way: Way,
    /// What can't be made is left out.
    pub(crate) partial: bool,
    /// Actions that filters of other interfaces hold too are changed.
    pub(crate) replaces_actions: bool,
    /// Packets may be redirected to an interface that is down.
    pub(crate) allows_down: bool,
    /// How long another one at work is waited for.
    pub(crate) patience: Duration,
    pub(crate) dry_run: bool,
    pub(crate) check: bool,
    /// What there is after each request is compared with the model that plans are made by: a test of the model.
    pub(crate) compares_steps: bool,
    /// Nothing is said if it worked.
    pub(crate) quiet: bool,
    /// How long Enter is waited for.
    pub(crate) trial: Option<Duration>,
    pub(crate) no_rollback: bool,
    /// The folder of the states before.
    pub(crate) state: PathBuf,
}

impl Arguments {
    /// Those that both programs have.
    pub(crate) fn shared(matches: &mut ArgMatches) -> Arguments {
        let file = matches.remove_one::<OsString>("file").filter(|path| path != "-");
        let map = matches.remove_many::<(String, String)>("map").into_iter().flatten().collect();
        Arguments {
            file: file.map(Into::into),
            command: None,
            devs: matches.remove_many("dev").into_iter().flatten().collect(),
            map,
            way: Way::Change,
            partial: false,
            replaces_actions: matches.get_flag("replace-actions"),
            allows_down: matches.get_flag("allow-down"),
            patience: PATIENCE,
            dry_run: false,
            check: false,
            compares_steps: false,
            quiet: true,
            trial: None,
            no_rollback: matches.get_flag("no-rollback"),
            state: matches.remove_one::<OsString>("state").unwrap_or_else(|| STATE.into()).into(),
        }
    }

    /// The file's name for messages.
    pub(crate) fn file_name(&self) -> String {
        match (&self.file, self.command.iter().flatten().next()) {
            (Some(path), _) => path.display().to_string(),
            (None, Some(program)) => program.to_string_lossy().into_owned(),
            (None, None) => "standard input".to_string(),
        }
    }

    /// What is said if nothing is to be done.
    pub(crate) fn nothing_to_do(&self) -> String {
        let verb = if self.command.is_some() { "makes" } else { "says" };
        format!("nothing to do: what is there is what {} {verb}", self.file_name())
    }
}

/// What these words say, the program's name first. The error is a mistake in them, or the help or the version that they ask for.
pub(crate) fn arguments_of(words: impl IntoIterator<Item = OsString>) -> Result<Arguments, Error> {
    let mut matches = command().try_get_matches_from(words)?;
    let arguments = Arguments {
        command: matches.remove_many("command").map(Iterator::collect),
        dry_run: matches.get_flag("dry-run"),
        check: matches.get_flag("check"),
        compares_steps: matches.get_flag("compare-steps"),
        quiet: matches.get_flag("quiet"),
        trial: seconds_of(&matches, "try"),
        patience: seconds_of(&matches, "wait").unwrap_or(PATIENCE),
        ..Arguments::shared(&mut matches)
    };
    if arguments.trial.is_some() && arguments.command.is_none() && arguments.file.is_none() {
        return Err(command().error(ErrorKind::ArgumentConflict, "--try waits at standard input, which FILE can't be"));
    }
    if arguments.command.is_none() && arguments.devs.len() > 1 {
        return Err(command().error(ErrorKind::ArgumentConflict, "several --dev are those of a COMMAND; FILE has one"));
    }
    Ok(arguments)
}

fn seconds_of(matches: &ArgMatches, name: &str) -> Option<Duration> {
    matches.get_one::<u64>(name).map(|seconds| Duration::from_secs(*seconds))
}

fn command() -> Command {
    Command::new("tcapply")
        .version(env!("CARGO_PKG_VERSION"))
        .about(ABOUT)
        .after_help(NOTES)
        .override_usage("tcapply [OPTIONS] <FILE>\n       tcapply [OPTIONS] --dev <DEV>.. -- <COMMAND>...")
        .arg(
            Arg::new("file")
                .value_name("FILE")
                .required_unless_present("command")
                .value_parser(value_parser!(OsString))
                .help("Save of what is wanted; - for standard input"),
        )
        .arg(
            Arg::new("command")
                .value_name("COMMAND")
                .last(true)
                .num_args(1..)
                .conflicts_with("file")
                .requires("dev")
                .value_parser(value_parser!(OsString))
                .help("Program that makes what is wanted of DEV alone, in a network namespace of its own"),
        )
        .args(plans())
        .args(interfaces())
        .args(ways_back())
}

/// Two names with a sign of equality between them.
pub(crate) fn pair_of(text: &str) -> Result<(String, String), String> {
    match text.split_once('=') {
        Some((left, right)) if !left.is_empty() && !right.is_empty() => Ok((left.to_string(), right.to_string())),
        _ => Err("two names are wanted, such as ids=ids0".to_string()),
    }
}

pub(crate) fn flag(name: &'static str, help: &'static str) -> Arg {
    Arg::new(name).long(name).action(ArgAction::SetTrue).help(help)
}

/// Options of what others share or hold up.
pub(crate) fn allowed() -> [Arg; 2] {
    [
        flag("replace-actions", "Change actions that filters of other interfaces use too"),
        flag("allow-down", "Make filters that redirect to an interface that is down: it drops packets"),
    ]
}

fn plans() -> Vec<Arg> {
    let wait = Arg::new("wait").long("wait").value_name("SECONDS").value_parser(value_parser!(u64).range(0..=86_400));
    let [replace, allow] = allowed();
    let all = [
        flag("dry-run", "Print the plan, and send nothing: - deleted, + made, ~ changed")
            .short('n')
            .conflicts_with_all(["check", "try", "quiet"]),
        flag("check", "Carry the plan out in a new network namespace, and send nothing here").conflicts_with("try"),
        // A test of the model: kernel/steps.py.
        flag("compare-steps", "Compare what there is after each request with the model that plans are made by")
            .hide(true),
        replace,
        allow,
        // What is so without it.
        flag("spare-actions", "Send nothing if an action that filters of other interfaces use would change")
            .hide(true)
            .conflicts_with("replace-actions"),
        wait.help(format!("How long another tcapply is waited for [default: {}]", PATIENCE.as_secs())),
        flag("quiet", "Don't say what was done").short('q'),
    ];
    all.map(|arg| arg.help_heading("Plan")).to_vec()
}

fn interfaces() -> [Arg; 2] {
    let dev = Arg::new("dev").long("dev").value_name("DEV").action(ArgAction::Append);
    let map = Arg::new("map").long("map").value_name("NAME=NAME").action(ArgAction::Append).value_parser(pair_of);
    [
        dev.value_parser(NonEmptyStringValueParser::new())
            .help("Apply the only interface of FILE to DEV; or each one that COMMAND sets up"),
        map.help("Interface of FILE, and its name now; can be repeated"),
    ]
    .map(|arg| arg.help_heading("Interfaces"))
}

fn ways_back() -> [Arg; 3] {
    let seconds = value_parser!(u64).range(1..=86_400);
    let trial = Arg::new("try").long("try").value_name("SECONDS").value_parser(seconds);
    let state = Arg::new("state").long("state").value_name("DIR").value_parser(value_parser!(OsString));
    [
        trial.help("Go back unless Enter is pressed within SECONDS, or if the terminal hangs up"),
        flag("no-rollback", "Don't go back if something fails; delete even what can't be made again"),
        state.help(format!("Folder for the last ten states before [default: {STATE}]")),
    ]
    .map(|arg| arg.help_heading("Way back"))
}

#[cfg(test)]
mod tests {
    use super::*;
    use std::path::PathBuf;

    fn of(words: &[&str]) -> Result<Arguments, ErrorKind> {
        let words = ["tcapply"].iter().chain(words).map(OsString::from);
        arguments_of(words).map_err(|error| error.kind())
    }

    #[test]
    fn reads_words() {
        let all = of(&["--dev", "eth1", "--map", "ids=ids0", "--try", "30", "--state", "/tmp/x", "f"]).expect("read");
        assert_eq!(all.devs, ["eth1"]);
        assert_eq!(all.map["ids"], "ids0");
        assert_eq!(all.trial, Some(Duration::from_secs(30)));
        assert_eq!((all.file, all.command), (Some(PathBuf::from("f")), None));
        assert_eq!(of(&["-"]).expect("read").file, None);
        assert_eq!(of(&["-n", "f"]).expect("read").state, PathBuf::from(STATE));
        assert!(of(&["-q", "f"]).expect("read").quiet && !of(&["f"]).expect("read").quiet);
        let replaces = |words: &[&str]| of(words).expect("read").replaces_actions;
        assert_eq!(
            [&["--replace-actions", "f"][..], &["f"], &["--spare-actions", "f"]].map(replaces),
            [true, false, false]
        );
        assert!(of(&["--allow-down", "f"]).expect("read").allows_down && !of(&["f"]).expect("read").allows_down);
        let patience = |words: &[&str]| of(words).expect("read").patience.as_secs();
        assert_eq!([patience(&["f"]), patience(&["--wait", "0", "f"]), patience(&["--wait", "90", "f"])], [10, 0, 90]);
    }

    #[test]
    fn reads_a_command() {
        let all = of(&["--dev", "wan", "-n", "--", "./shaper.sh", "--fast", "-n"]).expect("read");
        assert_eq!(all.command, Some(["./shaper.sh", "--fast", "-n"].map(OsString::from).to_vec()));
        assert!(all.dry_run && all.file.is_none());
        assert!(of(&["--", "./shaper.sh"]).is_err(), "of which interface");
        assert_eq!(of(&["--dev", "wan", "--dev", "ifb0", "--", "./sqm.sh"]).expect("read").devs, ["wan", "ifb0"]);
        assert!(of(&["--dev", "wan", "f", "--", "./shaper.sh"]).is_err());
    }

    #[test]
    fn refuses_what_makes_no_sense() {
        for words in [
            &["--try", "5", "-"][..],
            &["-n", "--try", "5", "f"],
            &["-n", "--check", "f"],
            &["-n", "-q", "f"],
            &["--try", "0", "f"],
            &["--dev", "wan", "--dev", "ifb0", "f"],
            &["--spare-actions", "--replace-actions", "f"],
            &[],
        ] {
            assert!(of(words).is_err(), "{words:?}");
        }
        assert_eq!(of(&["--help"]).expect_err("help"), ErrorKind::DisplayHelp);
    }

    #[test]
    fn help_fits_a_screen_of_100_columns() {
        let text = command().render_help().to_string();
        assert_eq!(text.lines().filter(|line| line.len() > 100).collect::<Vec<_>>(), Vec::<&str>::new());
    }
}
