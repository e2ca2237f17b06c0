//! The arguments.

use crate::user::prelude::*;

use crate::show::program::arguments::{Arguments, Colours, Task, TimeChoice};
use crate::show::program::example::Example;
use crate::show::program::options::OutputFormat;
use crate::tc_capture::MessageType;
use clap::Parser as _;

// A part of the arguments.
#[derive(Clone, Copy)]
enum Part {
    Task(Task<'static>),
    Format(OutputFormat),
    Time(TimeChoice),
    Acks,
    Example(Example),
    Files(&'static [&'static str]),
    Names(&'static str),
    WithoutHeader(MessageType),
    Kinds(&'static [&'static str]),
    Types(&'static [&'static str]),
    Interfaces(&'static [&'static str]),
    Handles(&'static [&'static str]),
    Parents(&'static [&'static str]),
    Chains(&'static [u32]),
    Priorities(&'static [u32]),
    Since(&'static str),
    Until(&'static str),
    Refused,
    Summary,
    Paddings,
    Colours(Colours),
    // The defaults.
    Defaults,
}

fn has(arguments: &Arguments, part: Part) -> bool {
    match part {
        Part::Task(task) => arguments.task() == task,
        Part::Format(form) => arguments.format() == form,
        Part::Time(format) => arguments.output.time == Some(format),
        Part::Acks => arguments.output.acks,
        Part::Example(example) => arguments.example() == Some(example),
        Part::Files(files) => arguments.files() == files,
        Part::Names(file) => arguments.names() == Some(file),
        Part::WithoutHeader(holds) => arguments.without_header() == Some(holds),
        Part::Kinds(words) => arguments.filters.kinds == words,
        Part::Types(words) => arguments.filters.types == words,
        Part::Interfaces(words) => arguments.filters.interfaces == words,
        Part::Handles(words) => arguments.filters.handles == words,
        Part::Parents(words) => arguments.filters.parents == words,
        Part::Chains(numbers) => arguments.filters.chains.as_slice() == numbers,
        Part::Priorities(numbers) => arguments.filters.priorities.as_slice() == numbers,
        Part::Since(word) => arguments.filters.since.as_deref() == Some(word),
        Part::Until(word) => arguments.filters.until.as_deref() == Some(word),
        Part::Refused => arguments.filters.refused,
        Part::Summary => arguments.output.summary,
        Part::Paddings => arguments.output.all,
        Part::Colours(colours) => arguments.output.colours == colours,
        Part::Defaults => is_default(arguments) && chooses_all(arguments),
    }
}

fn is_default(arguments: &Arguments) -> bool {
    arguments.format() == OutputFormat::Lines(false)
        && arguments.files().is_empty()
        && arguments.output.time.is_none()
        && !arguments.output.acks
        && arguments.example().is_none()
        && arguments.names().is_none()
        && arguments.without_header().is_none()
        && !arguments.output.all
        && !arguments.output.summary
        && arguments.output.colours == Colours::Auto
        && arguments.task() == Task::Show
}

fn chooses_all(arguments: &Arguments) -> bool {
    arguments.filters.kinds.is_empty()
        && arguments.filters.types.is_empty()
        && arguments.filters.interfaces.is_empty()
        && arguments.filters.since.is_none()
        && arguments.filters.until.is_none()
        && !arguments.filters.refused
}

// Words, and what they say.
static WORDS: [(&[&str], &[Part]); 20] = [
    (&["tcshow"], &[Part::Defaults]),
    (&["tcshow", "-s"], &[Part::Format(OutputFormat::Lines(true))]),
    (&["tcshow", "-v"], &[Part::Format(OutputFormat::Outline)]),
    (
        &["tcshow", "-s", "--time", "delta", "--acks"],
        &[Part::Format(OutputFormat::Lines(true)), Part::Time(TimeChoice::Delta), Part::Acks],
    ),
    (&["tcshow", "--time", "local"], &[Part::Time(TimeChoice::Local)]),
    (&["tcshow", "--time", "date", "--example"], &[Part::Time(TimeChoice::Date), Part::Example(Example::Whole)]),
    (&["tcshow", "--example", "broken"], &[Part::Example(Example::Broken)]),
    (
        &["tcshow", "-r", "a", "--json", "--names", "b", "--kind", "u32"],
        &[Part::Format(OutputFormat::Json), Part::Files(&["a"]), Part::Names("b"), Part::Kinds(&["u32"])],
    ),
    (
        &["tcshow", "--oneline", "--type", "RTM_NEWQDISC", "--dev", "7", "--no-header", "tc"],
        &[
            Part::Format(OutputFormat::Lines(false)),
            Part::Types(&["RTM_NEWQDISC"]),
            Part::Interfaces(&["7"]),
            Part::WithoutHeader(MessageType::Tc),
        ],
    ),
    (&["tcshow", "--no-header", "action", "--summary"], &[Part::WithoutHeader(MessageType::Action), Part::Summary]),
    (
        &["tcshow", "a", "--refused", "--since", "1", "--until", "2"],
        &[Part::Files(&["a"]), Part::Refused, Part::Since("1"), Part::Until("2")],
    ),
    (
        &["tcshow", "--chain", "0", "--chain", "7", "--pref", "49152", "--handle", "1:", "--parent", "2:"],
        &[Part::Chains(&[0, 7]), Part::Priorities(&[49152]), Part::Handles(&["1:"]), Part::Parents(&["2:"])],
    ),
    (&["tcshow", "--schema"], &[Part::Task(Task::Schema)]),
    (&["tcshow", "--explain"], &[Part::Task(Task::Explain(None))]),
    (&["tcshow", "--explain", "htb"], &[Part::Task(Task::Explain(Some("htb")))]),
    (&["tcshow", "a", "-", "b"], &[Part::Files(&["a", "-", "b"])]),
    (&["tcshow", "--outline", "--all"], &[Part::Format(OutputFormat::Outline), Part::Paddings]),
    (&["tcshow", "--color", "auto"], &[Part::Colours(Colours::Auto)]),
    (&["tcshow", "--color", "always"], &[Part::Colours(Colours::Always)]),
    (&["tcshow", "--color", "never"], &[Part::Colours(Colours::Never)]),
];

fn has_all(arguments: &Arguments, parts: &[Part]) -> bool {
    for part in parts {
        if !has(arguments, *part) {
            return false;
        }
    }
    true
}

// True if words are taken, and say this.
fn say(words: &[&str], parts: &[Part]) -> bool {
    match Arguments::try_parse_from(words) {
        Ok(arguments) => has_all(&arguments, parts),
        Err(_) => false,
    }
}

#[test]
fn each_option() {
    for (words, parts) in &WORDS {
        assert!(say(words, parts), "{words:?}");
    }
}

// Words that aren't taken, and the status.
static OTHERS: [(&[&str], i32); 15] = [
    (&["tcshow", "--help"], 0),
    (&["tcshow", "--version"], 0),
    (&["tcshow", "a", "--read", "a"], 2),
    (&["tcshow", "--pref", "65536"], 2),
    (&["tcshow", "--schema", "--explain"], 2),
    (&["tcshow", "--json", "--outline"], 2),
    (&["tcshow", "-s", "--outline"], 2),
    (&["tcshow", "-s", "--json"], 2),
    (&["tcshow", "--time", "date", "--outline"], 2),
    (&["tcshow", "--acks", "--json"], 2),
    (&["tcshow", "--time", "zone"], 2),
    (&["tcshow", "--example", "a"], 2),
    (&["tcshow", "--lines"], 2),
    (&["tcshow", "--no-header", "qdisc"], 2),
    (&["tcshow", "--color", "on"], 2),
];

fn status_of(words: &[&str]) -> i32 {
    match Arguments::try_parse_from(words) {
        Ok(_) => 9,
        Err(error) => {
            if error.use_stderr() {
                2
            } else {
                0
            }
        }
    }
}

#[test]
fn other_words() {
    for (words, status) in &OTHERS {
        assert!(status_of(words) == *status, "{words:?}");
    }
}
