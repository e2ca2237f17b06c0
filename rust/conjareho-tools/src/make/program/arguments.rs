//! The arguments of `tcmake`.

use crate::make::lines::Encoding;
use crate::make::messages::Making;
use clap::{ArgGroup, Args, Parser, value_parser};

/// What is made of lines and how it is written, as far as no file is needed for it.
#[derive(Clone, Copy, Debug)]
pub struct Options {
    /// How messages are written.
    pub form: Encoding,
    /// How a line is made into a message.
    pub making: Making,
    /// True if requests keep the order of the lines.
    pub in_order: bool,
    /// The interface of requests, instead of the dumps' own.
    pub index: Option<i32>,
    /// True if what needs no request is named.
    pub verbose: bool,
}

/// The arguments.
#[derive(Parser, Debug)]
#[command(
    name = "tcmake", version, about = ABOUT, long_about = None, override_usage = USAGE, after_help = NOTES,
    group = ArgGroup::new("output").args(["no_header", "pcap", "stream"]),
    group = ArgGroup::new("making").args(["settle", "as_given", "request", "plan"]),
    group = ArgGroup::new("requests").multiple(true).requires("request").args(["in_order", "now", "replace_actions"]),
    group = ArgGroup::new("asking").args(["request", "plan"]),
    group = ArgGroup::new("addresses").multiple(true).requires("asking").args(["index", "names", "verbose"]),
)]
pub struct Arguments {
    #[command(flatten)]
    output: Output,
    #[command(flatten)]
    build: Build,
    #[command(flatten)]
    requests: Requests,
}

#[derive(Args, Debug)]
#[command(next_help_heading = "Output (at most one; default: lines of hex)")]
struct Output {
    /// Print hex without the netlink header
    #[arg(long)]
    no_header: bool,
    /// Write a pcap capture (link type 253, LINKTYPE_NETLINK)
    #[arg(long)]
    pcap: bool,
    /// Write binary netlink messages, one after another
    #[arg(long)]
    stream: bool,
}

// What makes no requests goes with none of their options. That these want `--request` isn't enough: clap drops what is wanted where it
// conflicts with what is there.
#[derive(Args, Debug)]
#[command(next_help_heading = "What to build (at most one; default: exactly the bytes shown, checked)")]
struct Build {
    /// Build the canonical message instead, and report each change
    #[arg(long, conflicts_with_all = ["requests", "addresses"])]
    settle: bool,
    /// Build the bytes shown, without checking them
    #[arg(long, conflicts_with_all = ["requests", "addresses"])]
    as_given: bool,
    /// Build the requests that restore a dump, in an order that works
    #[arg(long)]
    request: bool,
    /// Build the requests that lead from FILE (tcshow --json) to what is read
    #[arg(long, value_name = "FILE", conflicts_with = "requests")]
    plan: Option<String>,
}

// An order needs all lines, and an interface has its index or its name.
#[derive(Args, Debug)]
#[command(next_help_heading = "With --request (the interface and its names also with --plan)")]
struct Requests {
    /// Keep the order of the input, and don't compare lines with each other
    #[arg(long)]
    in_order: bool,
    /// Address the requests to the interface with index N
    #[arg(long, value_name = "N", value_parser = value_parser!(i32).range(1..=0x7fff_ffff))]
    index: Option<i32>,
    /// Leave actions that are as in FILE (tcshow --json), change those that differ
    #[arg(long, value_name = "FILE", conflicts_with = "in_order")]
    now: Option<String>,
    /// Change actions that differ even if filters of other interfaces use them
    #[arg(long, requires = "now")]
    replace_actions: bool,
    /// Find the interfaces of a save by name in FILE (ip -o link)
    #[arg(long, value_name = "FILE", conflicts_with_all = ["in_order", "index"])]
    names: Option<String>,
    /// Report dumps that need no request because another request creates them
    #[arg(long)]
    verbose: bool,
}

impl Arguments {
    /// The options that name no file.
    #[must_use]
    pub fn options(&self) -> Options {
        Options {
            form: self.form(),
            making: self.making(),
            in_order: self.requests.in_order,
            index: self.requests.index,
            verbose: self.requests.verbose,
        }
    }

    /// The file with what the kernel has now.
    #[must_use]
    pub fn now(&self) -> Option<&str> {
        self.build.plan.as_deref().or(self.requests.now.as_deref())
    }

    /// True if requests lead from what the kernel has now to what is wanted.
    #[must_use]
    pub fn plans(&self) -> bool {
        self.build.plan.is_some()
    }

    /// True if actions are changed that filters of other interfaces hold too.
    #[must_use]
    pub fn replaces_actions(&self) -> bool {
        self.requests.replace_actions
    }

    /// The file with the names of the interfaces of now.
    #[must_use]
    pub fn names(&self) -> Option<&str> {
        self.requests.names.as_deref()
    }

    fn form(&self) -> Encoding {
        match self.output {
            Output { no_header: true, .. } => Encoding::Bare,
            Output { pcap: true, .. } => Encoding::Capture,
            Output { stream: true, .. } => Encoding::Stream,
            Output { .. } => Encoding::Hex,
        }
    }

    fn making(&self) -> Making {
        match &self.build {
            Build { settle: true, .. } => Making::Settled,
            Build { as_given: true, .. } => Making::AsGiven,
            Build { request: true, .. } | Build { plan: Some(_), .. } => Making::Restored,
            Build { .. } => Making::Checked,
        }
    }
}

const ABOUT: &str = "Build Linux traffic control messages from the JSON that tcshow --json prints

tcmake reads one JSON object per line from standard input and prints each message as a line of hex.
A line written by hand needs \"type\" and \"message\"; flags and seq default to 0.";

const USAGE: &str = "tcmake [OPTIONS] < LINES
       tcmake --request [OPTIONS] < DUMP
       tcmake --plan <FILE> [OPTIONS] < WANTED";

const NOTES: &str = "Examples:
  tcshow --json a.pcap | tcmake --pcap > b.pcap             copy the messages of a capture
  tcshow --json a.pcap | sed 's/\"Limit\":10240/\"Limit\":500/' | tcmake --pcap > b.pcap
  tcshow --json dump.pcap | tcmake --request --stream > r   requests that restore a dump
  tcmake --plan now.json --stream < wanted.json > r         requests that lead from one to another

Checks:
  By default the bytes must match what the line says about them (fits, settled and canonical, or
  refused); a line that says nothing must describe a canonical message. Unknown or misspelt
  members are errors, with a JSON pointer to the place. A line may be up to 4 MiB long, and its
  message 256 KiB.
  --request reads all lines before it writes anything, and holds them in memory. What can't be
  restored, and whatever depends on it, is reported and left out. A save, which begins with
  {\"save\":1, must be whole: its last line, {\"end\":N}, says how many lines are between them
  ({\"end\":true} if they were edited).
  --plan needs whole dumps, and makes no request at all if a line is wrong, or if something can't
  be made that isn't there as it is wanted. What is the same isn't touched, nor is any interface,
  shared block or action that the wanted lines don't name. A block that only named interfaces have
  counts as named. A save names its interfaces.

Exit status:
  0  every line was built
  1  a line was wrong, or something can't be restored (the rest is written)
  2  a usage error
  3  an I/O error, or out of memory";
