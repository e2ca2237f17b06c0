//! Runs over a kernel that refuses and that notifies of changes by others, with signals in the middle, and with nobody who presses Enter.

mod applied;
pub(super) mod fake;
mod planned;
mod restored;

use super::apply;
use super::arguments::Arguments;
use super::messages::type_of;
use super::status::Status;
use super::trial::Given;
use super::world::{Stop, World, text_of};
use crate::netlink::message::*;
use crate::netlink::state_of;
use ::clap::Error;
use fake::{Fake, Hook, object};
use std::ffi::OsString;
use std::sync::atomic::{AtomicUsize, Ordering};
use std::time::Duration;

const WAN: i32 = 7;

fn of(kind: u16, handle: u32, parent: u32, name: &str, options: &[(u16, u32)]) -> Vec<u8> {
    object(
        kind,
        Tcmsg { index: WAN, handle, parent, info: if kind == RTM_NEWTFILTER { 0x0003_0008 } else { 0 } },
        name,
        options,
    )
}

/// drr with two classes and a filter, and clsact with one.
fn tree(quantum: u32) -> Vec<Vec<u8>> {
    vec![
        of(RTM_NEWQDISC, 0x1_0000, 0xFFFF_FFFF, "drr", &[]),
        of(RTM_NEWTCLASS, 0x1_0010, 0x1_0000, "drr", &[(1, quantum)]),
        of(RTM_NEWTCLASS, 0x1_0020, 0x1_0000, "drr", &[(1, quantum + 1)]),
        of(RTM_NEWQDISC, 0xFFFF_0000, 0xFFFF_FFF1, "clsact", &[]),
        of(RTM_NEWTFILTER, 1, 0x1_0000, "matchall", &[(1, 0x1_0010)]),
        of(RTM_NEWTFILTER, 1, 0xFFFF_FFF2, "matchall", &[(1, 0x1_0020)]),
    ]
}

fn taking() -> Hook {
    Box::new(|_, _, _| None)
}

/// What tcsave writes of these objects.
fn saved(objects: Vec<Vec<u8>>) -> String {
    let fake = Fake::new(taking());
    fake.state.borrow_mut().objects = objects;
    let dump = state_of(&mut fake.kernel(), &mut fake.listener(1), &[7]).expect("dumped");
    text_of(&dump, &[7]).expect("saved").0
}

struct Ran {
    status: Status,
    /// What was printed before the question.
    asked: String,
    said: String,
    objects: Vec<Vec<u8>>,
    sent: Vec<Vec<u8>>,
    /// How many states before were kept.
    kept: usize,
}

/// What reads the arguments of a program.
type Reader = fn(Vec<OsString>) -> Result<Arguments, Error>;

/// How a trial ends.
type Held<'h> = &'h dyn Fn() -> Result<(), &'static str>;

/// Runs a program with a file at its standard input where these objects are; if it is `held`, with a trial that ends so.
fn run_by(
    reader: Reader,
    words: &[&str],
    file: &str,
    objects: Vec<Vec<u8>>,
    fake: &Fake,
    held: Option<Held<'_>>,
) -> Ran {
    static COUNT: AtomicUsize = AtomicUsize::new(0);
    let number = COUNT.fetch_add(1, Ordering::Relaxed);
    let folder = std::env::temp_dir().join(format!("conjareho-apply-{}-{number}", std::process::id()));
    let first = ["program", "--state", &folder.display().to_string(), "-"].map(OsString::from);
    let mut arguments = reader(first.into_iter().chain(words.iter().map(OsString::from)).collect()).expect("arguments");
    arguments.trial = held.map(|_| Duration::from_secs(1));
    fake.state.borrow_mut().objects = objects;
    let signal = || fake.state.borrow().signal;
    let mut world = World::new(fake.kernel(), fake.listener(1), fake.listener(2), &signal);
    let mut said = Vec::new();
    let mut asked = Vec::new();
    let mut hold = |first: Vec<String>, _| {
        asked = first;
        held.map_or(Ok(()), |held| held().map_err(Stop::Signal))
    };
    let given = Given { bytes: file.as_bytes().to_vec(), doubted: None };
    let status = apply(&arguments, given, &mut world, &mut hold, &mut said);
    let kept = std::fs::read_dir(&arguments.state).map_or(0, Iterator::count);
    let _ = std::fs::remove_dir_all(&arguments.state);
    let state = fake.state.borrow();
    let (asked, said) = (asked.join("\n"), said.join("\n"));
    Ran { status, asked, said, objects: state.objects.clone(), sent: state.sent.clone(), kept }
}

/// Objects without the flags, the numbers and the ports of their messages, in an order of their own.
fn plain(objects: &[Vec<u8>]) -> Vec<Vec<u8>> {
    let mut plain: Vec<Vec<u8>> = objects.iter().map(|it| [&it[4..6], &it[HEADER..]].concat()).collect();
    plain.sort();
    plain
}

fn types(sent: &[Vec<u8>]) -> Vec<u16> {
    sent.iter().map(|it| type_of(it)).collect()
}
