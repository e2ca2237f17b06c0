//! What `tcshow` and `tcmake` print of stored messages and captures, of 12,000 changed messages and of 200 pairs of states is what it was:
//! the same bytes, complaints and status. Digests of a hundred messages each are in `testdata/goldens/digests`, a file a command.
//!
//!     cargo test -p conjareho-tools --test goldens                       compares
//!     GOLDENS_BESIDE=FOLDER cargo test -p conjareho-tools --test goldens shows what differs from the programs in FOLDER
//!     GOLDENS=write cargo test -p conjareho-tools --test goldens         writes them anew; a commit that does so names each command that changed
//!
//! GOLDENS=first ends at the first difference, which rust/mutants asks for. With GOLDENS_PROGRAMS=FOLDER the programs of that folder are run instead of those that cargo has built.

mod captures;
mod cases;
#[path = "../common/mod.rs"]
mod common;
mod digest;
mod modes;
mod run;
mod states;

use std::collections::{BTreeMap, BTreeSet};
use std::fmt::Write as _;
use std::fs;
use std::path::{Path, PathBuf};

use crate::cases::{Case, cases};
use crate::run::{Outcome, Outcomes, all};

const DIGESTS: &str = concat!(env!("CARGO_MANIFEST_DIR"), "/testdata/goldens/digests");

const ADVICE: &str = "
To see what differs, build the programs of before and name their folder:
    git worktree add ../before origin/main && (cd ../before && ./set-up && cargo build --locked -p conjareho-tools)
    GOLDENS_BESIDE=FOLDER cargo test -p conjareho-tools --test goldens
If it is meant: GOLDENS=write cargo test -p conjareho-tools --test goldens, and name the commands in the body of the commit.";

fn folder_of(variable: &str) -> Option<PathBuf> {
    let folder = PathBuf::from(std::env::var_os(variable)?);
    Some(folder.canonicalize().unwrap_or_else(|error| panic!("{variable}: {}: {error}", folder.display())))
}

/// Where the programs are that are tested.
fn programs() -> PathBuf {
    let built = Path::new(env!("CARGO_BIN_EXE_tcshow")).parent().expect("a program is in a folder");
    folder_of("GOLDENS_PROGRAMS").unwrap_or(built.into())
}

/// A folder for files, of which nothing is left.
fn work(name: &str) -> PathBuf {
    Path::new(env!("CARGO_TARGET_TMPDIR")).join(format!("goldens-{name}-{}", std::process::id()))
}

/// Digests by the command's name, and then by the case's.
type Digests = BTreeMap<String, BTreeMap<String, String>>;

fn by_command(found: Outcomes<String>) -> Digests {
    let mut out = Digests::new();
    for ((command, case), digests) in found {
        out.entry(command).or_default().insert(case, digests);
    }
    out
}

fn stored() -> Digests {
    let entries = fs::read_dir(DIGESTS).unwrap_or_else(|error| panic!("{DIGESTS}: {error}"));
    let read = |path: PathBuf| {
        let text = fs::read_to_string(&path).unwrap_or_else(|error| panic!("{}: {error}", path.display()));
        let rows = text.lines().filter_map(|line| line.split_once(' ')).map(|(case, digests)| (case.into(), digests.into()));
        (path.file_name().unwrap_or_default().to_string_lossy().into_owned(), rows.collect())
    };
    entries.map(|entry| read(entry.expect("a folder can be read").path())).collect()
}

fn write(found: &Digests) {
    let _ = fs::remove_dir_all(DIGESTS);
    fs::create_dir_all(DIGESTS).expect("a folder can be made");
    for (command, rows) in found {
        let text: String = rows.iter().map(|(case, digests)| format!("{case} {digests}\n")).collect();
        fs::write(Path::new(DIGESTS).join(command), text).expect("a file can be written");
    }
}

/// What of a case differs, in words.
fn difference(wanted: Option<&String>, found: Option<&String>) -> Option<String> {
    match (wanted, found) {
        (None, None) => None,
        (None, Some(_)) => Some("it has no digests".into()),
        (Some(_), None) => Some("it isn't run any more".into()),
        (Some(wanted), Some(found)) => {
            let parts = wanted.split(' ').zip(found.split(' ')).zip(["status", "output", "complaints"]);
            let differing: Vec<_> = parts.filter(|((wanted, found), _)| wanted != found).map(|(_, part)| part).collect();
            (!differing.is_empty()).then(|| differing.join(", "))
        }
    }
}

/// The commands whose digests differ, each with the first cases.
fn report(wanted: &Digests, found: &Digests) -> String {
    let (mut out, nothing) = (String::new(), BTreeMap::new());
    for command in wanted.keys().chain(found.keys()).collect::<BTreeSet<_>>() {
        let (wanted, found) = (wanted.get(command).unwrap_or(&nothing), found.get(command).unwrap_or(&nothing));
        let cases: BTreeSet<_> = wanted.keys().chain(found.keys()).collect();
        let differing: Vec<_> = cases.iter().filter_map(|case| Some((case, difference(wanted.get(*case), found.get(*case))?))).collect();
        if !differing.is_empty() {
            let first: Vec<_> = differing.iter().take(5).map(|(case, what)| format!("{case} ({what})")).collect();
            let _ = writeln!(out, "{command}: {} of {} cases: {}", differing.len(), cases.len(), first.join("; "));
        }
    }
    out
}

/// The first line that differs, before and after.
fn first_line(before: &[u8], after: &[u8]) -> String {
    let lines = |bytes: &[u8]| String::from_utf8_lossy(bytes).lines().map(String::from).collect::<Vec<_>>();
    let (before, after) = (lines(before), lines(after));
    let at = before.iter().zip(&after).take_while(|(left, right)| left == right).count();
    let shown = |lines: &[String]| lines.get(at).map_or("nothing".into(), |line| format!("{line:.2000}"));
    format!("line {}:\n    - {}\n    + {}", at + 1, shown(&before), shown(&after))
}

/// The first difference of each command, as the programs of two folders print it.
fn beside(other: &Path, cases: &[Case]) -> String {
    let (mut out, mut said) = (String::new(), BTreeSet::new());
    for some in cases.chunks(20) {
        let before = all(other, some, &work("before"), |_, _, outcome| outcome);
        let after = all(&programs(), some, &work("after"), |_, _, outcome| outcome);
        for ((command, case), before) in &before {
            let after: &Outcome = &after[&(command.clone(), case.clone())];
            if before.digests() == after.digests() || !said.insert(command.clone()) {
                continue;
            }
            let _ = writeln!(out, "{command}, case {case}: {}", before.command);
            if before.status != after.status {
                let _ = writeln!(out, "  status {:?}, then {:?}", before.status, after.status);
            }
            for (what, before, after) in [("output", &before.written, &after.written), ("complaints", &before.complaints, &after.complaints)] {
                if before != after {
                    let _ = writeln!(out, "  {what}, {}", first_line(before, after));
                }
            }
        }
    }
    out
}

/// Compares up to the first difference, with which it ends.
fn until_the_first(cases: &[Case]) {
    let stored = stored();
    all(&programs(), cases, &work("first"), |command, case, outcome| {
        let wanted = stored.get(command).and_then(|rows| rows.get(case));
        if let Some(what) = difference(wanted, Some(&outcome.digests())) {
            eprintln!("{command}: {case} ({what})");
            let _ = fs::remove_dir_all(work("first"));
            std::process::exit(1);
        }
    });
}

#[test]
fn programs_print_what_they_did() {
    let cases = cases();
    if let Some(other) = folder_of("GOLDENS_BESIDE") {
        let differing = beside(&other, &cases);
        assert!(differing.is_empty(), "\n{differing}");
        return;
    }
    let way = std::env::var("GOLDENS").unwrap_or_default();
    if way == "first" {
        return until_the_first(&cases);
    }
    let found = by_command(all(&programs(), &cases, &work("now"), |_, _, outcome| outcome.digests()));
    if way == "write" {
        return write(&found);
    }
    let differing = report(&stored(), &found);
    assert!(differing.is_empty(), "\n{differing}{ADVICE}");
}
