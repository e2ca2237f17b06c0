//! Runs the commands of a case in a folder of its own.

use std::collections::BTreeMap;
use std::fs::{self, File};
use std::path::{Path, PathBuf};
use std::process::{Command, Stdio};
use std::sync::Mutex;
use std::sync::atomic::{AtomicUsize, Ordering};

use crate::cases::Case;
use crate::digest::digest;
use crate::common::random::Random;

/// What a command came to.
#[derive(Clone)]
pub struct Outcome {
    pub command: String,
    /// None after a signal.
    pub status: Option<i32>,
    pub written: Vec<u8>,
    pub complaints: Vec<u8>,
}

impl Outcome {
    /// What is stored of it.
    pub fn digests(&self) -> String {
        let status = self.status.map_or("signal".into(), |status| status.to_string());
        format!("{status} {} {}", digest(&self.written), digest(&self.complaints))
    }
}

/// By the command's name and the case's.
pub type Outcomes<T> = BTreeMap<(String, String), T>;

/// Runs every case with the programs of a folder, on all processors, and keeps of each command what `of` takes.
pub fn all<T: Send>(programs: &Path, cases: &[Case], work: &Path, of: impl Fn(&str, &str, Outcome) -> T + Sync) -> Outcomes<T> {
    let (next, found) = (AtomicUsize::new(0), Mutex::new(BTreeMap::new()));
    let take = || {
        while let Some(case) = cases.get(next.fetch_add(1, Ordering::Relaxed)) {
            let outcomes = run(programs, case, &work.join(&case.name));
            let taken: Vec<_> = outcomes.into_iter().map(|(name, outcome)| (of(&name, &case.name, outcome), name)).collect();
            let mut found = found.lock().expect("no thread panics with it");
            found.extend(taken.into_iter().map(|(taken, name)| ((name, case.name.clone()), taken)));
        }
    };
    std::thread::scope(|scope| {
        for _ in 0..std::thread::available_parallelism().map_or(1, usize::from) {
            scope.spawn(take);
        }
    });
    found.into_inner().expect("no thread panics with it")
}

fn run(programs: &Path, case: &Case, folder: &Path) -> Vec<(String, Outcome)> {
    fs::create_dir_all(folder).expect("a folder can be made");
    for (name, bytes) in &case.files {
        fs::write(folder.join(name), bytes).expect("a file can be written");
    }
    let lines = case.modes.lines().filter_map(|line| line.split_once(": "));
    let done = lines.map(|(name, command)| (name.into(), run_one(programs, command, folder))).collect();
    fs::remove_dir_all(folder).expect("a folder can be removed");
    done
}

/// Runs `PROGRAM WORD.. < FILE > FILE`.
fn run_one(programs: &Path, command: &str, folder: &Path) -> Outcome {
    let (rest, to) = command.split_once(" > ").unwrap_or((command, ""));
    let (rest, from) = rest.split_once(" < ").unwrap_or((rest, ""));
    let mut words = rest.split_whitespace();
    let program: PathBuf = programs.join(words.next().expect("a command has a program"));
    let input = if from.is_empty() { Stdio::null() } else { File::open(folder.join(from)).expect("the case has the file").into() };
    // The zone is a rule, so that no file of the machine counts.
    let mut child = Command::new(&program);
    // rust/mutants turns mutants on by variables.
    let mutants = std::env::vars_os().filter(|(name, _)| name.to_string_lossy().starts_with("MUTANT"));
    child.args(words).current_dir(folder).env_clear().envs(mutants).env("TZ", "CET-1CEST,M3.5.0,M10.5.0/3").stdin(input);
    let output = child.output().unwrap_or_else(|error| panic!("{}: {error}", program.display()));
    if !to.is_empty() {
        fs::write(folder.join(to), &output.stdout).expect("a file can be written");
        fs::write(folder.join("misspelt.json"), misspelt(&output.stdout)).expect("a file can be written");
    }
    Outcome { command: command.into(), status: output.status.code(), written: output.stdout, complaints: output.stderr }
}

/// Lines with a byte or two changed in each but every third.
fn misspelt(lines: &[u8]) -> Vec<u8> {
    let mut random = Random(lines.len() as u64);
    let mut out = lines.to_vec();
    let mut from = 0;
    for line in lines.split_inclusive(|byte| *byte == b'\n') {
        for _ in 0..random.below(3) {
            let at = from + random.below(line.len());
            if out[at] != b'\n' {
                out[at] = *random.choose(b"0179aAzZ\"{}[],:.-x \\");
            }
        }
        from += line.len();
    }
    out
}
