//! Whatever the input is, the programs end in time, with a status of theirs, without a panic and without control bytes in what they print:
//! over RUNS (150) broken captures, lines and pairs of states of SEED (1), and over a capture that is cut after each byte.
#![cfg(unix)] // statuses and signals

#[path = "goldens/captures.rs"]
mod captures;
mod common;
#[path = "goldens/states.rs"]
mod states;

use std::fs::File;
use std::path::{Path, PathBuf};
use std::process::{Command, Stdio};
use std::sync::atomic::{AtomicUsize, Ordering};
use std::time::{Duration, Instant};

use captures::{answered, broken, pcap, pcapng, rtmon, stream, xxd, xxd_plain};
use common::random::Random;
use common::stored::{Messages, changed, data, hex, stored};

const TIME: Duration = Duration::from_secs(60);

fn number(variable: &str, without: u64) -> u64 {
    let given = std::env::var(variable).ok();
    given.map_or(without, |text| text.parse().unwrap_or_else(|_| panic!("{variable} isn't a number: {text}")))
}

/// A folder for a test's files.
fn work(name: &str) -> PathBuf {
    let folder = Path::new(env!("CARGO_TARGET_TMPDIR")).join(format!("robust-{name}-{}", std::process::id()));
    std::fs::create_dir_all(&folder).expect("a folder can be made");
    folder
}

/// Runs a program on a file; what it prints, or what is wrong.
fn ran(program: &str, words: &[&str], input: &[u8], folder: &Path) -> Result<Vec<u8>, String> {
    let path = |name: &str| folder.join(name);
    std::fs::write(path("input"), input).expect("a file can be written");
    let open = |name: &str| File::create(path(name)).expect("a file can be made");
    let from = File::open(path("input")).expect("it is there");
    let mut command = Command::new(program);
    command.args(words).current_dir(folder).stdin(from).stdout(open("output")).stderr(Stdio::from(open("errors")));
    let (mut child, begun) = (command.spawn().expect("it runs"), Instant::now());
    let status = loop {
        if let Some(status) = child.try_wait().expect("it can be waited for") {
            break status;
        }
        if begun.elapsed() > TIME {
            child.kill().expect("it can be ended");
            return Err("it doesn't end".into());
        }
        std::thread::sleep(Duration::from_millis(1));
    };
    let read = |name: &str| std::fs::read(path(name)).expect("it is there");
    let (output, errors) = (read("output"), read("errors"));
    let is_control = |byte: &u8| *byte < 32 && *byte != b'\n' || *byte == 127;
    match status.code() {
        Some(0..=3) if errors.iter().any(is_control) => Err(format!("control bytes in {:?}", String::from_utf8_lossy(&errors))),
        Some(0..=3) if !words.contains(&"--stream") && output.iter().any(is_control) => Err("control bytes in its output".into()),
        Some(0..=3) => Ok(output),
        _ => Err(format!("{status}: {}", String::from_utf8_lossy(&errors))),
    }
}

/// Each way to show an input, and to make requests of it.
fn tried(input: &[u8], folder: &Path) -> Result<(), String> {
    let (tcshow, tcmake) = (env!("CARGO_BIN_EXE_tcshow"), env!("CARGO_BIN_EXE_tcmake"));
    for words in [&["--outline", "--all"][..], &["-s", "--time", "date", "--acks"], &["--tree", "--summary"], &["--diff", "input", "-"]] {
        ran(tcshow, words, input, folder).map_err(|it| format!("{words:?} {it}"))?;
    }
    let shown = ran(tcshow, &["--json"], input, folder)?;
    let mut random = Random(shown.len() as u64);
    for lines in [shown.clone(), broken(&[&shown[..], b"\n"].concat(), &mut random)] {
        for words in [&["--request", "--stream"][..], &["--settle"], &["--plan", "input"]] {
            ran(tcmake, words, &lines, folder).map_err(|it| format!("{words:?} {it}"))?;
        }
    }
    Ok(())
}

/// Tries each input on all processors; what is wrong with the first that isn't taken well.
fn all(name: &str, inputs: &[Vec<u8>], of: impl Fn(&[u8], &Path) -> Result<(), String> + Sync) {
    let (next, folder) = (AtomicUsize::new(0), work(name));
    let take = |thread: usize| -> Result<(), String> {
        let own = folder.join(thread.to_string());
        std::fs::create_dir_all(&own).expect("a folder can be made");
        while let Some(input) = inputs.get(next.fetch_add(1, Ordering::Relaxed)) {
            of(input, &own).map_err(|it| format!("{it}\n{}", String::from_utf8_lossy(&hex(std::slice::from_ref(input)))))?;
        }
        Ok(())
    };
    let threads = std::thread::available_parallelism().map_or(1, usize::from);
    let found = std::thread::scope(|scope| {
        let running: Vec<_> = (0..threads).map(|thread| scope.spawn(move || take(thread))).collect();
        running.into_iter().try_for_each(|it| it.join().expect("no thread panics"))
    });
    std::fs::remove_dir_all(&folder).expect("the folder can be removed");
    assert_eq!(found, Ok(()));
}

/// A capture of a few changed messages in one of the formats, mostly broken.
fn input(stored: &[Vec<u8>], random: &mut Random) -> Vec<u8> {
    let messages: Messages = (0..1 + random.below(6)).map(|_| changed(stored, random)).collect();
    let mixed = if random.one_in(2) { answered(&messages) } else { messages };
    let (is_fine, is_big) = (random.one_in(2), random.one_in(2));
    let whole = match random.below(7) {
        0 => pcap(&mixed, is_fine, is_big),
        1 => pcapng(&mixed, is_big),
        2 => rtmon(&mixed),
        3 if is_big => xxd(&mixed[0]),
        3 => xxd_plain(&mixed[0]),
        4 => hex(&mixed),
        5 => stream(&states::pair(stored, random).0),
        _ => stream(&mixed),
    };
    if random.one_in(5) { whole } else { broken(&whole, random) }
}

#[test]
fn broken_inputs() {
    let (runs, seed) = (number("RUNS", 150), number("SEED", 1));
    println!("RUNS={runs} SEED={seed}");
    let (stored, mut random) = (stored(), Random(seed));
    let inputs: Messages = (0..runs).map(|_| input(&stored, &mut random)).collect();
    all("broken", &inputs, tried);
}

#[test]
fn a_capture_cut_after_each_byte() {
    let whole = data("tcshow/data/capture.pcap");
    let inputs: Messages = (0..whole.len()).map(|end| whole[..end].to_vec()).collect();
    all("cut", &inputs, |input, folder| ran(env!("CARGO_BIN_EXE_tcshow"), &[], input, folder).map(drop));
}
