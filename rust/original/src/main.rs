//! `original FILE COUNT`: conjareho beside netlink-packet-route 0.34.0, on the messages of a file and on COUNT changed ones.

#[path = "../../tests/kinds/src/changes.rs"]
mod changes;
mod differences;

use changes::{Numbers, changed};
use conjareho::{Emitable as _, ParseableBytes as _};
use differences::{Made, REASONS, Value, reason};
use netlink_packet_core::{Emitable as _, Parseable as _};
use std::hint::black_box;
use std::panic::{AssertUnwindSafe, catch_unwind};
use std::process::{Command, ExitCode};
use std::time::Instant;

/// Samples of each message and operation, by turns.
const PASSES: usize = 60;

/// The options of the compiler, which are those of Cargo.toml.
const OPTIONS: &str = "opt-level 3, fat LTO, one codegen unit";

macro_rules! sides {
    ($ours:ident, $theirs:ident, $type:ident) => {
        mod $ours {
            use super::*;
            use conjareho::tc::$type;

            pub fn made(bytes: &[u8]) -> Made {
                let value = $type::parse(bytes).map_err(|e| format!("{e:?}"))?;
                let text = format!("{value:?}");
                Ok(Value { text, len: value.checked_len().unwrap_or(0), bytes: value.to_bytes().ok() })
            }

            pub fn parse(bytes: &[u8]) -> bool {
                black_box($type::parse(bytes)).is_ok()
            }

            pub fn emit(bytes: &[u8], buffer: &mut [u8], times: usize) {
                let Ok(value) = $type::parse(bytes) else { return };
                for _ in 0..times {
                    let value = black_box(&value);
                    value.emit(&mut black_box(&mut *buffer)[..value.buffer_len()]);
                }
            }
        }

        mod $theirs {
            use super::*;
            use netlink_packet_route::tc::$type;

            pub fn made(bytes: &[u8]) -> Made {
                let parsed = catch_unwind(|| $type::parse(bytes)).map_err(|_| "it panicked".to_string())?;
                let value = parsed.map_err(|e| e.to_string())?;
                let text = format!("{value:?}");
                let written = catch_unwind(AssertUnwindSafe(|| {
                    let mut buffer = vec![0; value.buffer_len()];
                    value.emit(&mut buffer);
                    buffer
                }));
                let bytes = written.ok();
                Ok(Value { text, len: bytes.as_ref().map_or(0, Vec::len), bytes })
            }

            pub fn parse(bytes: &[u8]) -> bool {
                black_box($type::parse(bytes)).is_ok()
            }

            pub fn emit(bytes: &[u8], buffer: &mut [u8], times: usize) {
                let Ok(value) = $type::parse(bytes) else { return };
                for _ in 0..times {
                    let value = black_box(&value);
                    value.emit(&mut black_box(&mut *buffer)[..value.buffer_len()]);
                }
            }
        }
    };
}

sides! { our_tc, their_tc, TcMessage }
sides! { our_action, their_action, TcActionMessage }

/// The messages of a file: whether each is one of actions, and its bytes.
fn messages(path: &str) -> Vec<(bool, Vec<u8>)> {
    let text = std::fs::read_to_string(path).unwrap_or_else(|e| panic!("{path}: {e}"));
    let octet = |hex: &str, at: usize| u8::from_str_radix(&hex[2 * at..2 * at + 2], 16).expect("hex");
    let line = |line: &str| {
        let (form, hex) = line.split_once(' ')?;
        Some((form == "action", (0..hex.len() / 2).map(|at| octet(hex, at)).collect()))
    };
    text.lines().filter_map(line).collect()
}

fn compare(is_action: bool, bytes: &[u8], counts: &mut [usize; REASONS.len()]) -> bool {
    let (ours, theirs) = if is_action {
        (our_action::made(bytes), their_action::made(bytes))
    } else {
        (our_tc::made(bytes), their_tc::made(bytes))
    };
    match reason(&ours, &theirs) {
        Some(at) => counts[at] += 1,
        None => {
            let said = |made: &Made| made.as_ref().map_or_else(|e| format!("refused: {e}"), |it| it.text.clone());
            println!(
                "{} {}\n  ours   {}\n  theirs {}",
                ["tc", "action"][usize::from(is_action)],
                hex(bytes),
                said(&ours),
                said(&theirs)
            );
            return false;
        }
    }
    true
}

fn hex(bytes: &[u8]) -> String {
    bytes.iter().map(|octet| format!("{octet:02x}")).collect()
}

/// The least nanoseconds that a call takes.
fn least(least: &mut f64, times: usize, mut call: impl FnMut()) {
    let start = Instant::now();
    (0..times).for_each(|_| call());
    *least = least.min(start.elapsed().as_nanos() as f64 / times as f64);
}

/// Nanoseconds of parse, emit and both, of ours and theirs.
fn times(is_action: bool, bytes: &[u8]) -> [[f64; 2]; 3] {
    type Calls = (fn(&[u8]) -> bool, fn(&[u8], &mut [u8], usize));
    let sides: [Calls; 2] = if is_action {
        [(our_action::parse, our_action::emit), (their_action::parse, their_action::emit)]
    } else {
        [(our_tc::parse, our_tc::emit), (their_tc::parse, their_tc::emit)]
    };
    let (mut took, mut buffer) = ([[f64::MAX; 2]; 3], vec![0; 2 * bytes.len() + 4096]);
    let count = 1 + 40_000 / (bytes.len() + 100);
    for _ in 0..PASSES {
        for (side, (parse, emit)) in sides.iter().enumerate() {
            least(&mut took[0][side], count, || _ = parse(black_box(bytes)));
            least(&mut took[1][side], 1 + count / 8, || emit(black_box(bytes), &mut buffer, 64));
            least(&mut took[2][side], count, || emit(black_box(bytes), &mut buffer, 1));
        }
    }
    for side in 0..2 {
        // Reading the message is taken off.
        took[1][side] = (took[1][side] - took[0][side]).max(0.1) / 64.0;
    }
    took
}

/// The day, the processor and its load, the compiler and its options.
fn circumstances() -> String {
    let file = |path: &str| std::fs::read_to_string(path).unwrap_or_default();
    let (processors, load) = (file("/proc/cpuinfo"), file("/proc/loadavg"));
    let model = processors.lines().find_map(|line| line.strip_prefix("model name")?.split_once(": "));
    let date = Command::new("date").args(["-u", "+%-d %B %Y"]).output().map(|it| it.stdout).unwrap_or_default();
    let (date, load) = (String::from_utf8_lossy(&date), load.split(' ').next().unwrap_or(""));
    let model = model.map_or("unknown processor", |(_, name)| name);
    format!("{}, {model}, load {load}, {}, {OPTIONS}", date.trim(), env!("COMPILER"))
}

fn print_times(stored: &[(bool, Vec<u8>)]) {
    let mut logs = [[0.0; 2]; 3];
    let read = stored
        .iter()
        .filter(|(is_action, bytes)| if *is_action { our_action::parse(bytes) } else { our_tc::parse(bytes) });
    let timed: Vec<_> = read.step_by(1 + stored.len() / 100).collect();
    for (is_action, bytes) in &timed {
        for (log, took) in logs.iter_mut().zip(times(*is_action, bytes)) {
            (0..2).for_each(|side| log[side] += took[side].ln() / timed.len() as f64);
        }
    }
    println!("{}:\n", circumstances());
    println!(
        "| {} messages, geometric mean | conjareho, ns | netlink-packet-route, ns | ratio |\n|---|---:|---:|---:|",
        timed.len()
    );
    for (name, [ours, theirs]) in ["parse", "emit", "parse and emit"].iter().zip(logs.map(|log| log.map(f64::exp))) {
        println!("| {name} | {ours:.0} | {theirs:.0} | {:.2} |", ours / theirs);
    }
}

fn main() -> ExitCode {
    let words: Vec<String> = std::env::args().collect();
    let (stored, count) = (messages(&words[1]), words[2].parse::<usize>().expect("original FILE COUNT"));
    std::panic::set_hook(Box::new(|_| {}));
    let (mut counts, mut unexplained, mut numbers) = ([0; REASONS.len()], 0, Numbers(0x9e37_79b9_7f4a_7c15));
    for (is_action, bytes) in &stored {
        unexplained += usize::from(!compare(*is_action, bytes, &mut counts));
    }
    let small: Vec<_> = stored.iter().filter(|(_, bytes)| bytes.len() < 4096).collect();
    for _ in 0..count {
        let (is_action, bytes) = small[numbers.below(small.len())];
        let (_, other) = small[numbers.below(small.len())];
        let bytes = changed(&mut numbers, bytes, other);
        unexplained += usize::from(!compare(*is_action, &bytes, &mut counts));
        if unexplained > 20 {
            break;
        }
    }
    _ = std::panic::take_hook();
    print_times(&stored);
    println!();
    for (name, count) in REASONS.iter().zip(counts).filter(|(_, count)| *count > 0) {
        println!("{count} messages: {name}");
    }
    println!("{} stored and {count} changed messages, {unexplained} unexplained differences", stored.len());
    ExitCode::from(u8::from(unexplained > 0))
}
