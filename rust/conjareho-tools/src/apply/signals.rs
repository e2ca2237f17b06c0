//! Signals.

use nix::libc;
use std::fs;
use std::ops::RangeInclusive;
use std::sync::Arc;
use std::sync::atomic::{AtomicUsize, Ordering};

/// The signals that end a program, but for those of its own faults, SIGKILL, which can't be caught, and SIGPIPE, which a Rust program ignores.
const SIGNALS: [(i32, &str); 14] = [
    (libc::SIGINT, "SIGINT"),
    (libc::SIGTERM, "SIGTERM"),
    (libc::SIGHUP, "SIGHUP"),
    (libc::SIGQUIT, "SIGQUIT"),
    (libc::SIGALRM, "SIGALRM"),
    (libc::SIGVTALRM, "SIGVTALRM"),
    (libc::SIGPROF, "SIGPROF"),
    (libc::SIGUSR1, "SIGUSR1"),
    (libc::SIGUSR2, "SIGUSR2"),
    (libc::SIGXCPU, "SIGXCPU"),
    (libc::SIGXFSZ, "SIGXFSZ"),
    (libc::SIGIO, "SIGIO"),
    (libc::SIGPWR, "SIGPWR"),
    (libc::SIGSTKFLT, "SIGSTKFLT"),
];

/// Signals that end a program, too, and have no names of their own.
fn of_real_time() -> RangeInclusive<i32> {
    libc::SIGRTMIN()..=libc::SIGRTMAX()
}

/// The signals that end a program, kept instead of ending it.
pub(crate) struct Signals(Arc<AtomicUsize>);

impl Signals {
    /// Keeps them from here on. Those that are ignored, such as SIGHUP below nohup, stay ignored.
    pub(crate) fn catch() -> Result<Signals, String> {
        let caught = Arc::new(AtomicUsize::new(0));
        let ignored = ignored_in(&fs::read_to_string("/proc/self/status").unwrap_or_default());
        let numbers = SIGNALS.iter().map(|(number, _)| *number).chain(of_real_time());
        for number in numbers.filter(|number| !is_in(ignored, *number)) {
            signal_hook::flag::register_usize(number, Arc::clone(&caught), number as usize)
                .map_err(|error| format!("signal {number}: {error}"))?;
        }
        Ok(Signals(caught))
    }

    /// The last one that came, if one did.
    pub(crate) fn caught(&self) -> Option<&'static str> {
        match i32::try_from(self.0.load(Ordering::Relaxed)) {
            Ok(0) | Err(_) => None,
            Ok(number) => Some(name_of(number)),
        }
    }
}

fn name_of(number: i32) -> &'static str {
    let found = SIGNALS.iter().find(|(own, _)| *own == number);
    found.map_or("a real-time signal", |(_, name)| name)
}

// The signals that are ignored, as a mask: `SigIgn` of what `/proc` shows of a thread.
fn ignored_in(status: &str) -> u64 {
    let mask = status.lines().find_map(|line| line.strip_prefix("SigIgn:"));
    mask.and_then(|mask| u64::from_str_radix(mask.trim(), 16).ok()).unwrap_or_default()
}

// Bit 0 is signal 1.
fn is_in(mask: u64, number: i32) -> bool {
    u32::try_from(number - 1).ok().and_then(|bit| mask.checked_shr(bit)).is_some_and(|rest| rest & 1 == 1)
}

#[cfg(test)]
mod tests {
    use super::*;

    #[test]
    fn reads_which_are_ignored() {
        // below nohup; what a Rust program ignores too
        let mask = ignored_in("Name:\ttcapply\nSigBlk:\t0000000000000000\nSigIgn:\t0000000000001001\nSigCgt:\t00\n");
        assert_eq!(
            [libc::SIGHUP, libc::SIGINT, libc::SIGPIPE, 64].map(|it| is_in(mask, it)),
            [true, false, true, false]
        );
        assert!(is_in(1 << 63, 64) && !is_in(u64::MAX, 65) && !is_in(u64::MAX, 0));
        assert_eq!(ignored_in(""), 0);
        assert_eq!([name_of(libc::SIGQUIT), name_of(libc::SIGRTMAX())], ["SIGQUIT", "a real-time signal"]);
    }
}
