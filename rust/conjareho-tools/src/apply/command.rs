//! A command that makes what is wanted.

use std::ffi::OsString;
use std::io::{self, Read, Write};
use std::process::{ChildStderr, Command, Stdio};
use std::sync::{Arc, Mutex, PoisonError};
use std::thread::{self, sleep};
use std::time::{Duration, Instant};

/// What a command finds.
pub(crate) const NO_HARDWARE: &str = "where it ran no interface has hardware, and what depends on it can't be made";

/// What it means that there is no qdisc to delete.
const NOTHING_THERE: &str = "see its error above; where it ran nothing is, so a first tc qdisc del fails: leave it out, or write || true after it";

/// How many bytes of its error output are looked at, the last ones.
const MOST_READ: usize = 64 << 10;
/// How long its error output is waited for after its end. What it started may go on, and write there.
const PATIENCE: Duration = Duration::from_secs(1);
const PAUSE: Duration = Duration::from_millis(5);

/// Runs a command to its end. Its error output is passed on. True if there was any although it ended well. The error says how it failed.
pub(crate) fn run(command: &[OsString]) -> Result<bool, String> {
    let [program, words @ ..] = command else { return Ok(false) };
    let name = program.to_string_lossy();
    let said = |error: io::Error| format!("{name}: {error}");
    let mut child = Command::new(program).args(words).stderr(Stdio::piped()).spawn().map_err(said)?;
    let written = Arc::new(Mutex::new(Vec::new()));
    let errors = child.stderr.take();
    let own = Arc::clone(&written);
    let passing = thread::spawn(move || errors.into_iter().for_each(|errors| pass_on(errors, &own)));
    let status = child.wait().map_err(said)?;
    let until = Instant::now() + PATIENCE;
    while !passing.is_finished() && Instant::now() < until {
        sleep(PAUSE);
    }
    let written = written.lock().unwrap_or_else(PoisonError::into_inner);
    if status.success() {
        return Ok(!written.is_empty());
    }
    Err(format!("{name} ended with {status}; {}", why(&written)))
}

// Writes the error output of a command to that of this program, and keeps the end of it.
fn pass_on(mut errors: ChildStderr, written: &Mutex<Vec<u8>>) {
    let mut bytes = [0; 4096];
    loop {
        let count = match errors.read(&mut bytes) {
            Ok(0) => return,
            Ok(count) => count,
            Err(error) if error.kind() == io::ErrorKind::Interrupted => continue,
            Err(_) => return,
        };
        let _ = io::stderr().write_all(&bytes[..count]);
        let mut written = written.lock().unwrap_or_else(PoisonError::into_inner);
        written.extend(&bytes[..count]);
        let left_out = written.len().saturating_sub(MOST_READ);
        written.drain(..left_out);
    }
}

// Why it may have failed, by what it wrote: iproute2 has the text of EOPNOTSUPP, or what the kernel says with it. `offload` is in usage texts too.
fn why(written: &[u8]) -> &'static str {
    let text = String::from_utf8_lossy(written).to_lowercase();
    let is_error = |line: &str| line.starts_with("error:") || line.starts_with("rtnetlink answers:");
    let lacks_offload = text.lines().any(|line| is_error(line) && line.contains("offload"));
    if lacks_offload || ["not support", "eopnotsupp"].iter().any(|it| text.contains(it)) {
        NO_HARDWARE
    } else if text.contains("cannot delete qdisc with handle of zero") {
        NOTHING_THERE
    } else if text.is_empty() {
        "it printed no error"
    } else {
        "see its error above"
    }
}

#[cfg(test)]
mod tests {
    use super::*;

    fn ended(script: &str) -> Result<bool, String> {
        run(&["sh", "-c", script].map(OsString::from))
    }

    fn said(script: &str) -> String {
        ended(script).err().unwrap_or_default()
    }

    #[test]
    fn says_how_a_command_failed() {
        assert_eq!(said("true"), "");
        assert_eq!(said("exit 3"), "sh ended with exit status: 3; it printed no error");
        assert_eq!(
            said("echo 'RTNETLINK answers: File exists' >&2; exit 2"),
            "sh ended with exit status: 2; see its error above"
        );
        let unsupported = said("echo 'RTNETLINK answers: Operation not supported' >&2; exit 2");
        assert_eq!(unsupported, format!("sh ended with exit status: 2; {NO_HARDWARE}"));
        let offload = said("echo 'Error: Device does not have offload.' >&2; exit 2");
        assert_eq!(offload, unsupported);
        assert_eq!(
            said("printf '\"rate\" is required.\\n  offload  enable hardware offload\\n' >&2; exit 1"),
            "sh ended with exit status: 1; see its error above",
            "a usage text"
        );
        assert_eq!(
            said("echo 'Error: Cannot delete qdisc with handle of zero.' >&2; exit 2"),
            format!("sh ended with exit status: 2; {NOTHING_THERE}")
        );
        assert_eq!(ended("true"), Ok(false));
        assert_eq!(ended("echo 'Error: Exclusivity flag on.' >&2; true"), Ok(true));
        assert_eq!(
            said("sleep 3 & exit 3"),
            "sh ended with exit status: 3; it printed no error",
            "what goes on isn't waited for"
        );
    }
}
