//! The time of a trial, in which somebody says that it is to stay.

use super::world::Stop;
use nix::errno::Errno;
use nix::poll::{PollFd, PollFlags, poll};
use nix::sys::termios::{FlushArg, tcflush};
use nix::unistd::{getpgrp, isatty, tcgetpgrp};
use std::io::{ErrorKind, Read};
use std::os::fd::{AsFd, AsRawFd as _, OwnedFd};
use std::sync::Arc;
use std::thread::{self, JoinHandle, sleep};
use std::time::{Duration, Instant};

/// How often signals are looked for, in milliseconds.
const PAUSE: i32 = 100;
/// How often it is looked whether a question is printed.
const SHORT_PAUSE: Duration = Duration::from_millis(10);

/// Prints these lines and a question, and waits for an empty line of an input. The error is why what was there before is to be made again.
pub(crate) fn hold<I: Read + AsFd>(
    input: &mut I,
    time: Duration,
    signal: &dyn Fn() -> Option<&'static str>,
    first: Vec<String>,
    print: impl Fn(Vec<String>) + Clone + Send + 'static,
) -> Result<(), Stop> {
    let until = Instant::now() + time;
    let seconds = time.as_secs();
    let mut asked = Asked { terminal: terminal_of(input), print, printing: None, is_blank: true, is_stale: false };
    let question = format!("the plan is applied; press Enter within {seconds} seconds, or it goes back");
    asked.ask(first.into_iter().chain([question]).collect());
    while Instant::now() < until {
        if let Some(name) = signal() {
            return Err(Stop::Signal(name));
        }
        if !asked.listens() {
            sleep(SHORT_PAUSE);
            continue;
        }
        if !is_ready(input)? {
            continue;
        }
        match asked.read(input)? {
            Answer::Yes => {
                asked.finish(until);
                return Ok(());
            }
            Answer::Other => asked.ask_again(until.saturating_duration_since(Instant::now())),
            Answer::None => {}
        }
    }
    Err(Stop::Unconfirmed(format!("nobody pressed Enter within {seconds} seconds")))
}

/// What was read.
enum Answer {
    /// An empty line.
    Yes,
    /// Another line.
    Other,
    /// No end of a line.
    None,
}

// Somebody who is asked.
struct Asked<P> {
    // The terminal of the input, if it is one.
    terminal: Option<Arc<OwnedFd>>,
    print: P,
    // The question that is being printed. A terminal that nobody reads mustn't hold up the way back.
    printing: Option<JoinHandle<()>>,
    // The line that is being read has nothing yet.
    is_blank: bool,
    // What the terminal has was typed for another job.
    is_stale: bool,
}

impl<P: Fn(Vec<String>) + Clone + Send + 'static> Asked<P> {
    fn ask(&mut self, lines: Vec<String>) {
        let (print, terminal) = (self.print.clone(), self.terminal.clone());
        self.printing = Some(thread::spawn(move || {
            print(lines);
            // What was typed before is no answer.
            terminal.iter().filter(|it| is_ours(it)).for_each(|it| forget(it));
        }));
        self.is_blank = true;
    }

    // Waits until the question is printed: it may be answered before, through a pipe.
    fn finish(&self, until: Instant) {
        while self.printing.as_ref().is_some_and(|it| !it.is_finished()) && Instant::now() < until {
            sleep(SHORT_PAUSE);
        }
    }

    fn ask_again(&mut self, left: Duration) {
        let seconds = left.as_secs();
        let question =
            format!("only an empty line keeps it: press Enter alone within {seconds} seconds, or it goes back");
        self.ask(vec![question]);
    }

    // True if the question can be answered. Reading or emptying the terminal of another job would stop this one.
    fn listens(&mut self) -> bool {
        let Some(terminal) = &self.terminal else { return true };
        if !is_ours(terminal) {
            self.is_stale = true;
            return false;
        }
        let is_asked = self.printing.as_ref().is_none_or(JoinHandle::is_finished);
        if is_asked && std::mem::take(&mut self.is_stale) {
            forget(terminal);
        }
        is_asked
    }

    // Reads what is there.
    fn read<I: Read>(&mut self, input: &mut I) -> Result<Answer, Stop> {
        let mut bytes = [0; 256];
        match input.read(&mut bytes) {
            Ok(0) => Err(Stop::Unconfirmed("standard input ended".to_string())),
            Ok(count) => Ok(self.answer_in(&bytes[..count])),
            Err(error) if error.kind() == ErrorKind::Interrupted => Ok(Answer::None),
            Err(error) => Err(failed(error)),
        }
    }

    fn answer_in(&mut self, bytes: &[u8]) -> Answer {
        let mut answer = Answer::None;
        for byte in bytes {
            match byte {
                b'\n' if self.is_blank => return Answer::Yes,
                b'\n' => (answer, self.is_blank) = (Answer::Other, true),
                b'\r' => {}
                _ => self.is_blank = false,
            }
        }
        answer
    }
}

fn terminal_of(input: &impl AsFd) -> Option<Arc<OwnedFd>> {
    let own = input.as_fd().try_clone_to_owned().ok()?;
    isatty(own.as_raw_fd()).unwrap_or(false).then(|| Arc::new(own))
}

// True unless another job has the terminal now. One that isn't this session's has no jobs.
fn is_ours(terminal: &OwnedFd) -> bool {
    tcgetpgrp(terminal.as_raw_fd()).map_or(true, |job| job == getpgrp())
}

fn forget(terminal: &OwnedFd) {
    let _ = tcflush(terminal.as_raw_fd(), FlushArg::TCIFLUSH);
}

fn is_ready(input: &impl AsFd) -> Result<bool, Stop> {
    match poll(&mut [PollFd::new(input.as_fd().as_raw_fd(), PollFlags::POLLIN)], PAUSE) {
        Ok(count) => Ok(count > 0),
        Err(Errno::EINTR) => Ok(false),
        Err(error) => Err(failed(error)),
    }
}

fn failed(error: impl std::fmt::Display) -> Stop {
    Stop::Unconfirmed(format!("standard input: {error}"))
}

#[cfg(test)]
mod tests {
    use super::*;
    use nix::fcntl::OFlag;
    use nix::pty::{PtyMaster, grantpt, posix_openpt, ptsname_r, unlockpt};
    use std::fs::{File, OpenOptions};
    use std::io::Write as _;
    use std::os::unix::fs::OpenOptionsExt as _;
    use std::os::unix::net::UnixStream;
    use std::sync::mpsc::channel;

    const SHORT: Duration = Duration::from_millis(300);

    fn text(held: Result<(), Stop>) -> String {
        held.err().map(|stop| stop.to_string()).unwrap_or_default()
    }

    fn said(written: &[u8], is_open: bool, signal: Option<&'static str>) -> String {
        let (mut input, mut other) = UnixStream::pair().expect("a pair");
        other.write_all(written).expect("written");
        let kept = is_open.then_some(other);
        let held = hold(&mut input, SHORT, &move || signal, Vec::new(), drop);
        drop(kept);
        text(held)
    }

    #[test]
    fn an_empty_line_keeps_it() {
        assert_eq!(said(b"\n", true, None), "");
        assert_eq!(said(b"\r\n", true, None), "");
        assert_eq!(said(b"no\n\n", false, None), "");
    }

    #[test]
    fn everything_else_goes_back() {
        assert_eq!(said(b"yes\n", true, None), "nobody pressed Enter within 0 seconds");
        assert_eq!(said(b"no\n", false, None), "standard input ended");
        assert_eq!(said(b"yes", true, None), "nobody pressed Enter within 0 seconds");
        assert_eq!(said(b"", false, None), "standard input ended");
        assert_eq!(said(b"y", false, None), "standard input ended");
        assert_eq!(said(b"\n", true, Some("SIGHUP")), "SIGHUP came");
    }

    // Both ends of a terminal that is no session's.
    fn terminal() -> (PtyMaster, File) {
        let master = posix_openpt(OFlag::O_RDWR | OFlag::O_NOCTTY).expect("a terminal");
        grantpt(&master).and_then(|()| unlockpt(&master)).expect("unlocked");
        let path = ptsname_r(&master).expect("a name");
        let flags = OFlag::O_NOCTTY.bits();
        (master, OpenOptions::new().read(true).write(true).custom_flags(flags).open(path).expect("opened"))
    }

    // What is said if this was typed before the first question and after each.
    fn typed(before: &str, after: &[&'static str]) -> (String, Vec<String>) {
        let (mut master, mut input) = terminal();
        master.write_all(before.as_bytes()).expect("typed");
        let (asking, asked) = channel();
        let after = after.to_vec();
        let typing = thread::spawn(move || {
            let mut questions = Vec::new();
            while let Ok(question) = asked.recv() {
                if let Some(text) = after.get(questions.len()) {
                    sleep(Duration::from_millis(200));
                    master.write_all(text.as_bytes()).expect("typed");
                }
                questions.push(question);
            }
            questions
        });
        let first = vec!["1 request".to_string()];
        let print = move |lines: Vec<String>| drop(asking.send(lines.join("; ")));
        let held = hold(&mut input, Duration::from_secs(2), &|| None, first, print);
        (text(held), typing.join().expect("typed"))
    }

    #[test]
    fn a_terminal_takes_what_is_typed_after_the_question() {
        let late = "nobody pressed Enter within 2 seconds";
        let question = "1 request; the plan is applied; press Enter within 2 seconds, or it goes back";
        assert_eq!(typed("\n\n", &[]), (late.to_string(), vec![question.to_string()]));
        assert_eq!(typed("no", &["\n"]).0, "", "what was typed before isn't in the line");
        let (held, questions) = typed("", &["no\n\n"]);
        assert_eq!((held.as_str(), questions.len()), (late, 2));
        assert!(questions[1].starts_with("only an empty line keeps it"), "{}", questions[1]);
        assert_eq!(typed("\n", &["no\n", "\n"]).0, "");
    }
}
