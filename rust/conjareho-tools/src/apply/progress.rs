//! How far a long run is, on a terminal.

use std::io::{self, IsTerminal as _, Write};
use std::sync::Arc;
use std::sync::atomic::{AtomicBool, AtomicUsize, Ordering};
use std::thread::{self, JoinHandle, sleep};
use std::time::{Duration, Instant};

/// Until then nothing is shown.
const FIRST: Duration = Duration::from_secs(1);
const PAUSE: Duration = Duration::from_millis(100);
/// How long the end waits for a line that is being written.
const PATIENCE: Duration = Duration::from_millis(200);

/// A count of requests, which is shown after a second. A terminal that nobody reads holds up the thread that writes, and no request.
#[derive(Debug)]
pub(crate) struct Progress {
    done: Arc<AtomicUsize>,
    is_over: Arc<AtomicBool>,
    showing: JoinHandle<()>,
}

impl Progress {
    /// That of so many requests; none if standard error is no terminal.
    pub(crate) fn of(total: usize) -> Option<Progress> {
        io::stderr().is_terminal().then(|| Progress::on(io::stderr(), total, FIRST))
    }

    fn on(mut terminal: impl Write + Send + 'static, total: usize, first: Duration) -> Progress {
        let (done, is_over) = (Arc::new(AtomicUsize::new(0)), Arc::new(AtomicBool::new(false)));
        let (own_done, own_over) = (Arc::clone(&done), Arc::clone(&is_over));
        let showing = thread::spawn(move || {
            let (begin, mut is_shown) = (Instant::now(), false);
            while !own_over.load(Ordering::Relaxed) {
                if begin.elapsed() >= first {
                    let done = own_done.load(Ordering::Relaxed);
                    let written =
                        write!(terminal, "\r{done} of {total} requests\x1b[K").and_then(|()| terminal.flush());
                    is_shown |= written.is_ok();
                }
                thread::park_timeout(PAUSE);
            }
            if is_shown {
                let _ = write!(terminal, "\r\x1b[K").and_then(|()| terminal.flush());
            }
        });
        Progress { done, is_over, showing }
    }

    /// One more is answered.
    pub(crate) fn pass(&self) {
        self.done.fetch_add(1, Ordering::Relaxed);
    }
}

/// The line goes, unless the terminal holds it up.
impl Drop for Progress {
    fn drop(&mut self) {
        self.is_over.store(true, Ordering::Relaxed);
        self.showing.thread().unpark();
        let until = Instant::now() + PATIENCE;
        while !self.showing.is_finished() && Instant::now() < until {
            sleep(Duration::from_millis(1));
        }
    }
}

#[cfg(test)]
mod tests {
    use super::*;
    use std::sync::Mutex;
    use std::sync::mpsc::{Receiver, channel};

    #[derive(Clone, Default)]
    struct Written(Arc<Mutex<Vec<u8>>>);

    impl Write for Written {
        fn write(&mut self, bytes: &[u8]) -> io::Result<usize> {
            self.0.lock().expect("a lock").extend_from_slice(bytes);
            Ok(bytes.len())
        }

        fn flush(&mut self) -> io::Result<()> {
            Ok(())
        }
    }

    fn shown(first: Duration) -> String {
        let written = Written::default();
        let progress = Progress::on(written.clone(), 5, first);
        progress.pass();
        sleep(Duration::from_millis(300));
        drop(progress);
        let bytes = written.0.lock().expect("a lock").clone();
        String::from_utf8(bytes).expect("a text")
    }

    #[test]
    fn a_long_run_is_shown_and_a_short_one_isnt() {
        assert_eq!(shown(Duration::from_secs(60)), "");
        let long = shown(Duration::ZERO);
        assert!(long.contains("\r1 of 5 requests\x1b[K") && long.ends_with("\r\x1b[K"), "{long:?}");
    }

    struct Stuck(Receiver<()>);

    impl Write for Stuck {
        fn write(&mut self, bytes: &[u8]) -> io::Result<usize> {
            let _ = self.0.recv();
            Ok(bytes.len())
        }

        fn flush(&mut self) -> io::Result<()> {
            Ok(())
        }
    }

    #[test]
    fn a_terminal_that_nobody_reads_holds_nothing_up() {
        let (reading, stuck) = channel();
        let begin = Instant::now();
        let progress = Progress::on(Stuck(stuck), 5, Duration::ZERO);
        progress.pass();
        drop(progress);
        assert!(begin.elapsed() < Duration::from_secs(10));
        drop(reading);
    }
}
