//! A lock of a network namespace: one tcapply at a time.

use super::folder::make_own;
use super::scratch::OWN_NETWORK;
use super::status::Ended;
use super::status::Status;
use nix::errno::Errno;
use nix::fcntl::{FlockArg, flock};
use nix::libc::O_NOFOLLOW;
use nix::sys::stat::{major, minor};
use std::fs::{self, File, OpenOptions};
use std::io;
use std::os::fd::AsRawFd as _;
use std::os::unix::fs::{MetadataExt as _, OpenOptionsExt as _};
use std::path::{Path, PathBuf};
use std::thread::sleep;
use std::time::{Duration, Instant};

/// Where the locks are. Who can open a file can hold its lock, so these are no files that others may open, as those of the kernel are.
const FOLDER: &str = "/run/conjareho";

const PAUSE: Duration = Duration::from_millis(50);

/// A lock, as long as it is there.
#[derive(Debug)]
pub(crate) struct Lock {
    _file: File,
}

/// The lock of this network namespace. The error is who has it for so long, that a signal came, or what failed.
pub(crate) fn lock(patience: Duration, signal: &dyn Fn() -> Option<&'static str>) -> Result<Lock, Ended> {
    lock_in(Path::new(FOLDER), patience, signal)
}

fn lock_in(folder: &Path, patience: Duration, signal: &dyn Fn() -> Option<&'static str>) -> Result<Lock, Ended> {
    let failed = |what: &Path, error: io::Error| {
        Ended::because(Status::Failed, vec![format!("the lock {}: {error}", what.display())])
    };
    let path = path_in(folder).map_err(|error| failed(folder, error))?;
    let file = open(folder, &path).map_err(|error| failed(&path, error))?;
    let until = Instant::now() + patience;
    loop {
        match flock(file.as_raw_fd(), FlockArg::LockExclusiveNonblock) {
            Ok(()) => return Ok(Lock { _file: file }),
            Err(Errno::EWOULDBLOCK | Errno::EINTR) => {}
            Err(error) => return Err(failed(&path, error.into())),
        }
        let ended = |why: String| Ended::because(Status::NothingSent, vec![why, "nothing is sent".to_string()]);
        if let Some(name) = signal() {
            return Err(ended(format!("{name} came")));
        }
        if Instant::now() >= until {
            let (seconds, path, holder) = (patience.as_secs(), path.display(), holder_of(&file));
            return Err(ended(format!("waited {seconds} seconds for the lock {path}, which {holder} holds")));
        }
        sleep(PAUSE);
    }
}

// The file of this network namespace, by the device and the inode of the file by which the kernel shows it.
fn path_in(folder: &Path) -> io::Result<PathBuf> {
    let own = fs::metadata(OWN_NETWORK)?;
    Ok(folder.join(format!("{}-{}.lock", own.dev(), own.ino())))
}

fn open(folder: &Path, path: &Path) -> io::Result<File> {
    make_own(folder)?;
    OpenOptions::new().write(true).create(true).truncate(false).mode(0o600).custom_flags(O_NOFOLLOW).open(path)
}

// The process that holds the lock of a file. One of another PID namespace has no number here, and one that has ended may have left it to another.
fn holder_of(file: &File) -> String {
    let process = || {
        let own = file.metadata().ok()?;
        let locks = fs::read_to_string("/proc/locks").ok()?;
        held_by(&locks, own.dev(), own.ino())
    };
    match process() {
        Some(number) => match fs::read_to_string(format!("/proc/{number}/comm")) {
            Ok(name) => format!("process {number} ({})", name.trim_end()),
            Err(_) => format!("one that process {number} started"),
        },
        None => "another process".to_string(),
    }
}

// A line of a lock is `1: FLOCK  ADVISORY  WRITE 2431 00:19:1203 0 EOF`; that of one who waits has `->` after the number.
fn held_by(locks: &str, device: u64, inode: u64) -> Option<u32> {
    let place = format!("{:02x}:{:02x}:{inode}", major(device), minor(device));
    locks.lines().find_map(|line| match line.split_whitespace().collect::<Vec<_>>().as_slice() {
        [_, "FLOCK", _, _, process, found, ..] if *found == place => process.parse().ok(),
        _ => None,
    })
}

#[cfg(test)]
mod tests {
    use super::super::folder::of_test;
    use super::*;

    const MINUTE: Duration = Duration::from_secs(60);

    fn said(ended: Result<Lock, Ended>) -> String {
        ended.expect_err("an error").said[0].clone()
    }

    #[test]
    fn one_has_it() {
        let folder = of_test("lock");
        let first = lock_in(&folder, MINUTE, &|| None).expect("locked");
        assert_eq!(said(lock_in(&folder, MINUTE, &|| Some("SIGINT"))), "SIGINT came");
        let (said, own) = (said(lock_in(&folder, Duration::ZERO, &|| None)), std::process::id());
        assert!(said.starts_with(&format!("waited 0 seconds for the lock {}/", folder.display())), "{said}");
        assert!(said.contains(&format!(".lock, which process {own} (")) || said.contains("another process"), "{said}");
        drop(first);
        lock_in(&folder, MINUTE, &|| Some("SIGINT")).expect("free again");
        fs::remove_dir_all(&folder).expect("removed");
    }

    #[test]
    fn it_is_no_link_and_nobody_else_opens_it() {
        let folder = of_test("lock-link");
        let path = path_in(&folder).expect("a path");
        drop(lock_in(&folder, MINUTE, &|| None).expect("locked"));
        assert_eq!(fs::metadata(&path).expect("there").mode() & 0o777, 0o600);
        fs::remove_file(&path).expect("removed");
        std::os::unix::fs::symlink(folder.join("elsewhere"), &path).expect("a link");
        let failed = lock_in(&folder, MINUTE, &|| None).expect_err("a link");
        assert_eq!(failed.status, Status::Failed);
        assert!(!folder.join("elsewhere").exists());
        fs::remove_dir_all(&folder).expect("removed");
    }

    #[test]
    fn reads_who_holds_it() {
        let locks = "1: POSIX  ADVISORY  WRITE 9 00:19:1203 0 EOF\n2: FLOCK  ADVISORY  WRITE 2431 00:19:1203 0 EOF\n\
                     2: -> FLOCK  ADVISORY  WRITE 2440 00:19:1203 0 EOF\n3: FLOCK  ADVISORY  WRITE 7 fe:01:77 0 EOF\n";
        assert_eq!(held_by(locks, 0x19, 1203), Some(2431));
        assert_eq!(held_by(locks, 0x19, 1204), None);
        assert_eq!(held_by("2: -> FLOCK  ADVISORY  WRITE 2440 00:19:1203 0 EOF\n", 0x19, 1203), None);
    }
}
