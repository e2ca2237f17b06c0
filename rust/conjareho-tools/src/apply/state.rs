//! The states before: what there was, in files of a folder, of which the last ten are kept.

use super::folder::make_own;
use std::fs::{self, File, OpenOptions};
use std::io::{self, Write as _};
use std::os::unix::fs::OpenOptionsExt as _;
use std::path::{Path, PathBuf};
use std::time::{Duration, SystemTime, UNIX_EPOCH};

/// How many states are kept.
const KEPT: usize = 10;
const PREFIX: &str = "before-";
const SUFFIX: &str = ".json";
/// The least time between two names.
const TICK: Duration = Duration::from_nanos(1);

/// Writes a save into a new file of a folder, which only root can read, and returns its path. It is on the disk when this returns.
pub(crate) fn keep(folder: &Path, names: &[&str], text: &str) -> io::Result<PathBuf> {
    let now = SystemTime::now().duration_since(UNIX_EPOCH).unwrap_or_default();
    keep_at(now, folder, names, text)
}

// The same at some time, which may be before that of what is there: a machine without a clock begins in the past.
fn keep_at(now: Duration, folder: &Path, names: &[&str], text: &str) -> io::Result<PathBuf> {
    make_own(folder)?;
    let old = kept_in(folder);
    let last = old.last().map(|(time, _)| time.saturating_add(TICK)).unwrap_or_default();
    let path = folder.join(file_name(now.max(last), names));
    let mut file = OpenOptions::new().write(true).create_new(true).mode(0o600).open(&path)?;
    file.write_all(text.as_bytes())?;
    file.sync_all()?;
    File::open(folder)?.sync_all()?;
    // One that can't be deleted is kept.
    for (_, name) in old.iter().rev().skip(KEPT - 1) {
        let _ = fs::remove_file(folder.join(name));
    }
    Ok(path)
}

// The time, of a fixed number of digits, so that a list of names is in the order of time.
fn file_name(time: Duration, names: &[&str]) -> String {
    let names: String = names.join("+").chars().take(100).collect();
    format!("{PREFIX}{:011}.{:09}-{names}{SUFFIX}", time.as_secs(), time.subsec_nanos())
}

fn time_of(name: &str) -> Option<Duration> {
    let (time, _) = name.strip_prefix(PREFIX)?.strip_suffix(SUFFIX)?.split_once('-')?;
    let (seconds, nanoseconds) = time.split_once('.')?;
    let is_digits = |text: &str| text.bytes().all(|byte| byte.is_ascii_digit());
    if nanoseconds.len() != 9 || !is_digits(seconds) || !is_digits(nanoseconds) {
        return None;
    }
    Some(Duration::new(seconds.parse().ok()?, nanoseconds.parse().ok()?))
}

// The states of a folder, in the order of time.
fn kept_in(folder: &Path) -> Vec<(Duration, String)> {
    let entries = fs::read_dir(folder).into_iter().flatten().filter_map(Result::ok);
    let names = entries.filter_map(|entry| entry.file_name().into_string().ok());
    let mut kept: Vec<_> = names.filter_map(|name| Some((time_of(&name)?, name))).collect();
    kept.sort();
    kept
}

#[cfg(test)]
mod tests {
    use super::super::folder::of_test;
    use super::*;
    use std::os::unix::fs::PermissionsExt as _;

    #[test]
    fn keeps_the_last_ten() {
        let folder = of_test("state");
        let paths: Vec<PathBuf> = (0..12).map(|n| keep(&folder, &["wan"], &n.to_string()).expect("written")).collect();
        fs::write(folder.join("other"), "").expect("written");
        assert_eq!(
            paths.iter().map(|path| path.exists()).collect::<Vec<_>>(),
            [vec![false; 2], vec![true; 10]].concat()
        );
        assert_eq!(fs::read_to_string(&paths[11]).expect("read"), "11");
        assert_eq!(fs::metadata(&paths[11]).expect("there").permissions().mode() & 0o777, 0o600);
        fs::remove_dir_all(&folder).expect("removed");
    }

    #[test]
    fn a_clock_that_is_behind_forgets_only_what_is_older() {
        let folder = of_test("clock");
        let of = |seconds, n: usize| {
            keep_at(Duration::from_secs(seconds), &folder, &["wan"], &n.to_string()).expect("written")
        };
        let future: Vec<PathBuf> = (0..10).map(|n| of(1_900_000_000, n)).collect();
        let new = of(1_700_000_000, 10);
        assert_eq!(new.file_name().expect("a name"), "before-01900000000.000000010-wan.json");
        let newer = of(1_700_000_001, 11);
        assert_eq!(fs::read_to_string(&newer).expect("kept"), "11");
        let left: Vec<String> = kept_in(&folder).into_iter().map(|(_, name)| name).collect();
        let expected: Vec<PathBuf> = future.iter().skip(2).chain([&new, &newer]).cloned().collect();
        assert_eq!(left.iter().map(|name| folder.join(name)).collect::<Vec<_>>(), expected);
        fs::remove_dir_all(&folder).expect("removed");
    }

    #[test]
    fn other_files_are_left() {
        let folder = of_test("state-others");
        make_own(&folder).expect("made");
        let others = ["before-mine.json", "before-01900000000.5-wan.json", "before-+1900000000.000000001-wan.json"];
        others.iter().for_each(|name| fs::write(folder.join(name), "").expect("written"));
        let last = fs::write(folder.join(file_name(Duration::MAX, &["wan"])), "");
        last.expect("written");
        for n in 0..12 {
            // The last time that there is has no next one.
            let kept = keep_at(Duration::from_secs(n), &folder, &["wan"], "");
            assert!(kept.is_err(), "it isn't there already");
        }
        assert_eq!(fs::read_dir(&folder).expect("read").count(), 4);
        fs::remove_dir_all(&folder).expect("removed");
    }

    #[test]
    fn says_what_failed() {
        assert!(keep(Path::new("/dev/null/there"), &["wan"], "").is_err());
        let folder = of_test("state-open");
        make_own(&folder).expect("made");
        fs::set_permissions(&folder, fs::Permissions::from_mode(0o777)).expect("set");
        let said = keep(&folder, &["wan"], "").expect_err("refused").to_string();
        assert!(said.starts_with("others may write to the folder "), "{said}");
        fs::remove_dir_all(&folder).expect("removed");
    }
}
