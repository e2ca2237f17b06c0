//! Folders that only who runs the program, or root, may write to.

use nix::unistd::geteuid;
use std::fs::{self, DirBuilder};
use std::io;
use std::os::unix::fs::{DirBuilderExt as _, MetadataExt as _};
use std::path::Path;

/// Who may write besides the owner, of a mode.
const OTHERS_WRITE: u32 = 0o022;

/// Makes a folder, and those that it is in, for its owner alone, unless it is there. The error is what failed, or that others may write to it.
pub(crate) fn make_own(folder: &Path) -> io::Result<()> {
    DirBuilder::new().recursive(true).mode(0o700).create(folder)?;
    let found = fs::metadata(folder)?;
    if ![0, geteuid().as_raw()].contains(&found.uid()) {
        return Err(io::Error::other(format!("the folder {} belongs to user {}", folder.display(), found.uid())));
    }
    if found.mode() & OTHERS_WRITE != 0 {
        let (folder, mode) = (folder.display(), found.mode() & 0o7777);
        return Err(io::Error::other(format!("others may write to the folder {folder}, whose mode is {mode:o}")));
    }
    Ok(())
}

/// A folder for a test, which isn't there yet.
#[cfg(test)]
pub(crate) fn of_test(name: &str) -> std::path::PathBuf {
    let folder = std::env::temp_dir().join(format!("conjareho-{name}-{}", std::process::id()));
    let _ = fs::remove_dir_all(&folder);
    folder
}

#[cfg(test)]
mod tests {
    use super::*;
    use std::os::unix::fs::PermissionsExt as _;

    #[test]
    fn others_may_not_write() {
        let folder = of_test("own");
        make_own(&folder).expect("made");
        assert_eq!(fs::metadata(&folder).expect("there").mode() & 0o777, 0o700);
        for (mode, is_own) in [(0o755, true), (0o770, false), (0o702, false), (0o1777, false)] {
            fs::set_permissions(&folder, fs::Permissions::from_mode(mode)).expect("set");
            assert_eq!(make_own(&folder).is_ok(), is_own, "{mode:o}");
        }
        let said = make_own(&folder).expect_err("refused").to_string();
        assert!(said.ends_with("whose mode is 1777"), "{said}");
        fs::remove_dir_all(&folder).expect("removed");
        assert!(make_own(Path::new("/dev/null/there")).is_err());
    }
}
