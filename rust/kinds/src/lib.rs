//! Writes Rust types for the tables of `kinds/`: a struct for each record, an enum for each list of attributes, for each named
//! number and for each choice, a set of flags for each flag word, and an enum by kind for options and statistics.
//!
//! The text has a module for each file and calls the macros of `conjareho/src/kinds/macros.rs`. `notation.rs` reads the tables,
//! `names.rs` has Rust's names for them, `uses.rs` finds the widths of numbers, `write.rs` writes the types, `rows.rs` what a visitor
//! is shown with each value, and `usage.rs` the examples in the documentation. Mistakes in the tables are reported by `kinds/generate`. This reader takes them as checked, and
//! skips the columns, lines and blocks that it doesn't know.
#![deny(missing_docs)]

mod names;
mod notation;
mod rows;
mod usage;
mod uses;
mod write;

use std::fs;
use std::io;
use std::path::Path;

/// Why no types are written: `FILE:LINE: WHY`.
pub type Fault = String;

/// A file of the tables: its path below `kinds/` and its text.
pub type File = (String, String);

/// Writes the types of the tables in a folder. Fails if a table can't be read, or if two types have the same name.
pub fn types(folder: &Path) -> Result<String, Fault> {
    let mut files = Vec::new();
    read_files(folder, "", &mut files).map_err(|e| format!("{}: {e}", folder.display()))?;
    types_of(&files)
}

/// Writes a page in Markdown: every kind, with the types of its options and statistics. Fails if a table can't be read.
pub fn page(folder: &Path) -> Result<String, Fault> {
    let mut files = Vec::new();
    read_files(folder, "", &mut files).map_err(|e| format!("{}: {e}", folder.display()))?;
    Ok(write::page(&notation::read(&files)?))
}

/// Writes the types of these files.
pub fn types_of(files: &[File]) -> Result<String, Fault> {
    write::types(&notation::read(files)?)
}

/// Reads the files of a folder and of those below it, in the order of their names. Tables have no extension, and begin with a comment that is no `#!`.
fn read_files(folder: &Path, below: &str, files: &mut Vec<File>) -> io::Result<()> {
    let mut entries = fs::read_dir(folder.join(below))?.collect::<Result<Vec<_>, _>>()?;
    entries.sort_by_key(|entry| entry.file_name());
    for entry in entries {
        let name = entry.file_name().to_string_lossy().into_owned();
        let path = if below.is_empty() { name.clone() } else { format!("{below}/{name}") };
        if entry.file_type()?.is_dir() {
            read_files(folder, &path, files)?;
        } else if !name.contains('.') {
            let text = fs::read_to_string(entry.path())?;
            if !text.starts_with("#!") {
                files.push((path, text));
            }
        }
    }
    Ok(())
}
