//! The programs, erased with the codec.
#![forbid(unsafe_code)]

extern crate alloc;

#[cfg(target_os = "linux")]
mod apply;
#[path = "../../erase/shims/bitflags.rs"]
#[allow(dead_code)] // what the codec exports besides
mod bitflags;
#[path = "../../erase/shims/fallible.rs"]
mod fallible;
#[path = "../../erase/shims/hex.rs"]
mod hex;
#[path = "../../erase/shims/host.rs"]
pub mod host;
#[cfg(target_os = "linux")]
mod interfaces;
#[path = "../../erase/shims/jsontext.rs"]
mod jsontext;
mod line;
#[cfg(target_os = "linux")]
pub mod netlink;
#[cfg(target_os = "linux")]
pub mod requests;
#[cfg(target_os = "linux")]
pub mod save;
#[path = "../../erase/shims/events.rs"]
mod serde;
#[cfg(target_os = "linux")]
pub mod shown;
#[path = "../../erase/shims/small.rs"]
mod small;
#[cfg(target_os = "linux")]
pub mod status;
#[path = "../../erase/shims/strict.rs"]
mod strict;
#[cfg(target_os = "linux")]
mod tcnl;
#[cfg(target_os = "linux")]
mod tcsave;
#[path = "../../erase/shims/user.rs"]
#[allow(dead_code)] // what tests use besides
mod user;
#[path = "../../erase/shims/zones.rs"]
mod zones;

use ::itoa;
use serde::json as serde_json;
use small::arrayvec;
use zones::{jiff_core, jiff_tz};

#[allow(dead_code, missing_docs, unused_doc_comments, unused_imports, unused_labels, unused_must_use, unused_variables, clippy::complexity, clippy::perf, clippy::style, clippy::manual_unwrap_or_default, clippy::unnecessary_get_then_check, clippy::derived_hash_with_manual_eq, rustdoc::broken_intra_doc_links)]
#[path = "../../conjareho/src/paths/mod.rs"]
mod paths;
#[allow(dead_code, missing_docs, unused_doc_comments, unused_imports, unused_labels, unused_must_use, unused_variables, clippy::complexity, clippy::perf, clippy::style, clippy::manual_unwrap_or_default, clippy::unnecessary_get_then_check, clippy::derived_hash_with_manual_eq, rustdoc::broken_intra_doc_links)]
#[path = "../../conjareho/src/restore/mod.rs"]
mod restore;
#[allow(dead_code, missing_docs, unused_doc_comments, unused_imports, unused_labels, unused_must_use, unused_variables, clippy::complexity, clippy::perf, clippy::style, clippy::manual_unwrap_or_default, clippy::unnecessary_get_then_check, clippy::derived_hash_with_manual_eq, rustdoc::broken_intra_doc_links)]
#[path = "../../conjareho/src/typed_requests/mod.rs"]
mod typed_requests;
#[allow(dead_code, missing_docs, unused_doc_comments, unused_imports, unused_labels, unused_must_use, unused_variables, clippy::complexity, clippy::perf, clippy::style, clippy::manual_unwrap_or_default, clippy::unnecessary_get_then_check, clippy::derived_hash_with_manual_eq, rustdoc::broken_intra_doc_links)]
mod make;
#[allow(dead_code, missing_docs, unused_doc_comments, unused_imports, unused_labels, unused_must_use, unused_variables, clippy::complexity, clippy::perf, clippy::style, clippy::manual_unwrap_or_default, clippy::unnecessary_get_then_check, clippy::derived_hash_with_manual_eq, rustdoc::broken_intra_doc_links)]
mod plan;
#[allow(dead_code, missing_docs, unused_doc_comments, unused_imports, unused_labels, unused_must_use, unused_variables, clippy::complexity, clippy::perf, clippy::style, clippy::manual_unwrap_or_default, clippy::unnecessary_get_then_check, clippy::derived_hash_with_manual_eq, rustdoc::broken_intra_doc_links)]
mod read;
#[allow(dead_code, missing_docs, unused_doc_comments, unused_imports, unused_labels, unused_must_use, unused_variables, clippy::complexity, clippy::perf, clippy::style, clippy::manual_unwrap_or_default, clippy::unnecessary_get_then_check, clippy::derived_hash_with_manual_eq, rustdoc::broken_intra_doc_links)]
mod show;
#[allow(dead_code, missing_docs, unused_doc_comments, unused_imports, unused_labels, unused_must_use, unused_variables, clippy::complexity, clippy::perf, clippy::style, clippy::manual_unwrap_or_default, clippy::unnecessary_get_then_check, clippy::derived_hash_with_manual_eq, rustdoc::broken_intra_doc_links)]
mod streams;
#[cfg(test)]
#[allow(dead_code, missing_docs, unused_doc_comments, unused_imports, unused_labels, unused_must_use, unused_variables, clippy::complexity, clippy::perf, clippy::style, clippy::manual_unwrap_or_default, clippy::unnecessary_get_then_check, clippy::derived_hash_with_manual_eq, rustdoc::broken_intra_doc_links)]
mod tests;

// The erased crates, each a private module.
include!(concat!(env!("OUT_DIR"), "/programs.rs"));

#[cfg(target_os = "linux")]
pub use {apply::tcapply, apply::tcrestore, tcnl::tcnl, tcsave::tcsave};

use std::process::ExitCode;

use forms_kinds::{ACTION_MESSAGE, TC_MESSAGE, TcTables};
use host::HostRuntime;
use make::messages::Forms;

/// Shows the traffic control messages of a capture, or of lines of hex.
pub fn tcshow() -> ExitCode {
    ExitCode::from(show::program::program::tcshow(&mut HostRuntime.stderr()).status())
}

/// Makes traffic control messages of JSON.
pub fn tcmake() -> ExitCode {
    let forms = Forms { table: TcTables, tc: TC_MESSAGE, action: ACTION_MESSAGE };
    ExitCode::from(make::program::program::tcmake(forms, &mut HostRuntime.stderr()).status())
}

/// Reads a traffic control message as hex text, and reports on it.
pub fn tcrewrite() -> ExitCode {
    tcrewrite_lib::program::tcrewrite(&HostRuntime, &mut HostRuntime.stderr())
}
