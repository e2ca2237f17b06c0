//! Erases the crates of the codec and of the programs into one file of nested modules.

include!("../conjareho/crates.rs");

/// The crates of the programs. The tables of all kinds are `tcmake`'s own.
const PROGRAMS: &[&str] = &["tcrewrite_lib", "tc_changes", "tc_check", "tc_faults", "forms_text"];

fn main() {
    let here = std::env::var_os("CARGO_MANIFEST_DIR").expect("cargo names the folder of the package");
    write_erased(&Path::new(&here).join("../../crates"), PROGRAMS, &[], "programs.rs");
}
