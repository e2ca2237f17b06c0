//! Erases the codec and its tests into one file of nested modules.

include!("../../conjareho/crates.rs");

/// The crates of tests. Those of refused memory are left out: `rust/tests/refusals` does the same for the erased codec.
const TESTS: &[&str] = &[
    "tests_data",
    "tc_vectors",
];

/// Tests of how large Rattle's values are, of refused memory, of random bytes, and of lines of a program. Where a text isn't JSON,
/// `serde_json` says another column than Rattle's.
const OMITTED: &[&str] = &[
    "failing_alloc",
    "tc_message_json",
    "tcrewrite_lib",
    "tc_vectors::hostile",
    "tc_vectors::program",
    "tc_vectors::sizes",
    "tc_vectors::upgrade::is_right",
    "tc_vectors::upgrade::is_upgraded_without_memory",
    "tc_vectors::upgrade::worked",
    "tc_vectors::parts::actions::every_refused_allocation_is_reported",
    "tc_vectors::parts::actions::is_read",
    "tc_vectors::parts::actions::is_written_without_memory",
    "tc_vectors::parts::refusals",
];

fn main() {
    let here = std::env::var_os("CARGO_MANIFEST_DIR").expect("cargo names the folder of the package");
    let users = [FORMS, TESTS].concat();
    write_erased(&Path::new(&here).join("../../../crates"), &users, OMITTED, "tests.rs");
}
