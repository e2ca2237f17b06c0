//! Erases the crates of the calls from C, with the codec and the forms, into one file of nested modules.

include!("../../rust/conjareho/crates.rs");

/// The crates of the calls.
const CALLS: &[&str] = &["tc_ffi", "tc_ffi_index"];

/// Typed messages in formats of serde.
const OMITTED: &[&str] = &["tc_message_json::shown"];

fn main() {
    let here = std::env::var_os("CARGO_MANIFEST_DIR").expect("cargo names the folder of the package");
    let users = [FORMS, CALLS].concat();
    write_erased(&Path::new(&here).join("../../crates"), &users, OMITTED, "calls.rs");
    println!("cargo::rustc-cdylib-link-arg=-Wl,-soname,libvtc.so.0");
}
