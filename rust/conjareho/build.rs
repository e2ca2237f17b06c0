//! Erases the crates of the codec into one file of nested modules, and writes the types of the tables in `kinds/`.

include!("crates.rs");

/// Modules that the codec doesn't use, but forms do.
const OMITTED: &[&str] = &["tc_texts::address", "tc_texts::hex_text"];

fn main() {
    let here = std::env::var_os("CARGO_MANIFEST_DIR").expect("cargo names the folder of the package");
    let has_forms = std::env::var_os("CARGO_FEATURE_SERDE").is_some();
    let (users, omitted) = if has_forms { (FORMS, &[][..]) } else { (&[][..], OMITTED) };
    write_erased(&Path::new(&here).join("../../crates"), users, omitted, "codec.rs");
    if std::env::var_os("CARGO_FEATURE_KINDS").is_some() {
        write_types(&Path::new(&here).join("../../kinds"));
    }
}

fn write_types(tables: &Path) {
    println!("cargo::rerun-if-changed={}", tables.display());
    let out = std::env::var_os("OUT_DIR").expect("cargo names the folder for what is made");
    for (name, text) in [("kinds.rs", kinds::types(tables)), ("kinds.md", kinds::page(tables))] {
        let text = text.unwrap_or_else(|fault| panic!("{fault}"));
        fs::write(Path::new(&out).join(name), text).expect("the folder for what is made can be written to");
    }
}
