use std::fs;
use std::path::Path;

/// The crates that the codec, its requests, index and captures are made of, with those below them.
const CODEC: &[&str] = &["tc_wire", "tc_index", "tc_capture", "tc_texts"];

/// The crates of forms, and the places of faults.
#[allow(dead_code)] // programs have more
const FORMS: &[&str] = &["forms_text", "tc_faults"];

/// These crates of a folder and those below them, by the `crates.txt` beside it, but for these others.
fn below(folder: &Path, roots: &[&str], others: &[String]) -> Vec<String> {
    let list = fs::read_to_string(folder.join("../crates.txt")).expect("crates.txt says what a crate is made of");
    let mut found: Vec<String> = roots.iter().map(|name| name.to_string()).collect();
    let mut at = 0;
    while at < found.len() {
        let lines = list.lines().filter_map(|line| line.split_once(':'));
        let own: Vec<_> = lines.filter(|(name, _)| name.split(' ').next() == Some(found[at].as_str())).collect();
        for name in own.iter().flat_map(|(_, names)| names.split_whitespace()) {
            if folder.join(name).is_dir() && !found.iter().chain(others).any(|it| it == name) {
                found.push(name.to_string());
            }
        }
        at += 1;
    }
    found
}

/// What is left of crates of the codec and of users of it, in a file below `OUT_DIR`, which is made anew where a crate has changed.
/// A crate that is omitted is left out with those below it alone.
fn write_erased(folder: &Path, users: &[&str], omitted: &[&str], name: &str) {
    let codec = below(folder, CODEC, &[]);
    let left_out = omitted.iter().filter(|name| !name.contains("::")).map(|name| name.to_string());
    let users = below(folder, users, &codec.iter().cloned().chain(left_out).collect::<Vec<_>>());
    println!("cargo::rerun-if-changed={}", folder.join("../crates.txt").display());
    for name in codec.iter().chain(&users) {
        println!("cargo::rerun-if-changed={}", folder.join(name).join("src").display());
    }
    let words = |names: &[String]| -> Vec<&'static str> { names.iter().map(|name| &*name.clone().leak()).collect() };
    let from = erase::Crates { folder, codec: &words(&codec), users: &words(&users), omitted };
    let erased = erase::erase(from).unwrap_or_else(|fault| panic!("{fault}"));
    let out = std::env::var_os("OUT_DIR").expect("cargo names the folder for what is made");
    fs::write(Path::new(&out).join(name), erased.bundle()).expect("the folder for what is made can be written to");
}
