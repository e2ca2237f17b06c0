//! Tells the program by which compiler it is built.

use std::process::Command;

fn main() {
    let rustc = std::env::var_os("RUSTC").expect("cargo names the compiler");
    let said = Command::new(rustc).arg("--version").output().expect("the compiler runs").stdout;
    let version = String::from_utf8_lossy(&said);
    let words: Vec<_> = version.split(' ').take(2).collect();
    println!("cargo::rustc-env=COMPILER={}", words.join(" "));
    println!("cargo::rerun-if-changed=build.rs");
}
