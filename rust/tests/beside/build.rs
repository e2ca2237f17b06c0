//! Links the library that VTC_ARCHIVE names: `libvtc.a` of `bindings/`.

use std::env;
use std::path::Path;

fn main() {
    println!("cargo::rerun-if-env-changed=VTC_ARCHIVE");
    let archive = env::var("VTC_ARCHIVE").expect("a variable names the archive");
    println!("cargo::rerun-if-changed={archive}");
    let folder = Path::new(&archive).parent().expect("a file has a folder");
    let name = Path::new(&archive).file_name().expect("a file has a name").to_string_lossy();
    println!("cargo::rustc-link-search=native={}", folder.display());
    println!("cargo::rustc-link-lib=static:+verbatim={name}");
}
