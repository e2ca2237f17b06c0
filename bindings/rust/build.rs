//! Links libvtc: the one in the folder that `VTC_LIB_DIR` names, or else one that is installed.

fn main() {
    println!("cargo:rerun-if-env-changed=VTC_LIB_DIR");
    if let Ok(folder) = std::env::var("VTC_LIB_DIR") {
        println!("cargo:rustc-link-search=native={folder}");
        println!("cargo:rustc-link-lib=static=vtc");
    } else {
        println!("cargo:rustc-link-lib=vtc");
    }
}
