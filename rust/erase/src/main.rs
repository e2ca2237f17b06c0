//! `erase FROM TO CRATE.. [-- CRATE..] [-- MODULE..]`: erases crates of the folder FROM to files of Rust below TO: those of the codec, and
//! after the dashes those of programs or tests, and the modules that are left out. If TO is `-`, it prints one file of nested modules.

use erase::Crates;
use std::path::Path;

fn main() -> Result<(), String> {
    let arguments: Vec<String> = std::env::args().skip(1).collect();
    let [from, to, crates @ ..] = arguments.as_slice() else { return Err("usage: erase FROM TO CRATE.. [-- CRATE..] [-- MODULE..]".into()) };
    let crates: Vec<&str> = crates.iter().map(String::as_str).collect();
    let lists: Vec<&[&str]> = crates.split(|name| *name == "--").collect();
    let list = |at: usize| lists.get(at).copied().unwrap_or_default();
    let erased = erase::erase(Crates { folder: Path::new(from), codec: list(0), users: list(1), omitted: list(2) })?;
    if to == "-" {
        print!("{}", erased.bundle());
        return Ok(());
    }
    erased.write(Path::new(to)).map_err(|e| e.to_string())
}
