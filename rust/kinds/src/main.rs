//! `kinds FOLDER [--page]`: prints the types of the tables in a folder, or the page of all kinds.

use std::process::ExitCode;

fn main() -> ExitCode {
    let words: Vec<String> = std::env::args().skip(1).collect();
    let printed = match words.iter().map(String::as_str).collect::<Vec<_>>().as_slice() {
        [folder] => kinds::types(folder.as_ref()),
        [folder, "--page"] => kinds::page(folder.as_ref()),
        _ => Err("usage: kinds FOLDER [--page]".to_string()),
    };
    match printed {
        Ok(text) => print!("{text}"),
        Err(fault) => {
            eprintln!("{fault}");
            return ExitCode::FAILURE;
        }
    }
    ExitCode::SUCCESS
}
