//! Checks a message, given as hex: `check HEX`.
#![forbid(unsafe_code)]

use std::process::ExitCode;
use vtc::Form;

fn main() -> ExitCode {
    let text = std::env::args().nth(1).unwrap_or_default();
    let byte = |i| u8::from_str_radix(text.get(i..i + 2).unwrap_or(""), 16);
    let Ok(bytes) = (0..text.len()).step_by(2).map(byte).collect::<Result<Vec<_>, _>>() else {
        eprintln!("usage: check HEX");
        return ExitCode::from(2);
    };
    match Form::Tc.check(&bytes) {
        Ok(verdict) => println!("{verdict:?}"),
        Err(error) => {
            eprintln!("check: {error}");
            return ExitCode::FAILURE;
        }
    }
    ExitCode::SUCCESS
}
