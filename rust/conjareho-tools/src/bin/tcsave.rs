use std::process::ExitCode;

#[cfg(target_os = "linux")]
fn main() -> ExitCode {
    conjareho_tools::tcsave()
}

#[cfg(not(target_os = "linux"))]
fn main() -> ExitCode {
    eprintln!("tcsave: it runs on Linux only");
    ExitCode::from(3)
}
