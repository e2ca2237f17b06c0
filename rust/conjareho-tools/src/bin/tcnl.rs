use std::process::ExitCode;

#[cfg(target_os = "linux")]
fn main() -> ExitCode {
    conjareho_tools::tcnl()
}

#[cfg(not(target_os = "linux"))]
fn main() -> ExitCode {
    eprintln!("tcnl: it runs on Linux only");
    ExitCode::from(3)
}
