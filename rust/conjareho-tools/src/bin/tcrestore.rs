use std::process::ExitCode;

#[cfg(target_os = "linux")]
fn main() -> ExitCode {
    conjareho_tools::tcrestore()
}

#[cfg(not(target_os = "linux"))]
fn main() -> ExitCode {
    eprintln!("tcrestore: it speaks to a Linux kernel alone");
    ExitCode::from(3)
}
