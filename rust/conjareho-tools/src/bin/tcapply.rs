use std::process::ExitCode;

#[cfg(target_os = "linux")]
fn main() -> ExitCode {
    conjareho_tools::tcapply()
}

#[cfg(not(target_os = "linux"))]
fn main() -> ExitCode {
    eprintln!("tcapply: it speaks to a Linux kernel alone");
    ExitCode::from(3)
}
