use std::process::ExitCode;

fn main() -> ExitCode {
    conjareho_tools::tcrewrite()
}
