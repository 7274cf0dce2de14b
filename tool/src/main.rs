//! The program `nibgravel`.
use std::process::ExitCode;

fn main() -> ExitCode {
    ExitCode::from(nibgravel_tool::run(std::env::args_os().skip(1)))
}
