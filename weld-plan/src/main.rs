//! The program: a sentence on what was wrong, and the exit status.
use std::process::ExitCode;

fn main() -> ExitCode {
    let arguments: Vec<_> = std::env::args_os().skip(1).collect();
    match weld_plan::run::run(&arguments) {
        Ok(status) => ExitCode::from(status),
        Err(fault) => {
            eprintln!("weld-plan: {}", fault.sentence);
            ExitCode::from(fault.status)
        }
    }
}
