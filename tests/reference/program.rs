//! A program over standard input.

use std::io::Result;
use std::process::ExitCode;

/// Print whether the examples hold.
fn selftest(hold: bool) -> ExitCode {
    if !hold {
        println!("an example fails");
        return ExitCode::FAILURE;
    }
    println!("ok");
    ExitCode::SUCCESS
}

/// Run the program of that name or, asked for a selftest, try its examples.
pub fn start(name: &str, run: fn() -> Result<()>, examples_hold: fn() -> bool) -> ExitCode {
    if std::env::args().nth(1).as_deref() == Some("selftest") {
        return selftest(examples_hold());
    }
    match run() {
        Ok(()) => ExitCode::SUCCESS,
        Err(error) => {
            eprintln!("{name}: {error}");
            ExitCode::FAILURE
        }
    }
}
