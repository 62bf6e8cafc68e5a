//! A program that gets one field at each read: `one_a_read INPUT PROGRAM [ARGUMENT..]` starts it,
//! feeds it the file's fitting list and then its fields, each as a message of its own, and ends
//! when the program ends.

use rack_tests::messages::feed;
use std::fs;
use std::process::{Command, ExitCode};

fn main() -> ExitCode {
    let arguments: Vec<String> = std::env::args().skip(1).collect();
    let [input, program, rest @ ..] = &arguments[..] else {
        eprintln!("usage: one_a_read INPUT PROGRAM [ARGUMENT..]");
        return ExitCode::from(2);
    };
    match run(input, Command::new(program).args(rest)) {
        Ok(code) => ExitCode::from(code),
        Err(what) => {
            eprintln!("{what}");
            ExitCode::FAILURE
        }
    }
}

/// The program's exit status; one that a signal ended is an error.
fn run(input: &str, command: &mut Command) -> Result<u8, String> {
    let bytes = fs::read(input).map_err(|error| format!("{input}: {error}"))?;
    let program = command.get_program().to_string_lossy().into_owned();
    let status = feed(command, &bytes).map_err(|error| format!("{program}: {error}"))?;
    match status.code() {
        Some(code) => Ok(code as u8),
        None => Err(format!("{program} ended with {status}")),
    }
}
