//! `session PROGRAM`: the sample session of docs/COMMANDS.md, run through the program step by step.

use rack_tests::{documents, outside};
use std::process::ExitCode;

fn main() -> ExitCode {
    let arguments: Vec<String> = std::env::args().skip(1).collect();
    let [program] = &arguments[..] else {
        eprintln!("usage: session PROGRAM");
        return ExitCode::from(2);
    };
    match documents::session_differs(|input| outside::run(program, input)) {
        Ok(()) => {
            println!("{} passed, 0 failed", documents::session().len());
            ExitCode::SUCCESS
        }
        Err(what) => {
            println!("docs/COMMANDS.md: the program prints {what}");
            ExitCode::FAILURE
        }
    }
}
