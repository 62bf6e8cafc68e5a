//! Scripts: `script to-fields`, `script to-script` and `script run PROGRAM`, all from standard
//! input to standard output. The exit status of `run` is 1 if program and reference differ.

use rack_tests::{script, table};
use std::io::{self, Read, Write};
use std::process::ExitCode;

fn main() -> ExitCode {
    match done() {
        Ok((bytes, alike)) => match io::stdout().lock().write_all(&bytes) {
            Ok(()) if alike => ExitCode::SUCCESS,
            _ => ExitCode::FAILURE,
        },
        Err(what) => {
            eprintln!("{what}");
            ExitCode::from(2)
        }
    }
}

/// What is to be printed, and whether all is well.
fn done() -> Result<(Vec<u8>, bool), String> {
    let arguments: Vec<String> = std::env::args().skip(1).collect();
    let words: Vec<&str> = arguments.iter().map(String::as_str).collect();
    match words[..] {
        ["to-fields"] => Ok((script::parse(&input()?)?.bytes(), true)),
        ["to-script"] => Ok((script::write(&input()?).into_bytes(), true)),
        ["run", program] => {
            let table = table::show(&script::parse(&input()?)?, program)?;
            Ok((table.text.into_bytes(), table.alike))
        }
        _ => Err("usage: script to-fields | script to-script | script run PROGRAM".into()),
    }
}

fn input() -> Result<Vec<u8>, String> {
    let mut bytes = Vec::new();
    io::stdin().lock().read_to_end(&mut bytes).map_err(|error| error.to_string())?;
    Ok(bytes)
}
