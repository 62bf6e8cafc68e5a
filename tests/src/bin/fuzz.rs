//! Generated inputs: `fuzz PROGRAM N SEED` compares a program with the reference model,
//! `fuzz self N SEED` checks the reference model against its second reading,
//! `fuzz counts N SEED` shows which replies the generated inputs draw.

use rack_tests::{compare, outside};
use std::process::ExitCode;

fn main() -> ExitCode {
    let arguments: Vec<String> = std::env::args().skip(1).collect();
    let [what, count, seed] = &arguments[..] else {
        return usage();
    };
    let (Ok(count), Ok(seed)) = (count.parse(), seed.parse()) else {
        return usage();
    };
    match what.as_str() {
        "self" => check_itself(count, seed),
        "counts" => {
            for (reply, times) in compare::reply_counts(count, seed) {
                println!("{times:>8}  {reply}");
            }
            ExitCode::SUCCESS
        }
        program => check_program(program, count, seed),
    }
}

fn usage() -> ExitCode {
    eprintln!("usage: fuzz PROGRAM N SEED | fuzz self N SEED | fuzz counts N SEED");
    ExitCode::from(2)
}

fn check_itself(count: u64, seed: u64) -> ExitCode {
    match compare::with_itself(count, seed) {
        Ok(tally) => {
            println!("{count} lists: {tally:?}");
            ExitCode::SUCCESS
        }
        Err(what) => {
            println!("{what}");
            ExitCode::FAILURE
        }
    }
}

fn check_program(program: &str, count: u64, seed: u64) -> ExitCode {
    if let Err(what) = outside::startable(program) {
        eprintln!("{what}");
        return ExitCode::from(2);
    }
    match compare::with_program(program, count, seed) {
        None => {
            println!("{count} inputs alike (seed {seed})");
            ExitCode::SUCCESS
        }
        Some(report) => {
            println!("{report}");
            ExitCode::FAILURE
        }
    }
}
