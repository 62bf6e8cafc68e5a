//! Asks the lead adviser of the library `leads`: `leads LIBRARY`, a shared object made from
//! target/staticlib/libleads.a. `src/leads.rs` says what is compared.

use rack_tests::leads::faults;
use rack_tests::leads::library::Library;
use rack_tests::leads::questions::checks;
use std::process::ExitCode;

/// A wrong adviser fails most checks; this many say enough.
const MOST_SHOWN: usize = 10;

fn main() -> ExitCode {
    let arguments: Vec<String> = std::env::args().skip(1).collect();
    let [path] = &arguments[..] else {
        eprintln!("usage: leads LIBRARY");
        return ExitCode::from(2);
    };
    let library = match Library::open(path) {
        Ok(library) => library,
        Err(what) => {
            eprintln!("{what}");
            return ExitCode::from(2);
        }
    };
    let checks = checks();
    let faults = faults(&library, &checks);
    for fault in faults.iter().take(MOST_SHOWN) {
        println!("FAILED {fault}");
    }
    let asked: usize = checks.iter().map(|check| check.questions.len()).sum();
    println!("{asked} questions in {} checks", checks.len());
    println!("{} passed, {} failed", checks.len() - faults.len(), faults.len());
    ExitCode::from(u8::from(!faults.is_empty()))
}
