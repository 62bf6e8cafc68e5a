//! Drives the customers' `fit` and `call` directly: `calls LIBRARY`, a shared object made from
//! target/staticlib/libcapi.a. `src/direct.rs` says what is compared.

use rack_tests::direct::bench::Tally;
use rack_tests::direct::library::Library;
use rack_tests::direct::{checks, faults};
use std::process::ExitCode;

/// How many generated lists are used besides the others.
const GENERATED: u64 = 10_000;
/// A wrong controller fails most checks; this many say enough.
const MOST_SHOWN: usize = 10;

fn main() -> ExitCode {
    let arguments: Vec<String> = std::env::args().skip(1).collect();
    let [path] = &arguments[..] else {
        eprintln!("usage: calls LIBRARY");
        return ExitCode::from(2);
    };
    let (library, checks) = match (Library::open(path), checks(GENERATED)) {
        (Ok(library), Ok(checks)) => (library, checks),
        (Err(what), _) | (_, Err(what)) => {
            eprintln!("{what}");
            return ExitCode::from(2);
        }
    };
    let mut tally = Tally::default();
    let faults = faults(&library, &checks, &mut tally);
    for fault in faults.iter().take(MOST_SHOWN) {
        println!("FAILED {fault}");
    }
    println!("{} calls on the racks of {} fitting lists", tally.calls, tally.lists);
    println!("{} passed, {} failed", checks.len() - faults.len(), faults.len());
    ExitCode::from(u8::from(!faults.is_empty()))
}
