//! Asks the library `capi` for the resistance of cells: `resistance LIBRARY`, a shared object made
//! from target/staticlib/libcapi.a. `src/resistance.rs` says what is compared.

use rack_tests::resistance::library::Library;
use rack_tests::resistance::{checks, faults, Check};
use std::process::ExitCode;

/// A wrong answer fails most checks; this many say enough.
const MOST_SHOWN: usize = 10;

fn main() -> ExitCode {
    let arguments: Vec<String> = std::env::args().skip(1).collect();
    let [path] = &arguments[..] else {
        eprintln!("usage: resistance LIBRARY");
        return ExitCode::from(2);
    };
    let opened = Library::open(path).and_then(|library| Ok((checks(&library.calls)?, library)));
    let (checks, library) = opened.unwrap_or_else(|what| {
        eprintln!("{what}");
        std::process::exit(2)
    });
    let faults = faults(&library, &checks);
    faults.iter().take(MOST_SHOWN).for_each(|fault| println!("FAILED {fault}"));
    let asked: usize = checks.iter().map(|check| check.asked().count()).sum();
    let racks: usize = checks.iter().map(|check: &Check| check.situations.len()).sum();
    println!("{asked} addresses asked on {racks} racks in {} checks", checks.len());
    println!("{} passed, {} failed", checks.len() - faults.len(), faults.len());
    ExitCode::from(u8::from(!faults.is_empty()))
}
