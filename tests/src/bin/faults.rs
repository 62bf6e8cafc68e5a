//! The program on streams that fail, fill up, run dry and hang up: `faults PROGRAM`.
//! `src/faults.rs` says what must hold. The library that answers reads and writes by a plan
//! (`inject`) and the program `load` are taken from where this program was built.

use rack_tests::faults::bench::Bench;
use rack_tests::faults::{cases, stack, Case};
use rack_tests::outside;
use std::process::ExitCode;
use std::sync::atomic::{AtomicUsize, Ordering};
use std::sync::Mutex;

const WORKERS: usize = 2;

fn main() -> ExitCode {
    let arguments: Vec<String> = std::env::args().skip(1).collect();
    let [program] = &arguments[..] else {
        eprintln!("usage: faults PROGRAM");
        return ExitCode::from(2);
    };
    let bench = match outside::startable(program).and_then(|()| Bench::new(program)) {
        Ok(bench) => bench,
        Err(what) => {
            eprintln!("{what}");
            return ExitCode::from(2);
        }
    };
    let cases = cases();
    let faults = faults(&bench, &cases);
    for fault in &faults {
        println!("FAILED {fault}");
    }
    println!("{}", stack::least(&bench));
    println!("{} passed, {} failed", cases.len() - faults.len(), faults.len());
    ExitCode::from(u8::from(!faults.is_empty()))
}

/// All cases that the program does not pass, in words.
fn faults(bench: &Bench, cases: &[Case]) -> Vec<String> {
    let next = AtomicUsize::new(0);
    let found = Mutex::new(Vec::new());
    let work = || {
        while let Some(case) = cases.get(next.fetch_add(1, Ordering::Relaxed)) {
            let fault = (case.judge)(bench).err().map(|what| format!("{}: {what}", case.name));
            found.lock().expect("no worker panics").extend(fault);
        }
    };
    std::thread::scope(|scope| {
        for _ in 0..WORKERS {
            scope.spawn(work);
        }
    });
    found.into_inner().expect("no worker panics")
}
