//! How much stack the program takes: a limit under which it must work, and the smallest that
//! suffices.

use std::fs::{self, File};
use std::path::Path;

use super::bench::{complaint, end_of, expect_zero, shown, Bench};
use super::Case;
use crate::program;
use crate::system::{Before, ENOSPC, STACK};

/// What must be enough for it, as `ulimit -s` counts.
const ENOUGH_KIB: u64 = 48;
/// The system starts a stack at a random place within some KiB, so one success does not prove
/// another.
const RUNS: usize = 10;
/// Limits are tried in pages.
const PAGE_KIB: u64 = 4;

pub fn cases() -> Vec<Case> {
    vec![
        Case::new(format!("a stack of {ENOUGH_KIB} KiB"), |bench| {
            let input = input(bench)?;
            (0..RUNS).try_for_each(|_| works(bench, &input, ENOUGH_KIB))
        }),
        // Reporting a fault takes stack of its own.
        Case::new(format!("a fault on a stack of {ENOUGH_KIB} KiB"), |bench| {
            let (input, line) = (input(bench)?, complaint(1, ENOSPC));
            let full = Path::new("/dev/full");
            (0..RUNS).try_for_each(|_| run(bench, &input, ENOUGH_KIB, full, &line))
        }),
    ]
}

fn input(bench: &Bench) -> Result<Vec<u8>, String> {
    bench.load("mixed", [3_000, 31, 750])
}

/// Runs the program on such a stack; standard error must contain this. There is no environment, as
/// that is on the stack too.
fn run(
    bench: &Bench,
    input: &[u8],
    kib: u64,
    output: &Path,
    complaint: &str,
) -> Result<(), String> {
    let wrong = |error: std::io::Error| error.to_string();
    let (mut command, said) = bench.command(&[Before::Limit(STACK, kib * 1024)])?;
    command.env_clear().stdin(bench.file_of(input)?);
    command.stdout(File::create(output).map_err(wrong)?);
    expect_zero(end_of(&mut command.spawn().map_err(wrong)?)?)?;
    said.expect(complaint)
}

fn works(bench: &Bench, input: &[u8], kib: u64) -> Result<(), String> {
    let output = bench.file();
    run(bench, input, kib, &output, "")?;
    match fs::read(output).map_err(|error| error.to_string())? {
        printed if printed == program::run(input) => Ok(()),
        printed => Err(format!("it printed {}", shown(&printed))),
    }
}

/// The smallest stack on which it works every time, in words.
pub fn least(bench: &Bench) -> String {
    let Ok(input) = input(bench) else { return "no load to try stacks with".into() };
    let each_time = |kib| (0..RUNS).all(|_| works(bench, &input, kib).is_ok());
    let mut limits = (1..=4 * ENOUGH_KIB / PAGE_KIB).map(|pages| pages * PAGE_KIB);
    match limits.find(|kib| each_time(*kib)) {
        Some(kib) => format!("the least stack is {kib} KiB"),
        None => format!("the least stack is above {} KiB", 4 * ENOUGH_KIB),
    }
}
