//! How long two programs compute on the same file: `usertime RUNS INPUT PROGRAM OTHER` runs them in
//! turn, this many times each, and discards their output. It prints the median user time of each in
//! microseconds and the median of the ratios of one program's run to the other's next to it. With
//! `--one-a-read` in front, each of their reads brings one field of the file.

use rack_tests::messages::feed;
use std::fs::{self, File};
use std::io;
use std::process::{Command, ExitCode, ExitStatus, Stdio};

/// How a command gets the input at this path.
type Way = fn(&mut Command, &str) -> io::Result<ExitStatus>;

/// The kernel's account of the children that have ended, in the layout of Linux on x86-64: seconds
/// and microseconds of user time, the same for system time, and 14 numbers not used here.
mod account {
    const ENDED_CHILDREN: i32 = -1;

    extern "C" {
        fn getrusage(whose: i32, account: *mut [i64; 18]) -> i32;
    }

    pub fn user_microseconds() -> i64 {
        let mut account = [0; 18];
        // SAFETY: the array has the size of the structure that the kernel fills.
        let status = unsafe { getrusage(ENDED_CHILDREN, &mut account) };
        assert_eq!(status, 0, "the kernel keeps this account for every process");
        account[0] * 1_000_000 + account[1]
    }
}

fn main() -> ExitCode {
    let arguments: Vec<String> = std::env::args().skip(1).collect();
    let words: Vec<&str> = arguments.iter().map(String::as_str).collect();
    let (way, words): (Way, _) = match &words[..] {
        ["--one-a-read", rest @ ..] => (on_messages, rest),
        all => (on_file, all),
    };
    let [runs, input, program, other] = words else {
        return usage();
    };
    let Ok(runs @ 1..) = runs.parse() else {
        return usage();
    };
    match in_turn(way, runs, input, program, other) {
        Ok(pairs) => {
            let ones = median(pairs.iter().map(|(one, _)| *one));
            let others = median(pairs.iter().map(|(_, other)| *other));
            let ratio = median(pairs.iter().map(|(one, other)| one / other));
            println!("{ones:.0} {others:.0} {ratio:.2}");
            ExitCode::SUCCESS
        }
        Err(what) => {
            eprintln!("{what}");
            ExitCode::FAILURE
        }
    }
}

fn usage() -> ExitCode {
    eprintln!("usage: usertime [--one-a-read] RUNS INPUT PROGRAM OTHER");
    ExitCode::from(2)
}

fn on_file(command: &mut Command, input: &str) -> io::Result<ExitStatus> {
    command.stdin(File::open(input)?).status()
}

fn on_messages(command: &mut Command, input: &str) -> io::Result<ExitStatus> {
    feed(command, &fs::read(input)?)
}

/// Run by run, so that a busy minute of the machine affects both.
fn in_turn(
    way: Way,
    runs: u32,
    input: &str,
    one: &str,
    other: &str,
) -> Result<Vec<(f64, f64)>, String> {
    (0..runs).map(|_| Ok((one_run(way, one, input)?, one_run(way, other, input)?))).collect()
}

fn median(values: impl Iterator<Item = f64>) -> f64 {
    let mut values: Vec<f64> = values.collect();
    values.sort_by(f64::total_cmp);
    values[values.len() / 2]
}

fn one_run(way: Way, program: &str, input: &str) -> Result<f64, String> {
    let before = account::user_microseconds();
    let status = way(Command::new(program).stdout(Stdio::null()), input);
    let status = status.map_err(|error| format!("{program} on {input}: {error}"))?;
    match status.success() {
        true => Ok((account::user_microseconds() - before) as f64),
        false => Err(format!("{program} ended with {status}")),
    }
}
