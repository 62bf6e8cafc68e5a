//! The inputs for measuring, and how one of them reaches a program: what `load` says about them
//! holds, and `one_a_read` gives a program one message at each read.

use rack_tests::generate::generate;
use rack_tests::messages::messages;
use rack_tests::program::run;
use rack_tests::rack::SLOTS;
use std::path::PathBuf;
use std::process::{Command, Output};
use std::{env, fs, process};

const KINDS: [&str; 8] =
    ["samples", "serial", "mixed", "query", "order", "queries", "checksummed", "global"];

fn load(kind: &str, fields: usize, slots: usize) -> Vec<u8> {
    let numbers = [fields, slots, 750].map(|number| number.to_string());
    let written = Command::new(env!("CARGO_BIN_EXE_load")).arg(kind).args(numbers).output();
    let written = written.expect("it runs");
    assert!(written.status.success(), "load {kind}");
    written.stdout
}

fn replies(input: &[u8]) -> Vec<String> {
    let printed = String::from_utf8(run(input)).expect("replies are ASCII");
    printed.lines().map(str::to_string).collect()
}

#[test]
fn a_longer_load_starts_with_the_shorter() {
    for kind in KINDS {
        for slots in [1, 8, SLOTS] {
            let (few, many) = (load(kind, 300, slots), load(kind, 900, slots));
            assert!(many.starts_with(&few), "{kind}, {slots} slots");
            assert_eq!(messages(&few).count(), 1 + 300, "{kind}, {slots} slots");
        }
    }
}

#[test]
fn nothing_of_a_load_is_refused() {
    for kind in KINDS {
        let input = load(kind, 3_000, SLOTS);
        assert!(replies(&input).iter().all(|reply| !reply.starts_with("refused")), "{kind}");
    }
}

/// The kinds whose fields are all alike: each line is accepted, and one to all slots draws no
/// reply.
#[test]
fn no_line_of_the_plain_loads_is_at_fault() {
    let set_up = 5 * SLOTS;
    for (kind, at_each) in
        [("query", 1), ("order", 1), ("queries", 3), ("checksummed", 1), ("global", 0)]
    {
        let before = replies(&load(kind, set_up, SLOTS)).len();
        let all = replies(&load(kind, set_up + 1_000, SLOTS));
        assert!(all.iter().all(|reply| !reply.starts_with(['C', 'E'])), "{kind}: {all:?}");
        let answered = all.len() - before;
        assert!(answered <= 1_000 * at_each && answered >= 950 * at_each, "{kind}: {answered}");
    }
}

/// A file that is removed at the end of its test.
struct Input(PathBuf);

impl Input {
    fn new(name: &str, bytes: &[u8]) -> Input {
        let path = env::temp_dir().join(format!("rack-{}-{name}", process::id()));
        fs::write(&path, bytes).expect("the folder for such files takes one");
        Input(path)
    }

    fn one_a_read(&self, command: &[&str]) -> Output {
        let tool = env!("CARGO_BIN_EXE_one_a_read");
        Command::new(tool).arg(&self.0).args(command).output().expect("it runs")
    }
}

impl Drop for Input {
    fn drop(&mut self) {
        // It may be gone already.
        let _ = fs::remove_file(&self.0);
    }
}

#[test]
fn each_read_brings_one_message() {
    let bytes = load("mixed", 60, SLOTS);
    let input = Input::new("mixed", &bytes);
    let mut wanted = Vec::new();
    for (at, message) in messages(&bytes).enumerate() {
        wanted.extend(message);
        // dd reads once for each block.
        let count = format!("count={}", at + 1);
        let read = input.one_a_read(&["dd", "bs=65536", &count, "status=none"]);
        assert_eq!(read.stdout, wanted, "{} reads", at + 1);
    }
    assert_eq!(wanted, bytes);
}

#[test]
fn a_program_prints_the_same_for_messages() {
    for seed in 0..40 {
        let bytes = generate(seed).bytes();
        let input = Input::new(&format!("seed-{seed}"), &bytes);
        let printed = input.one_a_read(&[env!("CARGO_BIN_EXE_reference")]);
        assert!(printed.status.success(), "seed {seed}");
        assert_eq!(printed.stdout, run(&bytes), "seed {seed}");
    }
}

#[test]
fn the_exit_status_is_passed_on() {
    let input = Input::new("status", &load("samples", 2_000, SLOTS));
    assert_eq!(input.one_a_read(&["sh", "-c", "exit 3"]).status.code(), Some(3));
    assert_eq!(input.one_a_read(&["/no/such/program"]).status.code(), Some(1));
}
