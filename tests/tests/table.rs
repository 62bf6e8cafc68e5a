//! The table that `script run` prints: replies, silences, readings, refusals, and where a program differs.

use rack_tests::script::{parse, Script};
use rack_tests::table::show;
use std::time::{Duration, Instant};

const REFERENCE: &str = env!("CARGO_BIN_EXE_reference");

fn script(text: &str) -> Script {
    parse(text.as_bytes()).unwrap_or_else(|what| panic!("{what}"))
}

/// The lines of the table without their runs of spaces.
fn rows(text: &str) -> Vec<String> {
    let squeezed = |line: &str| line.split_whitespace().collect::<Vec<_>>().join(" ");
    text.lines().map(squeezed).collect()
}

fn assert_table(text: &str, wanted: &[&str]) {
    let table = show(&script(text), REFERENCE).expect("the reference runs");
    assert!(table.alike, "{}", table.text);
    assert_eq!(rows(&table.text)[1..], *wanted, "{}", table.text);
}

#[test]
fn a_line_without_a_reply_says_so() {
    assert_table(
        "fit 6 0\nline PV?\nline ADR 6\ntext PV\nline ?\nline GOUT 1",
        &[
            "2 line PV? (no reply)",
            "3 line ADR 6 OK slot 6 off (ordered off)",
            "4 text PV",
            "5 line ? 0.0000 slot 6 off (ordered off)",
            "6 line GOUT 1 (no reply) slot 6 ON",
        ],
    );
}

#[test]
fn a_message_stands_at_the_step_that_brought_it() {
    assert_table(
        "fit 6 0\nfit 7 0\nline ADR 7\nline FENA 40\nline ADR 6\nline FENA 40\nline GOUT 1\nline GOUT 0",
        &[
            "3 line ADR 7 OK slot 7 off (ordered off)",
            "4 line FENA 40 OK slot 7 off (ordered off)",
            "5 line ADR 6 OK slot 6 off (ordered off)",
            "6 line FENA 40 OK slot 6 off (ordered off)",
            "7 line GOUT 1 (no reply) slot 6 ON",
            "slot 7 ON",
            "8 line GOUT 0 !06 slot 6 off (ordered off)",
            "!07 slot 7 off (ordered off)",
        ],
    );
}

#[test]
fn a_sample_shows_its_counts_and_readings() {
    let off = "slot 6 off (ordered off); reads 5.5000 V, 10.000 A (counts 45834, 5000)";
    assert_table(
        "fit 6 0\nsample 6 5.5V 10A\nsample 6 45834 5000",
        &[&format!("2 sample 6 5.5V 10A {off}"), &format!("3 sample 6 45834 5000 {off}")],
    );
}

#[test]
fn a_refusal_stands_at_its_step() {
    assert_table(
        "fit 6 0\nkey 7 FOLD\nline ADR 6",
        &["2 key 7 FOLD refused 6", "3 line ADR 6 (not read)"],
    );
    assert_table("raw-fit 09\nline PV?", &["(fitting list) refused 8", "2 line PV? (not read)"]);
}

#[test]
fn a_program_that_differs_is_told() {
    let table = show(&script("fit 6 0\nline ADR 6\nline PV?"), "/bin/true").expect("it runs");
    assert!(!table.alike);
    assert_eq!(rows(&table.text)[1], "2 line ADR 6 (differs) slot 6 off (ordered off)");
    assert!(table.text.ends_with("and the reference prints:\nOK\n0.0000\n"), "{}", table.text);
}

#[test]
fn the_time_does_not_grow_with_the_square_of_the_steps() {
    let text = "fit 6 0\nline ADR 6\n".to_string() + &"line PV?\nsample 6 1 2\n".repeat(20_000);
    let (script, start) = (script(&text), Instant::now());
    let table = show(&script, REFERENCE).expect("the reference runs");
    assert!(table.alike && table.text.lines().count() == 40_002);
    assert!(start.elapsed() < Duration::from_secs(20), "{:?}", start.elapsed());
}
