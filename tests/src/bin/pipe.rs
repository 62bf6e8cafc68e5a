//! The program at the end of an open pipe: `pipe PROGRAM`. Every list goes in one byte at a time,
//! and each reply must be there before the next byte is sent, as an I/O board needs it. A refusal
//! must end the program although its input is still open.

use rack_tests::generate::generate;
use rack_tests::live::Live;
use rack_tests::program::Running;
use rack_tests::rack::{EMPTY, SLOTS};
use rack_tests::supply::MODELS;
use rack_tests::{cases, outside, script};
use std::process::ExitCode;
use std::time::Duration;

/// How many generated lists are sent besides the named ones and the readable cases.
const GENERATED: u64 = 60;
/// A program that holds its replies back costs a long wait for each list; this many are enough.
const MOST_FAILED: usize = 3;
/// How often a named list is paused to see that nothing is printed too early, and for how long.
const LOOKS: usize = 6;
const LOOK: Duration = Duration::from_millis(20);

/// A byte that is not a model, in a list of otherwise empty slots.
const BAD_FIRST: &str = "raw-fit 0C FFFFFFFFFFFFFFFFFFFF FFFFFFFFFFFFFFFFFFFF FFFFFFFFFFFFFFFFFFFF
    line ADR 6";
const BAD_MIDDLE: &str =
    "raw-fit 00 FFFFFFFFFFFFFFFFFFFF FE FFFFFFFFFFFFFFFFFF FFFFFFFFFFFFFFFFFFFF
    line ADR 0";
const BAD_LAST: &str = "raw-fit 00 FFFFFFFFFFFFFFFFFFFF FFFFFFFFFFFFFFFFFFFF FFFFFFFFFFFFFFFFFF 64
    line ADR 0";

const ALL_TAGS: &str = r#"
    fit 0 3
    fit 6 0
    fit 17 6
    fit 30 11
    line PV?                 # nobody is selected, so this vanishes
    text AD                  # one line over four fields
    text R
    text " 6"
    line
    text "PV 5\rPC 10\rPV?\r"
    line OVP 5.5
    line "PX\bV 5.00009\n"
    line PV?$E5
    line PV?$E6
    line FENA FF
    line SENA ff
    line OUT 1
    line FLD 1
    text "OUT?\rFLT?\rMODE?"
    sample 6 45833 0         # a field in the middle of a line
    line
    sample 6 45834 0         # the OVP trip
    line FLT?
    line OUT 0
    line FLT?
    text "FEVE?\rOUT 1\rFLT?\r"
    sample 6 0 65535         # a cell that charges
    sample 6 0 4999          # below PC
    sample 6 0 65535         # the FOLD trip
    line FLT?
    line FLD 0
    text "FLT?\rCLS\r"
    line ADR 12              # an empty slot: from here nobody answers
    line PV?
    line PV 5
    line ADR 17
    line RMT 0
    knob 17 PV +6000000
    line PV?
    line RMT 0
    knob 17 UVL +100
    key 17 OUTPUT
    key 17 FOLD
    text "OUT?\rFLD?\rUVL?\r"
    text "SENA 83\rSTT?\r"
    text RMT 1               # ends with the next field, and two slots send messages
    text "\rRMT 0\rGOUT 1\r"
    text "STAT?\rSEVE?\r"
    line GPV 4               # everyone obeys, nobody replies
    line GOUT 1
    line GPC 1,5
    text "PV?\rOUT?\rRMT?\r"
    lines 17 AC SO
    line FLT?
    line OUT 1
    lines 17 none
    key 17 LOCAL
    line RMT?
    line ADR 31
    line ADR 30
    text "PV?\rMV?\rMC?\rAST?\r"
    sample 30 65535 65535
    text "MV?\rMC?\r"
    line GRST
    text "PV?\rFLT?\r"
    line PV? ZZZZZZZZZZZZZZZZZZZZZZZZZZZZZZZZZZZZZZZZZZZZZZZZZZZZZZZZZZZZZZZZZZZZ
    text "\r\r\r\r\r\r\r\r\r\r\r\r\r\r\r\r"
    line ADR 0$7F            # a wrong checksum: no ADR, so slot 30 answers
    line ADR 0$27
    line PV?$E5
"#;

/// Lists by name, as scripts.
const NAMED: [(&str, &str); 17] = [
    ("the paper's example", "fit 6 0\nline ADR 6\nline PV 5\nline PV?"),
    ("all tags, split lines, trips, globals, messages", ALL_TAGS),
    ("a rack without a supply", "line ADR 6\nline PV?\nline GOUT 1\nline GRST"),
    ("a fitting list and no more", "fit 6 0"),
    ("a line without its end", "fit 6 0\nline ADR 6\ntext PV?"),
    ("a tag of 9 amid the list", "fit 6 0\nline ADR 6\nbytes 09 00 02 06 00\nline PV?"),
    ("a tag of 0 and no payload", "fit 6 0\nline ADR 6\nbytes 00 00 00\nline PV?"),
    ("no serial byte", "fit 6 0\nline ADR 6\nbytes 01 00 00\nline PV?"),
    ("17 serial bytes", "fit 6 0\nline ADR 6\nbytes 01 00 11 50 50\nline PV?"),
    ("an empty slot", "fit 6 0\nline ADR 6\nsample 7 1 1\nline PV?"),
    ("a key that is none", "fit 6 0\nline ADR 6\nbytes 02 00 02 06 03\nline PV?"),
    ("one byte of a header", "fit 6 0\nline ADR 6\nbytes 01"),
    ("two bytes of a header", "fit 6 0\nline ADR 6\nbytes 09 00"),
    ("a payload cut short", "fit 6 0\nline ADR 6\nbytes 01 00 06 50 56 3F 0D"),
    ("a bad model at the start", BAD_FIRST),
    ("a bad model in the middle", BAD_MIDDLE),
    ("a bad model at the end", BAD_LAST),
];

/// One list to send, and how often to look for output that comes too early.
struct List {
    name: String,
    input: Vec<u8>,
    looks: usize,
}

fn main() -> ExitCode {
    let arguments: Vec<String> = std::env::args().skip(1).collect();
    let [program] = &arguments[..] else {
        eprintln!("usage: pipe PROGRAM");
        return ExitCode::from(2);
    };
    let lists = match outside::startable(program).and_then(|()| lists()) {
        Ok(lists) => lists,
        Err(what) => {
            eprintln!("{what}");
            return ExitCode::from(2);
        }
    };
    let (mut passed, mut failed) = (0, 0);
    for list in &lists {
        match judge(program, list) {
            Ok(()) => passed += 1,
            Err(what) => {
                println!("FAILED {}: {what}", list.name);
                failed += 1;
            }
        }
        if failed == MOST_FAILED {
            println!("the remaining {} lists are not sent", lists.len() - passed - failed);
            break;
        }
    }
    println!("{passed} passed, {failed} failed");
    ExitCode::from(u8::from(failed > 0))
}

/// The named lists, fitting lists that are too short, the readable cases, some generated lists.
fn lists() -> Result<Vec<List>, String> {
    let mut lists = Vec::new();
    for (name, text) in NAMED {
        let input = script::parse(text.as_bytes()).map_err(|what| format!("{name}: {what}"))?;
        lists.push(List { name: name.into(), input: input.bytes(), looks: LOOKS });
    }
    for count in [0, 1, SLOTS - 1] {
        let name = format!("a fitting list of {count} bytes");
        lists.push(List { name, input: vec![EMPTY; count], looks: LOOKS });
    }
    for case in cases::load(cases::folder())? {
        lists.push(List { name: case.name, input: case.input, looks: 0 });
    }
    for seed in 0..GENERATED {
        let name = format!("generated list {seed}");
        lists.push(List { name, input: generate(seed).bytes(), looks: 0 });
    }
    Ok(lists)
}

fn judge(program: &str, list: &List) -> Result<(), String> {
    let models = 0..MODELS.len() as u8;
    let bad = |byte: &u8| !models.contains(byte) && *byte != EMPTY;
    let mut live = Live::start(program)?;
    match list.input.iter().take(SLOTS).position(bad) {
        Some(at) => refuse_list(&mut live, &list.input, at),
        None => talk(&mut live, list),
    }
}

/// A fitting list with a bad byte may be refused from that byte on, and must be refused at its
/// last.
fn refuse_list(live: &mut Live, input: &[u8], bad: usize) -> Result<(), String> {
    for (at, byte) in input.iter().take(SLOTS).enumerate() {
        let open = live.send(*byte)?;
        if at < bad {
            still_open(open).and_then(|()| live.expect_nothing(LOOK)).map_err(at_byte(at))?;
        }
    }
    if input.len() < SLOTS {
        live.close();
    }
    live.expect(b"refused 8\n")?;
    live.expect_end()
}

/// After each byte, exactly what the reference prints by then, with no byte of it late.
fn talk(live: &mut Live, list: &List) -> Result<(), String> {
    let mut model = Running::default();
    let apart = list.input.len() / (list.looks + 1) + 1;
    for (at, byte) in list.input.iter().enumerate() {
        let mut wanted = Vec::new();
        model.take(&[*byte], &mut wanted);
        let look = if list.looks > 0 && (at + 1) % apart == 0 { LOOK } else { Duration::ZERO };
        let open = live.send(*byte)?;
        let answered = match wanted.is_empty() {
            true => still_open(open).and_then(|()| live.expect_nothing(look)),
            false => live.expect(&wanted),
        };
        answered.map_err(at_byte(at))?;
        if model.over() {
            return live.expect_end().map_err(at_byte(at));
        }
    }
    live.finish(&mut model)
}

fn still_open(open: bool) -> Result<(), String> {
    open.then_some(()).ok_or("the program reads no more".into())
}

/// The position in the list, counted from 1.
fn at_byte(at: usize) -> impl Fn(String) -> String {
    move |what| format!("at byte {}, {what}", at + 1)
}
