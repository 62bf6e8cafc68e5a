//! One list with all five tags, split after every byte, and with a byte inserted, changed or
//! removed at every place: `splits PROGRAM`. Each run must print byte for byte what the reference
//! prints.

use rack_tests::{outside, program, script};
use std::process::ExitCode;
use std::sync::atomic::{AtomicUsize, Ordering};
use std::sync::Mutex;

const WORKERS: usize = 2;
/// Bytes of a fitting list.
const SLOTS: usize = 31;
/// How often the line of a long list comes.
const MANY: usize = 20_000;
/// This many faults are shown with their lists; the rest are only counted.
const MOST_SHOWN: usize = 5;

/// Lines split over fields, fields within a line, both trips, checksums, globals, an empty slot,
/// messages of one and of two slots.
const BODY: &str = r#"
    fit 2 6
    fit 6 0
    fit 30 11
    line PV?
    text ADR
    text " 6"
    text "\rPV 5\rPC 10\rPV?"
    key 6 OUTPUT
    line $E5
    line OVP 5.5
    text "OUT 1\rFLD 1\r"
    sample 6 45833 0
    line FENA FF
    line SENA 8f
    sample 6 45834 0
    text "FLT?\rOUT 0\rFLT?\r"
    text "OUT 1\rFEVE?\r"
    text "SEVE?\rSTT?\r"
    sample 6 0 0
    sample 6 0 65535
    text "FLT?\rMC?"
    line $CF
    lines 6 AC ENA
    text "OUT 1\rFLT?\r"
    lines 6 none
    line "GX\bPV 4.00009"
    text "GOUT 1\rPV?\rCLS\r"
    line ADR 5
    line PV?
    line ADR 30
    line SENA 83
    text "PC 1"
    text "\rADR 6\rRMT 0\r"
    line ADR 30
    line RMT 0
    knob 30 PV +6000000
    knob 30 UVL -1
    key 30 FOLD
    text "PV?\rUVL?\rFLD?\r"
    key 2 LOCAL
    line PV 0000000000.000000000000000000000000000000000000000000000000000000000000
    text "PV?\rGRST\rPV?\rRMT?"
"#;

/// What may come at the end of the body: one ending for each refusal of a field, and none.
const ENDINGS: [&str; 9] = [
    "line\nline PV?",
    "bytes 00 00 02 06 00 01",
    "bytes 06 00 02 06 00 01",
    "bytes 01 00 00 01",
    "bytes 01 00 11 50 50 50 50 50 50 50 50 50 50 50 50 50 50 50 50 50 0D",
    "bytes 05 00 05 07 FF FF FF FF 01 00 01 0D",
    "bytes 02 00 02 1F 09 01",
    "bytes 03 00 06 06 04 00 00 00 01 01",
    "bytes 04 00 02 06 10 01 00 01 0D",
];

fn main() -> ExitCode {
    let arguments: Vec<String> = std::env::args().skip(1).collect();
    let [program] = &arguments[..] else {
        eprintln!("usage: splits PROGRAM");
        return ExitCode::from(2);
    };
    let inputs = match outside::startable(program).and_then(|()| inputs()) {
        Ok(inputs) => inputs,
        Err(what) => {
            eprintln!("{what}");
            return ExitCode::from(2);
        }
    };
    let faults = faults(program, &inputs);
    for fault in faults.iter().take(MOST_SHOWN) {
        println!("FAILED {fault}");
    }
    println!("{} passed, {} failed", inputs.len() - faults.len(), faults.len());
    ExitCode::from(u8::from(!faults.is_empty()))
}

/// Every input, with a name that says how it was made.
fn inputs() -> Result<Vec<(String, Vec<u8>)>, String> {
    let body = script::parse(BODY.as_bytes())?.bytes();
    let mut inputs = Vec::new();
    for ending in ENDINGS {
        let whole = script::parse(format!("{BODY}\n{ending}").as_bytes())?.bytes();
        // The body's own splits are made once, with the first ending.
        let first = if inputs.is_empty() { 0 } else { body.len() + 1 };
        for end in first..=whole.len() {
            inputs
                .push((format!("cut after byte {end}, ending {ending:?}"), whole[..end].to_vec()));
        }
    }
    for at in 0..body.len() {
        inputs.extend(changed(&body, at));
    }
    let three = "STT?\\rSTT?\\rSTT?";
    for line in ["PV?", "PV?\\rMV?", "GPV 3\\rPV?", "PV 9.9", three, "SEVE?\\rRMT 1\\rRMT 0"] {
        inputs.push((format!("{MANY} times {line}"), many(line)?));
    }
    Ok(inputs)
}

/// One line over and over: more bytes than one read brings, and more replies than are written at
/// once.
fn many(line: &str) -> Result<Vec<u8>, String> {
    let mut list = script::parse(b"fit 6 11\nline ADR 6\nline PV 600\nline SENA 80")?.bytes();
    let again = script::parse(format!("fit 6 11\ntext \"{line}\\r\"").as_bytes())?.bytes();
    for _ in 0..MANY {
        list.extend(&again[SLOTS..]);
    }
    Ok(list)
}

/// The list with a byte inserted, changed or removed at this place.
fn changed(list: &[u8], at: usize) -> [(String, Vec<u8>); 4] {
    let with = |bytes: &[u8], after: usize| [&list[..at], bytes, &list[after..]].concat();
    let name = |what: &str| format!("byte {} {what}", at + 1);
    [
        (name("has FF before it"), with(&[0xFF], at)),
        (name("has CR before it"), with(b"\r", at)),
        (name("has its lowest bit turned"), with(&[list[at] ^ 1], at + 1)),
        (name("is left out"), with(&[], at + 1)),
    ]
}

/// All inputs on which the program differs, in words.
fn faults(program: &str, inputs: &[(String, Vec<u8>)]) -> Vec<String> {
    let next = AtomicUsize::new(0);
    let found = Mutex::new(Vec::new());
    let work = || {
        while let Some((name, input)) = inputs.get(next.fetch_add(1, Ordering::Relaxed)) {
            let fault = fault(program, input).map(|what| format!("{name}: {what}"));
            found.lock().expect("no worker panics").extend(fault);
        }
    };
    std::thread::scope(|scope| {
        for _ in 0..WORKERS {
            scope.spawn(work);
        }
    });
    found.into_inner().expect("no worker panics")
}

fn fault(program: &str, input: &[u8]) -> Option<String> {
    let text = |bytes: &[u8]| bytes.escape_ascii().to_string();
    let wanted = program::run(input);
    let got = match outside::run(program, input) {
        Ok(printed) if printed == wanted => return None,
        Ok(printed) => text(&printed),
        Err(what) => what,
    };
    let list = script::write(input);
    Some(format!("\n{list}--- the program prints {got}\n--- the reference {}", text(&wanted)))
}
