//! Lists of fields, one field per call: the readable cases, a full rack with globals, generated
//! ones.

use crate::cases;
use crate::generate::{generate, Draw};
use crate::rack::{EMPTY, LEAST_ROOM, SLOTS};
use crate::script::{self, Script};
use crate::supply::MODELS;

use super::bench::{Bench, Tally, SMALL};
use super::fields::{split, spoiled, whole};
use super::library::Controller;
use super::Check;

/// Generated lists are numbered from here, apart from those for comparing programs.
const FIRST_SEED: u64 = 75_000;

/// Each supply judges a global for itself; what follows shows that all of them received it.
const GLOBALS: &str = r#"
    line GFENA FF            # no such order, and nobody to say so
    text "ADR 29\rSENA 03\r"  # these three send messages
    text "ADR 1\rSENA FF\r"
    text "ADR 11\rSENA 8f\r"
    line GOUT 1              # current limit, as PC is 0
    text "SEVE?\rSTT?\r"
    text GPC 2               # some models cannot
    text "\rGOUT 0\rSEVE?\r"
    line ADR 5
    line GPC 1
    line GPV 5
    line GOUT 1
    line GPV 20              # some models cannot
    sample 3 65535 0
    sample 30 0 65535
    line ADR 3
    text "FLT?\rFENA FF\r"
    lines 7 AC SO
    line GOUT 1              # frees slot 3, and slot 7 refuses
    text "FLT?\rFEVE?\r"
    line ADR 30
    text "FLD 1\rFLT?\r"
    sample 30 0 65535        # it may charge
    sample 30 0 0
    sample 30 0 65535        # the FOLD trip
    line GOUT 0
    text FLT?
    key 12 LOCAL
    key 12 FOLD
    knob 12 PV +6000000
    line                     # the line that was begun before the keys
    line GPV
    line GPC x
    line GPV 600
    line gpv 4$7C
    line GOUT 1$27
    lines 7 none
    line GRST
    text "PV?\rOVP?\r"
    line ADR 7
    text "FLT?\rRMT?\r"
"#;

pub fn checks(generated: u64) -> Result<Vec<Check>, String> {
    let mut checks = Vec::new();
    for (name, script) in cases::scripts(cases::folder())? {
        checks.push(Check::new(name, move |controller, tally| {
            one_by_one(controller, tally, &script)
        }));
    }
    let globals = script::parse(GLOBALS.as_bytes())?;
    for first in 0..MODELS.len() {
        let fitting = (first..first + SLOTS).map(|model| (model % MODELS.len()) as u8).collect();
        let script = Script { fitting, ..globals.clone() };
        let name = format!("31 supplies from model {first} on, and globals");
        checks.push(Check::new(name, move |controller, tally| {
            one_by_one(controller, tally, &script)
        }));
    }
    let half = (0..SLOTS as u8).map(|slot| if slot % 2 == 0 { EMPTY } else { slot % 12 }).collect();
    let script = Script { fitting: half, ..globals };
    checks.push(Check::new("globals with every other slot empty", move |controller, tally| {
        one_by_one(controller, tally, &script)
    }));
    checks.push(Check::new(format!("{generated} generated lists"), move |controller, tally| {
        (0..generated).try_for_each(|number| generated_list(controller, tally, number))
    }));
    Ok(checks)
}

/// The script, with a call for each field; a refused field does not end it here.
fn one_by_one(
    controller: &dyn Controller,
    tally: &mut Tally,
    script: &Script,
) -> Result<(), String> {
    let fields: Vec<Vec<u8>> = script.rows.iter().flat_map(|row| split(&row.bytes)).collect();
    let mut bench = Bench::fit(controller, tally, &script.fitting)?;
    for (at, field) in fields.iter().enumerate() {
        let next = fields.get(at + 1).map_or(&[][..], |field| field);
        let told = |what| format!("field {}: {what}", at + 1);
        refused_first(&mut bench, field).map_err(told)?;
        bench.call(&with_more(field, next, at), &[], bench.next_room()).map_err(told)?;
    }
    Ok(())
}

/// The field with a small buffer, cut short and made wrong in every way: nothing may change.
fn refused_first(bench: &mut Bench, field: &[u8]) -> Result<(), String> {
    for room in SMALL {
        bench.draws(field, room, 1)?;
    }
    if !whole(field) {
        return Ok(());
    }
    for cut in 0..field.len() {
        let wanted = if cut < 3 { 2 } else { 5 };
        let code = bench.call(&field[..cut], &field[cut..], bench.next_room())?;
        if code != wanted {
            return Err(format!("{cut} bytes of it drew {code}, not {wanted}"));
        }
    }
    for (wrong, code) in spoiled(field, bench.model()) {
        bench.draws(&wrong, bench.next_room(), code)?;
    }
    Ok(())
}

/// A complete field as it is, or followed by something else in the same call.
fn with_more(field: &[u8], next: &[u8], turn: usize) -> Vec<u8> {
    let junk = vec![0xA5; 600];
    let more: [&[u8]; 5] = [&[], next, &[1], field, &junk];
    match whole(field) {
        true => [field, more[turn % more.len()]].concat(),
        false => field.to_vec(),
    }
}

/// A generated list as a library's user may call it, each field first with too small a buffer.
fn generated_list(
    controller: &dyn Controller,
    tally: &mut Tally,
    number: u64,
) -> Result<(), String> {
    let input = generate(FIRST_SEED + number);
    let told = |what| format!("list {number}: {what}\n{}", script::write(&input.bytes()));
    let mut bench = Bench::fit(controller, tally, &input.parts[0]).map_err(told)?;
    for (at, call) in input.calls(&mut Draw::new(number)).iter().enumerate() {
        bench.draws(&call.bytes, SMALL[at % SMALL.len()], 1).map_err(told)?;
        let room = if call.room == LEAST_ROOM { bench.next_room() } else { call.room };
        bench.call(&call.bytes, &[], room).map_err(told)?;
    }
    Ok(())
}
