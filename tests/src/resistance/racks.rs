//! Racks with many slots: each address, and numbers far above; racks drawn; and racks that no call
//! made.

use crate::direct::bench::{Bench, Tally};
use crate::direct::fields::field;
use crate::direct::forged::forge;
use crate::direct::library::{Controller, Rack, Supply};
use crate::generate::{generate, Draw};
use crate::rack::{EMPTY, NO_SUPPLY, SLOTS};
use crate::supply::{Supply as Plain, LINE_BITS, MODELS};

use super::{Asked, Cell, Check, Situation};

/// Generated lists are numbered from here, apart from those of other tests.
const FIRST_SEED: u64 = 15_000_000;
const LISTS: u64 = 400;
/// Racks with most slots fitted.
const FULL_RACKS: u64 = 120;
const FORGED: u64 = 400;

/// Every address that a slot has, and the first two that none has.
const NEAR: std::ops::RangeInclusive<u64> = 0..=SLOTS as u64 + 1;
/// What stands above an address, so that it is another one if bits are lost.
const ABOVE: [u64; 10] = [32, 64, 128, 256, 512, 1 << 16, 1 << 31, 1 << 32, 1 << 63, u64::MAX - 31];

pub fn checks(controller: &dyn Controller) -> Result<Vec<Check>, String> {
    let mut checks = addresses(controller)?;
    checks.push(lists(controller)?);
    checks.push(full_racks(controller)?);
    checks.push(forged());
    Ok(checks)
}

// ---- addresses ----

/// Whether a slot has a supply.
type HasSupply = fn(usize) -> bool;

/// Every address of these racks, and all numbers above it that end like one.
fn addresses(controller: &dyn Controller) -> Result<Vec<Check>, String> {
    let fittings: [(&str, HasSupply); 6] = [
        ("with every slot fitted", |_| true),
        ("with even slots fitted", |slot| slot % 2 == 0),
        ("with odd slots fitted", |slot| slot % 2 == 1),
        ("with slot 0 alone", |slot| slot == 0),
        ("with slot 30 alone", |slot| slot == 30),
        ("with no slot fitted", |_| false),
    ];
    let mut checks = Vec::new();
    for (name, fitted) in fittings {
        let model = |slot| if fitted(slot) { (slot * 7 % MODELS.len()) as u8 } else { EMPTY };
        let list: [u8; SLOTS] = std::array::from_fn(model);
        let mut tally = Tally::default();
        let mut bench = Bench::fit(controller, &mut tally, &list)?;
        stir(&mut bench, &mut Draw::new(15))?;
        let far = ABOVE.into_iter().flat_map(|above| (0..32).map(move |low| above + low));
        let asked = (0..32).chain(far);
        let situation = Situation::reached(controller, bench.rack(), bench.model(), asked)?;
        let name = format!("addresses of a rack {name}");
        checks.push(Check { name, situations: vec![situation] });
    }
    Ok(checks)
}

// ---- drawn racks ----

/// Generated lists, and then a sample for each slot, mostly with its output on.
fn lists(controller: &dyn Controller) -> Result<Check, String> {
    let mut situations = Vec::new();
    for number in 0..LISTS {
        let input = generate(FIRST_SEED + number);
        let mut tally = Tally::default();
        let mut bench = Bench::fit(controller, &mut tally, &input.parts[0])?;
        for field in &input.parts[1..] {
            bench.call(field, &[], bench.next_room())?;
        }
        situations.push(Situation::reached(controller, bench.rack(), bench.model(), NEAR)?);
        stir(&mut bench, &mut Draw::new(number))?;
        situations.push(Situation::reached(controller, bench.rack(), bench.model(), NEAR)?);
    }
    Ok(Check { name: "generated lists".into(), situations })
}

fn full_racks(controller: &dyn Controller) -> Result<Check, String> {
    let mut situations = Vec::new();
    let mut draw = Draw::new(FIRST_SEED);
    for _ in 0..FULL_RACKS {
        let list: [u8; SLOTS] = std::array::from_fn(|_| match draw.percent(10) {
            true => EMPTY,
            false => draw.below(MODELS.len() as u64) as u8,
        });
        let mut tally = Tally::default();
        let mut bench = Bench::fit(controller, &mut tally, &list)?;
        stir(&mut bench, &mut draw)?;
        situations.push(Situation::reached(controller, bench.rack(), bench.model(), NEAR)?);
    }
    Ok(Check { name: "drawn racks with most slots fitted".into(), situations })
}

/// Brings each slot into a state of its own: mostly on, with a count of either kind that is often
/// small, and sometimes with a line that is up.
fn stir(bench: &mut Bench, draw: &mut Draw) -> Result<(), String> {
    say(bench, "\r")?;
    let fitted = |slot: &usize| bench.model().slots[*slot].is_some();
    for slot in (0..SLOTS).filter(fitted).collect::<Vec<usize>>() {
        say(bench, &format!("ADR {slot}\r"))?;
        say(bench, draw.pick(&["AST 0\r", "AST 1\r"]))?;
        send(bench, 4, &[slot as u8, 0])?;
        let sampled_first = draw.percent(50);
        let [volts, amps] = [count(draw), count(draw)].map(u16::to_be_bytes);
        let sample = [&[slot as u8], &volts[..], &amps].concat();
        if sampled_first {
            send(bench, 5, &sample)?;
        }
        say(bench, draw.pick(&["OUT 1\r", "OUT 1\r", "OUT 1\r", "OUT 0\r"]))?;
        if !sampled_first {
            send(bench, 5, &sample)?;
        }
        if draw.percent(15) {
            send(bench, 4, &[slot as u8, draw.any() as u8 & LINE_BITS])?;
        }
    }
    say(bench, &format!("ADR {}\r", draw.below(SLOTS as u64)))
}

/// A count that reads little or nothing, or any.
fn count(draw: &mut Draw) -> u16 {
    match draw.below(6) {
        0 => 0,
        1 => draw.below(50) as u16,
        2 => draw.below(1_000) as u16,
        _ => draw.any() as u16,
    }
}

fn say(bench: &mut Bench, text: &str) -> Result<(), String> {
    send(bench, 1, text.as_bytes())
}

fn send(bench: &mut Bench, tag: u8, payload: &[u8]) -> Result<(), String> {
    bench.draws(&field(tag, payload.len(), payload), bench.next_room(), 0)
}

// ---- racks that no call made ----

/// The answer depends only on the model, on the counts and on what keeps the output off, whatever
/// stands in the other fields.
fn forged() -> Check {
    let mut draw = Draw::new(FIRST_SEED);
    let situations = (0..FORGED).map(|_| {
        let mut rack = forge(&mut draw);
        rack.slots.iter_mut().for_each(|supply| unforge(supply, &mut draw));
        let ask = |address| Asked { address, due: due(&rack, address), printed: None };
        Situation { asked: NEAR.map(ask).collect(), rack }
    });
    Check { name: "racks that no call made".into(), situations: situations.collect() }
}

/// Makes a part of such a supply likely: its output on, its lines known, its counts at an end.
fn unforge(supply: &mut Supply, draw: &mut Draw) {
    if draw.percent(95) {
        supply.lines &= LINE_BITS;
    }
    match draw.below(8) {
        0..=2 => (supply.want, supply.lines, supply.fold_trip, supply.ovp_trip) = (1, 0, 0, 0),
        3 => (supply.want, supply.fold_trip, supply.ovp_trip) = (1, 0, 0),
        4 => (supply.want, supply.lines) = (1, 0),
        5 => (supply.lines, supply.fold_trip, supply.ovp_trip) = (0, 0, 0),
        _ => {}
    }
    if draw.percent(30) {
        supply.volt_count = draw.pick(&[0, 1, u16::MAX]);
    }
    if draw.percent(30) {
        supply.amp_count = draw.pick(&[0, 1, 38, 39, u16::MAX]);
    }
}

/// What the answer must be at an address of any rack: free if the model is none of the table, or if
/// LINES has a bit that no call sets.
fn due(rack: &Rack, address: u64) -> Option<Result<Cell, u8>> {
    let slot = address as usize;
    let model = rack.models.get(slot).copied().unwrap_or(EMPTY);
    if model == EMPTY {
        return Some(Err(NO_SUPPLY));
    }
    let supply = &rack.slots[slot];
    let told = usize::from(model) < MODELS.len() && supply.lines & !LINE_BITS == 0;
    told.then(|| Ok(Cell::of(&bare(model, supply))))
}

/// A supply of the model with what the answer depends on; the other fields may hold anything.
pub fn bare(model: u8, supply: &Supply) -> Plain {
    Plain {
        want: supply.want == 1,
        lines: supply.lines,
        fold_trip: supply.fold_trip == 1,
        ovp_trip: supply.ovp_trip == 1,
        volt_count: supply.volt_count,
        ampere_count: supply.amp_count,
        ..Plain::fresh(model)
    }
}
