//! Fitting lists: every way to be refused, and every model in every slot.

use crate::generate::Draw;
use crate::rack::{BAD_FITTING, EMPTY, SLOTS};
use crate::supply::MODELS;

use super::bench::{Bench, Tally, LARGE};
use super::fields::field;
use super::library::Controller;
use super::Check;

const KNOWN: std::ops::Range<u8> = 0..MODELS.len() as u8;
/// Random lists, good ones and bad ones.
const DRAWN: u64 = 500;

pub fn checks() -> Vec<Check> {
    vec![
        Check::new("fitting lists of any length but 31", other_lengths),
        Check::new("each byte that is no model, in each slot", each_wrong_byte),
        Check::new("each model in each slot, alone and among others", each_model),
        Check::new("fitting lists by chance", by_chance),
        Check::new("calls on the rack of a refused list", calls_after_a_refusal),
    ]
}

/// Fits the list, which must draw this code.
fn drawn(
    controller: &dyn Controller,
    tally: &mut Tally,
    list: &[u8],
    code: u8,
) -> Result<(), String> {
    Bench::fit(controller, tally, list)?;
    let answered = controller.fit(list).code;
    match answered == code {
        true => Ok(()),
        false => Err(format!("the list {list:?} drew {answered}, not {code}")),
    }
}

fn other_lengths(controller: &dyn Controller, tally: &mut Tally) -> Result<(), String> {
    for length in (0..=64).chain([255, 256, 287, 1000]).filter(|length| *length != SLOTS) {
        for byte in [EMPTY, 0, 11, 12] {
            drawn(controller, tally, &vec![byte; length], BAD_FITTING)?;
        }
    }
    Ok(())
}

fn each_wrong_byte(controller: &dyn Controller, tally: &mut Tally) -> Result<(), String> {
    for slot in 0..SLOTS {
        for byte in KNOWN.end..EMPTY {
            let mut list = [if slot % 2 == 0 { EMPTY } else { 3 }; SLOTS];
            list[slot] = byte;
            drawn(controller, tally, &list, BAD_FITTING)?;
        }
    }
    Ok(())
}

fn each_model(controller: &dyn Controller, tally: &mut Tally) -> Result<(), String> {
    for model in KNOWN.chain([EMPTY]) {
        for slot in 0..SLOTS {
            for others in [EMPTY, 0, 11] {
                let mut list = [others; SLOTS];
                list[slot] = model;
                drawn(controller, tally, &list, 0)?;
            }
        }
    }
    Ok(())
}

fn by_chance(controller: &dyn Controller, tally: &mut Tally) -> Result<(), String> {
    let mut draw = Draw::new(31);
    for _ in 0..DRAWN {
        let good: Vec<u8> = (0..SLOTS)
            .map(|_| if draw.percent(30) { EMPTY } else { draw.below(KNOWN.end.into()) as u8 })
            .collect();
        drawn(controller, tally, &good, 0)?;
        let any = draw.bytes(SLOTS);
        Bench::fit(controller, tally, &any)?;
    }
    Ok(())
}

/// No slot is fitted there: events are refused with 6, serial bytes are accepted and nobody
/// replies.
fn calls_after_a_refusal(controller: &dyn Controller, tally: &mut Tally) -> Result<(), String> {
    let mut bench = Bench::fit(controller, tally, &[0; SLOTS - 1])?;
    for (room, address) in LARGE.into_iter().cycle().zip(0..=255) {
        bench.draws(&field(2, 2, &[address, 0]), room, 6)?;
        bench.draws(&field(3, 6, &[address, 0, 0, 0, 0, 1]), room, 6)?;
        bench.draws(&field(4, 2, &[address, 0]), room, 6)?;
        bench.draws(&field(5, 5, &[address, 1, 2, 3, 4]), room, 6)?;
    }
    for line in ["ADR 0\r", "PV?\r", "GPV 5\r", "GRST\r", "ADR 31\r", "PV?"] {
        bench.draws(&field(1, line.len(), line.as_bytes()), bench.next_room(), 0)?;
    }
    Ok(())
}
