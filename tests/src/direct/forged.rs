//! Racks that no fitting list and no call made, with anything in their fields. What a field returns
//! is not specified there, but a call still ends and writes nowhere else, and a refusal is as on
//! any rack.

use crate::generate::{generate, Draw};
use crate::line::LINE_ROOM;
use crate::rack::{Rack as Model, EMPTY, SLOTS};
use crate::supply::MODELS;

use super::bench::{called, hexadecimal, Tally, LARGE, SMALL};
use super::library::{Controller, Line, Rack, Supply};
use super::outcome::{difference, Outcome, FENCE};
use super::Check;

const RACKS: u64 = 400;
/// This many calls are made on each, one after another.
const CALLS: usize = 40;

pub fn check() -> Check {
    Check::new("racks that no call made", |controller, tally| {
        (0..RACKS).try_for_each(|number| one_rack(controller, tally, number))
    })
}

fn one_rack(controller: &dyn Controller, tally: &mut Tally, number: u64) -> Result<(), String> {
    let mut draw = Draw::new(number);
    let mut rack = forge(&mut draw);
    for bytes in generate(number).parts.iter().skip(1).take(CALLS) {
        let room = draw.pick(&[&LARGE[..], &LARGE, &SMALL].concat());
        let refusal = fitted_alike(&rack).call(bytes, room).err();
        let (unmoved, seen) = called(controller, &mut rack, [bytes, &[]], room, tally.calls);
        tally.calls += 1;
        let wanted = match refusal {
            Some(code) => Outcome { code, ..unmoved },
            None => free(unmoved, &seen),
        };
        if let Some(what) = difference(&wanted, &seen) {
            let (call, list) = (hexadecimal(bytes), hexadecimal(&rack.models));
            return Err(format!("call of {call} with {room} bytes, models {list}: {what}"));
        }
    }
    Ok(())
}

/// As seen, except for what no call may write: the lent bytes, and those around the buffer.
fn free(unmoved: Outcome, seen: &Outcome) -> Outcome {
    let mut buffer = unmoved.buffer;
    let inside = FENCE..buffer.len() - FENCE;
    buffer[inside.clone()].copy_from_slice(&seen.buffer[inside]);
    Outcome { buffer, lent: unmoved.lent, ..seen.clone() }
}

/// A rack of the model with supplies in the same slots; refusals depend on nothing else.
pub fn fitted_alike(rack: &Rack) -> Model {
    let list = rack.models.map(|model| if model == EMPTY { EMPTY } else { 0 });
    Model::fit(&list).expect("a list of known models")
}

/// A bool is true or false here too: any other byte would not be a value of the language.
pub fn forge(draw: &mut Draw) -> Rack {
    let counts = [0, 1, LINE_ROOM - 1, LINE_ROOM, LINE_ROOM + 1, 1000, usize::MAX];
    let mut line = Line {
        kept: [0; LINE_ROOM],
        count: draw.pick(&counts),
        spoiled: draw.below(2) as u8,
        selected: draw.any() as u8,
    };
    line.kept.copy_from_slice(&draw.bytes(LINE_ROOM));
    let models = std::array::from_fn(|_| match draw.below(3) {
        0 => EMPTY,
        1 => draw.below(MODELS.len() as u64) as u8,
        _ => draw.any() as u8,
    });
    Rack { slots: std::array::from_fn::<_, SLOTS, _>(|_| forge_supply(draw)), line, models }
}

fn forge_supply(draw: &mut Draw) -> Supply {
    let mut truth = || draw.below(2) as u8;
    let [want, armed, ast, fold_trip, ovp_trip, cv_seen] = std::array::from_fn(|_| truth());
    let [pv, pc, ovp, uvl] = std::array::from_fn(|_| draw.any() as u32);
    let [mode, lines, fena, feve, sena, seve] = std::array::from_fn(|_| draw.any() as u8);
    Supply {
        pv,
        pc,
        ovp,
        uvl,
        want,
        armed,
        ast,
        mode,
        lines,
        fold_trip,
        ovp_trip,
        fena,
        feve,
        sena,
        seve,
        cv_seen,
        volt_count: draw.any() as u16,
        amp_count: draw.any() as u16,
    }
}
