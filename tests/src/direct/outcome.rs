//! The outcome of a call, as numbers in one fixed order: for the library, and for the model. Two
//! such outcomes are compared number by number, so whatever differs has a name.

use std::fmt::Display;

use crate::line::LINE_ROOM;
use crate::rack::{Rack as Model, SLOTS};
use crate::supply::{Mode, Supply as Plain};

use super::library::{Rack, Supply};

const FIELDS: [&str; 18] = [
    "PV",
    "PC",
    "OVP",
    "UVL",
    "WANT",
    "ARMED",
    "AST",
    "MODE",
    "LINES",
    "FOLD trip",
    "OVP trip",
    "FENA",
    "FEVE",
    "SENA",
    "SEVE",
    "CV memory",
    "volt count",
    "ampere count",
];
const MODELS_AT: usize = SLOTS * FIELDS.len();
const KEPT_AT: usize = MODELS_AT + SLOTS;
const COUNT_AT: usize = KEPT_AT + LINE_ROOM;
const SPOILED_AT: usize = COUNT_AT + 1;
const SELECTED_AT: usize = SPOILED_AT + 1;
/// How many numbers a rack holds.
pub const FIGURES: usize = SELECTED_AT + 1;
/// The address that stands for nobody.
pub const NOBODY: u64 = SLOTS as u64;

/// Every field of a rack.
#[derive(Clone, PartialEq, Eq, Debug)]
pub struct State(pub [u64; FIGURES]);

impl State {
    pub fn of(rack: &Rack) -> State {
        let mut all = [0; FIGURES];
        for (slot, supply) in rack.slots.iter().enumerate() {
            all[slot * FIELDS.len()..][..FIELDS.len()].copy_from_slice(&figures(supply));
        }
        let bytes = rack.models.iter().chain(&rack.line.kept);
        all[MODELS_AT..COUNT_AT]
            .iter_mut()
            .zip(bytes)
            .for_each(|(at, byte)| *at = u64::from(*byte));
        all[COUNT_AT] = rack.line.count as u64;
        all[SPOILED_AT] = u64::from(rack.line.spoiled);
        all[SELECTED_AT] = u64::from(rack.line.selected);
        State(all)
    }

    /// The numbers of the model's rack. The papers say nothing about an empty slot or about
    /// characters that are not kept: the first stays as in `fitted`, the others may be as in
    /// `seen`.
    pub fn wanted(model: &Model, fitted: &State, seen: &State) -> State {
        let mut all = fitted.0;
        for (slot, supply) in model.slots.iter().enumerate() {
            if let Some(plain) = supply {
                all[slot * FIELDS.len()..][..FIELDS.len()].copy_from_slice(&plain_figures(plain));
            }
        }
        all[KEPT_AT..COUNT_AT].copy_from_slice(&seen.0[KEPT_AT..COUNT_AT]);
        for (at, byte) in model.kept.iter().enumerate() {
            all[KEPT_AT + at] = u64::from(*byte);
        }
        all[COUNT_AT] = model.kept.len() as u64;
        all[SPOILED_AT] = u64::from(model.spoiled);
        all[SELECTED_AT] = model.selected.map_or(NOBODY, |slot| slot as u64);
        State(all)
    }

    /// The same rack, built from these models.
    pub fn with_models(mut self, models: &[u8]) -> State {
        let places = self.0[MODELS_AT..KEPT_AT].iter_mut();
        places.zip(models).for_each(|(at, model)| *at = u64::from(*model));
        self
    }
}

fn figures(supply: &Supply) -> [u64; FIELDS.len()] {
    [
        supply.pv.into(),
        supply.pc.into(),
        supply.ovp.into(),
        supply.uvl.into(),
        supply.want.into(),
        supply.armed.into(),
        supply.ast.into(),
        supply.mode.into(),
        supply.lines.into(),
        supply.fold_trip.into(),
        supply.ovp_trip.into(),
        supply.fena.into(),
        supply.feve.into(),
        supply.sena.into(),
        supply.seve.into(),
        supply.cv_seen.into(),
        supply.volt_count.into(),
        supply.amp_count.into(),
    ]
}

fn plain_figures(plain: &Plain) -> [u64; FIELDS.len()] {
    [
        plain.pv as u64,
        plain.pc as u64,
        plain.ovp as u64,
        plain.uvl as u64,
        plain.want.into(),
        plain.armed.into(),
        plain.ast.into(),
        mode_number(plain.mode),
        plain.lines.into(),
        plain.fold_trip.into(),
        plain.ovp_trip.into(),
        plain.fena.into(),
        plain.feve.into(),
        plain.sena.into(),
        plain.seve.into(),
        plain.cv_seen.into(),
        plain.volt_count.into(),
        plain.ampere_count.into(),
    ]
}

fn mode_number(mode: Mode) -> u64 {
    match mode {
        Mode::Local => 0,
        Mode::Remote => 1,
        Mode::LockedOut => 2,
    }
}

/// What the number at this place of a state is.
pub fn name_of(at: usize) -> String {
    match at {
        ..MODELS_AT => format!("slot {} {}", at / FIELDS.len(), FIELDS[at % FIELDS.len()]),
        MODELS_AT..KEPT_AT => format!("the model of slot {}", at - MODELS_AT),
        KEPT_AT..COUNT_AT => format!("character {} of the line", at - KEPT_AT),
        COUNT_AT => "the count of kept characters".into(),
        SPOILED_AT => "the line's mark as spoiled".into(),
        _ => "the address selected".into(),
    }
}

/// This many bytes stand on either side of a buffer, and are checked too.
pub const FENCE: usize = 64;

/// What a call left: what it returned, the buffer within its fence, the lent bytes, the rack.
#[derive(Clone, Debug)]
pub struct Outcome {
    pub code: u8,
    pub used: usize,
    pub length: usize,
    pub buffer: Vec<u8>,
    pub lent: Vec<u8>,
    pub state: State,
}

/// The first thing in which an outcome is not as wanted, in words; none if all is.
pub fn difference(wanted: &Outcome, seen: &Outcome) -> Option<String> {
    let answer = |of: &Outcome| [usize::from(of.code), of.used, of.length];
    let reply = FENCE + wanted.length;
    let behind = wanted.buffer.len() - FENCE;
    let place = |at| match at {
        ..FENCE => format!("the byte {} before the buffer", FENCE - at),
        _ if at < reply => format!("byte {} of the reply", at - FENCE),
        _ if at < behind => format!("byte {} of the buffer, behind the reply,", at - FENCE),
        _ => format!("the byte {} behind the buffer", at - behind + 1),
    };
    parted(&answer(wanted), &answer(seen), |at| ["code", "used", "length"][at].into())
        .or_else(|| parted(&wanted.buffer, &seen.buffer, place))
        .or_else(|| parted(&wanted.lent, &seen.lent, |at| format!("byte {at} lent")))
        .or_else(|| parted(&wanted.state.0, &seen.state.0, name_of))
}

/// The first place where two lists of numbers differ, by its name.
pub fn parted<T: PartialEq + Display>(
    wanted: &[T],
    seen: &[T],
    name: impl Fn(usize) -> String,
) -> Option<String> {
    if wanted.len() != seen.len() {
        return Some(format!("{} numbers should be {}", seen.len(), wanted.len()));
    }
    let at = wanted.iter().zip(seen).position(|(one, other)| one != other)?;
    Some(format!("{} should be {} and is {}", name(at), wanted[at], seen[at]))
}
