//! The model in the library's place, with racks as the library has them: right by itself, so that a
//! test can make it wrong in one thing at a time.

use crate::line::LINE_ROOM;
use crate::rack::{Rack as Model, EMPTY, SLOTS};
use crate::supply::{Mode, Supply as Plain, MODELS};

use super::forged::fitted_alike;
use super::library::{Controller, Done, Fitted, Line, Rack, Supply};

/// The address that stands for nobody.
pub const NOBODY: u8 = SLOTS as u8;

const EMPTY_SLOT: Supply = Supply {
    pv: 0,
    pc: 0,
    ovp: 0,
    uvl: 0,
    want: 0,
    armed: 0,
    ast: 0,
    mode: 0,
    lines: 0,
    fold_trip: 0,
    ovp_trip: 0,
    fena: 0,
    feve: 0,
    sena: 0,
    seve: 0,
    cv_seen: 0,
    volt_count: 0,
    amp_count: 0,
};

/// A rack with no supply in it, as a refused fitting list leaves it here.
pub fn empty_rack() -> Rack {
    let line = Line { kept: [0; LINE_ROOM], count: 0, spoiled: 0, selected: NOBODY };
    Rack { slots: [EMPTY_SLOT; SLOTS], line, models: [EMPTY; SLOTS] }
}

fn supply_of(plain: &Plain) -> Supply {
    Supply {
        pv: plain.pv as u32,
        pc: plain.pc as u32,
        ovp: plain.ovp as u32,
        uvl: plain.uvl as u32,
        want: plain.want.into(),
        armed: plain.armed.into(),
        ast: plain.ast.into(),
        mode: [Mode::Local, Mode::Remote, Mode::LockedOut]
            .iter()
            .position(|mode| *mode == plain.mode)
            .expect("one of three") as u8,
        lines: plain.lines,
        fold_trip: plain.fold_trip.into(),
        ovp_trip: plain.ovp_trip.into(),
        fena: plain.fena,
        feve: plain.feve,
        sena: plain.sena,
        seve: plain.seve,
        cv_seen: plain.cv_seen.into(),
        volt_count: plain.volt_count,
        amp_count: plain.ampere_count,
    }
}

pub fn plain_of(model: u8, supply: &Supply) -> Plain {
    Plain {
        model,
        pv: supply.pv.into(),
        pc: supply.pc.into(),
        ovp: supply.ovp.into(),
        uvl: supply.uvl.into(),
        want: supply.want == 1,
        armed: supply.armed == 1,
        ast: supply.ast == 1,
        mode: [Mode::Local, Mode::Remote, Mode::LockedOut][usize::from(supply.mode)],
        lines: supply.lines,
        fold_trip: supply.fold_trip == 1,
        ovp_trip: supply.ovp_trip == 1,
        fena: supply.fena,
        feve: supply.feve,
        sena: supply.sena,
        seve: supply.seve,
        cv_seen: supply.cv_seen == 1,
        volt_count: supply.volt_count,
        ampere_count: supply.amp_count,
    }
}

pub fn model_of(rack: &Rack) -> Model {
    let slots = rack.models.iter().zip(&rack.slots);
    let supply =
        |(model, supply): (&u8, &Supply)| (*model != EMPTY).then(|| plain_of(*model, supply));
    Model {
        slots: slots.map(supply).collect(),
        selected: (rack.line.selected != NOBODY).then_some(rack.line.selected.into()),
        kept: rack.line.kept[..rack.line.count].to_vec(),
        spoiled: rack.line.spoiled == 1,
    }
}

/// Whether the model has such a rack; it has none of the forged ones.
pub fn known(rack: &Rack) -> bool {
    let modelled = |model: &u8| usize::from(*model) < MODELS.len() || *model == EMPTY;
    rack.models.iter().all(modelled)
        && rack.slots.iter().all(|supply| supply.mode <= 2)
        && rack.line.count <= LINE_ROOM
        && rack.line.selected <= NOBODY
}

/// The rack as this one of the model is.
pub fn put(model: &Model, rack: &mut Rack) {
    for (slot, supply) in rack.slots.iter_mut().zip(&model.slots) {
        if let Some(plain) = supply {
            *slot = supply_of(plain);
        }
    }
    rack.line.kept[..model.kept.len()].copy_from_slice(&model.kept);
    rack.line.count = model.kept.len();
    rack.line.spoiled = model.spoiled.into();
    rack.line.selected = model.selected.map_or(NOBODY, |slot| slot as u8);
}

pub fn fit(list: &[u8]) -> Fitted {
    let mut fitted = Fitted { code: 0, rack: empty_rack() };
    match Model::fit(list) {
        Ok(model) => {
            put(&model, &mut fitted.rack);
            fitted.rack.models.copy_from_slice(list);
        }
        Err(code) => fitted.code = code,
    }
    fitted
}

pub fn call(rack: &mut Rack, bytes: &[u8], reply: &mut [u8]) -> Done {
    let mut model = if known(rack) { model_of(rack) } else { fitted_alike(rack) };
    let mut done = Done { code: 0, used: 0, length: 0 };
    match model.call(bytes, reply.len()) {
        Ok((used, text)) => {
            reply[..text.len()].copy_from_slice(&text);
            (done.used, done.length) = (used, text.len());
            if known(rack) {
                put(&model, rack);
            }
        }
        Err(code) => done.code = code,
    }
    done
}

/// The model with nothing wrong.
pub struct StandIn;

impl Controller for StandIn {
    fn fit(&self, list: &[u8]) -> Fitted {
        fit(list)
    }

    fn call(&self, rack: &mut Rack, bytes: &[u8], reply: &mut [u8]) -> Done {
        call(rack, bytes, reply)
    }
}
