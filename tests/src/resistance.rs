//! The resistance of a cell beside a second reading of its paper. It is asked at addresses of racks
//! that calls made, and of some that none made. Codes and kinds are compared with this reading and
//! floats bit by bit, also with whole numbers and with what the supply prints; and the rack must be
//! as it was, field by field.

pub mod library;
pub mod printed;
pub mod racks;
pub mod states;

use crate::direct::library::{Controller, Rack};
use crate::direct::outcome::{name_of, parted, State};
use crate::rack::{Rack as Model, NO_SUPPLY};
use crate::rounding::is_nearest;
use crate::supply::Supply;

use library::{CellNumbers, Meter};
use printed::Printed;

/// Ticks to the volt.
const TICKS: u64 = 10_000;
/// mA to the ampere.
const MILLIAMPERES: u64 = 1_000;

/// What the answer for a fitted slot depends on: whether its output is on, and the readings of its
/// stored counts, in ticks and mA.
#[derive(Clone, Copy, Debug, PartialEq, Eq)]
pub struct Cell {
    pub on: bool,
    pub ticks: u64,
    pub ma: u64,
}

#[derive(Clone, Copy, Debug, PartialEq)]
pub enum Resistance {
    Ohms(f64),
    Open,
    Off,
}

impl Cell {
    pub fn of(supply: &Supply) -> Cell {
        let [ticks, ma] = [supply.volt_reading(), supply.ampere_reading()].map(i64::unsigned_abs);
        Cell { on: supply.output_on(), ticks, ma }
    }

    /// The cell at an address of a rack, or the code of the refusal.
    pub fn at(rack: &Model, address: u64) -> Result<Cell, u8> {
        let slot = usize::try_from(address).ok().and_then(|slot| rack.slots.get(slot));
        slot.and_then(Option::as_ref).map(Cell::of).ok_or(NO_SUPPLY)
    }

    /// Off comes first: an output that is off has no current either.
    pub fn resistance(&self) -> Resistance {
        if !self.on {
            Resistance::Off
        } else if self.ma == 0 {
            Resistance::Open
        } else {
            Resistance::Ohms(self.ticks as f64 / self.ohm_divisor() as f64)
        }
    }

    /// A tick over a mA is a tenth of an ohm.
    fn ohm_divisor(&self) -> u64 {
        10 * self.ma
    }

    pub fn volts(&self) -> f64 {
        self.ticks as f64 / TICKS as f64
    }

    pub fn amps(&self) -> f64 {
        self.ma as f64 / MILLIAMPERES as f64
    }

    /// The first figure for which another float is nearer to its quotient. Whole numbers show that
    /// even if library and model divided alike in a wrong rounding mode.
    fn rounded_wrongly(&self, came: &CellNumbers) -> Option<String> {
        let ohms = matches!(self.resistance(), Resistance::Ohms(_));
        let quotients = [
            ("ohms", came.ohms, self.ticks, self.ohm_divisor(), ohms),
            ("volts", came.volts, self.ticks, TICKS, true),
            ("amps", came.amps, self.ma, MILLIAMPERES, true),
        ];
        let wrong = |(_, float, dividend, divisor, there): &&(&str, f64, u64, u64, bool)| {
            *there && !is_nearest(*float, *dividend, *divisor)
        };
        let (name, float, ..) = quotients.iter().find(wrong)?;
        Some(format!("{name} are {float}, and another float is nearer"))
    }
}

/// An address that is asked, and what is known of the answer.
pub struct Asked {
    pub address: u64,
    /// The cell or the refusal; none where the papers leave the answer free.
    pub due: Option<Result<Cell, u8>>,
    /// What the supply there prints, if calls made the rack.
    pub printed: Option<Printed>,
}

impl Asked {
    /// What is wrong with the answer, or with the rack after it.
    pub fn fault(&self, rack: &Rack, meter: &dyn Meter) -> Option<String> {
        let mut lent = *rack;
        let came = meter.resistance(&mut lent, self.address);
        let fault = parted(&State::of(rack).0, &State::of(&lent).0, name_of)
            .or_else(|| self.due.and_then(|due| CellNumbers::from(due).difference(&came)))
            .or_else(|| self.due?.ok()?.rounded_wrongly(&came))
            .or_else(|| self.printed.as_ref().and_then(|printed| printed.fault(&came)))?;
        Some(format!("address {}, where {}: {fault}", self.address, self.known()))
    }

    fn known(&self) -> String {
        match self.due {
            Some(Ok(cell)) => format!("{cell:?}"),
            Some(Err(_)) => "nothing is fitted".into(),
            None => "any answer will do".into(),
        }
    }
}

/// A rack, and the addresses that are asked there.
pub struct Situation {
    pub rack: Rack,
    pub asked: Vec<Asked>,
}

impl Situation {
    /// A rack that calls made, which is this one in the model.
    fn reached(
        controller: &dyn Controller,
        rack: &Rack,
        model: &Model,
        addresses: impl IntoIterator<Item = u64>,
    ) -> Result<Situation, String> {
        let ask = |address| {
            let due = Cell::at(model, address);
            let printed =
                due.is_ok().then(|| printed::at(controller, rack, address)).transpose()?;
            Ok(Asked { address, due: Some(due), printed })
        };
        let asked = addresses.into_iter().map(ask).collect::<Result<Vec<Asked>, String>>()?;
        Ok(Situation { rack: *rack, asked })
    }
}

/// Situations that belong together, by the name that a report calls them.
pub struct Check {
    pub name: String,
    pub situations: Vec<Situation>,
}

impl Check {
    /// What is wrong with each wrong answer, in turn.
    pub fn faults<'a>(&'a self, meter: &'a dyn Meter) -> impl Iterator<Item = String> + 'a {
        let of_a_rack = move |situation: &'a Situation| {
            situation.asked.iter().filter_map(move |asked| asked.fault(&situation.rack, meter))
        };
        self.situations.iter().flat_map(of_a_rack)
    }

    pub fn asked(&self) -> impl Iterator<Item = &Asked> {
        self.situations.iter().flat_map(|situation| &situation.asked)
    }
}

/// All checks, on racks that this controller makes; a call that is not as in the model ends it.
pub fn checks(controller: &dyn Controller) -> Result<Vec<Check>, String> {
    let mut checks = states::checks(controller)?;
    checks.extend(racks::checks(controller)?);
    Ok(checks)
}

/// The checks that this meter does not pass, in words, each with its first wrong answer.
pub fn faults(meter: &dyn Meter, checks: &[Check]) -> Vec<String> {
    let judge = |check: &Check| Some(format!("{}: {}", check.name, check.faults(meter).next()?));
    checks.iter().filter_map(judge).collect()
}
