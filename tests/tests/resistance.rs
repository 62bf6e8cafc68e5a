//! The checks of `resistance` can fail: the model stands in for the library, right at first and then
//! wrong in one thing at a time, and each wrong thing is told. The model itself is held against
//! answers worked by hand.

use std::sync::OnceLock;

use rack_tests::direct::library::{Rack, Supply};
use rack_tests::direct::stand_in::{self, StandIn};
use rack_tests::rack::{Rack as Model, EMPTY, SLOTS};
use rack_tests::resistance::library::{CellNumbers, Library, Meter, NO_KIND, OFF, OHMS, OPEN};
use rack_tests::resistance::printed::Printed;
use rack_tests::resistance::racks::bare;
use rack_tests::resistance::{checks, faults, Asked, Cell, Check, Resistance};
use rack_tests::rounding::is_nearest;
use rack_tests::supply::{Supply as Plain, AC, ENA, MODELS, OTP, SO, WANT_OFF};

/// The racks are the same for every wrong answer, so they are made once.
fn prepared() -> &'static [Check] {
    static CHECKS: OnceLock<Vec<Check>> = OnceLock::new();
    CHECKS.get_or_init(|| checks(&StandIn).expect("the model is as the model"))
}

// ---- the model as a meter ----

struct Made<R>(R);

impl<R: Fn(&mut Rack, u64) -> CellNumbers> Meter for Made<R> {
    fn resistance(&self, rack: &mut Rack, address: u64) -> CellNumbers {
        (self.0)(rack, address)
    }
}

/// A fitted slot, for a wrong meter to answer from.
#[derive(Clone, Copy)]
struct Slot<'a> {
    supply: &'a Supply,
    model: u8,
    cell: Cell,
}

impl Slot<'_> {
    fn of(model: u8, supply: &Supply) -> Slot<'_> {
        Slot { supply, model, cell: Cell::of(&bare(model, supply)) }
    }

    fn right(&self) -> CellNumbers {
        Ok(self.cell).into()
    }

    /// Right by other readings.
    fn reads(&self, ticks: u64, ma: u64) -> CellNumbers {
        Ok(Cell { ticks, ma, ..self.cell }).into()
    }

    /// Right by another rule of whether the output is on.
    fn on_if(&self, on: bool) -> CellNumbers {
        Ok(Cell { on, ..self.cell }).into()
    }

    /// Right, but the output is on if all is well with these bits of FLT.
    fn on_by(&self, bits: u8) -> CellNumbers {
        self.on_if(bare(self.model, self.supply).flt() & bits == 0)
    }

    /// Right, but changed if the answer is of this kind.
    fn where_kind(&self, kind: u8, change: impl Fn(&mut CellNumbers)) -> CellNumbers {
        let mut numbers = self.right();
        if numbers.kind == kind {
            change(&mut numbers);
        }
        numbers
    }

    /// Right, but with ohms got from ticks and mA in another way.
    fn ohms(&self, way: impl Fn(f64, f64) -> f64) -> CellNumbers {
        self.where_kind(OHMS, |it| it.ohms = way(self.cell.ticks as f64, self.cell.ma as f64))
    }

    /// Right, but with volts and amps got in another way.
    fn beside(&self, way: impl Fn(f64, f64) -> (f64, f64)) -> CellNumbers {
        let (volts, amps) = way(self.cell.ticks as f64, self.cell.ma as f64);
        CellNumbers { volts, amps, ..self.right() }
    }

    /// Both readings, each by another rule for count and rating.
    fn read(&self, volts: Reading, amps: Reading) -> (u64, u64) {
        let row = &MODELS[usize::from(self.model)];
        let of = |reading: Reading, count: u16, rating: i64| reading(count.into(), rating as u64);
        (
            of(volts, self.supply.volt_count, row.rated_volts),
            of(amps, self.supply.amp_count, row.rated_amperes),
        )
    }

    fn reads_by(&self, volts: Reading, amps: Reading) -> CellNumbers {
        let (ticks, ma) = self.read(volts, amps);
        self.reads(ticks, ma)
    }

    /// The readings with what is below a tick or mA.
    fn uncut(&self) -> (f64, f64) {
        let row = &MODELS[usize::from(self.model)];
        let of = |count: u16, rating: i64| f64::from(count) * rating as f64 / 50_000.0;
        (of(self.supply.volt_count, row.rated_volts), of(self.supply.amp_count, row.rated_amperes))
    }

    /// Right for another supply, or another model.
    fn as_if(&self, change: impl Fn(&mut Supply)) -> CellNumbers {
        let mut supply = *self.supply;
        change(&mut supply);
        Slot::of(self.model, &supply).right()
    }
}

/// What a count reads with a rating.
type Reading = fn(u64, u64) -> u64;

fn cut(count: u64, rating: u64) -> u64 {
    count * rating / 50_000
}

fn to_nearest(count: u64, rating: u64) -> u64 {
    (count * rating + 25_000) / 50_000
}

fn up(count: u64, rating: u64) -> u64 {
    (count * rating).div_ceil(50_000)
}

/// The product in 32 bits, which it does not fit.
fn in_32_bits(count: u64, rating: u64) -> u64 {
    u64::from((count as u32).wrapping_mul(rating as u32) / 50_000)
}

fn of_65536(count: u64, rating: u64) -> u64 {
    count * rating / 65_536
}

/// The slot at an address, if it has a supply; a model that is none is taken as model 0.
fn slot_at(rack: &Rack, address: u64) -> Option<Slot<'_>> {
    let at = usize::try_from(address).ok().filter(|at| *at < SLOTS)?;
    let model = Some(rack.models[at]).filter(|model| *model != EMPTY)?;
    Some(Slot::of(if usize::from(model) < MODELS.len() { model } else { 0 }, &rack.slots[at]))
}

/// A meter that answers by this rule from each fitted slot.
fn by_rule(rack: &Rack, address: u64, rule: impl Fn(Slot) -> CellNumbers) -> CellNumbers {
    slot_at(rack, address).map_or(Err(6).into(), rule)
}

fn right(rack: &Rack, address: u64) -> CellNumbers {
    by_rule(rack, address, |slot| slot.right())
}

/// Some check tells this of such a meter.
fn tells(wrong: &dyn Meter, said: &str) {
    let mut told = prepared().iter().flat_map(|check| check.faults(wrong));
    let found = told.any(|fault| fault.contains(said));
    assert!(found, "'{said}' should be said, and it is\n{}", faults(wrong, prepared()).join("\n"));
}

#[test]
fn the_model_passes_its_own_checks() {
    let model = Made(|rack: &mut Rack, address| right(rack, address));
    assert_eq!(faults(&model, prepared()), Vec::<String>::new());
}

/// Which bits a float has that is not a number is free.
#[test]
fn any_float_that_is_not_a_number_is_right() {
    let others = [f64::NAN, -f64::NAN, f64::from_bits(0x7FF0_0000_0000_0001), f64::from_bits(!0)];
    for other in others {
        let any = |figure: f64| if figure.is_nan() { other } else { figure };
        let model = Made(|rack: &mut Rack, address| {
            let due = right(rack, address);
            CellNumbers { ohms: any(due.ohms), volts: any(due.volts), amps: any(due.amps), ..due }
        });
        assert_eq!(faults(&model, prepared()), Vec::<String>::new());
    }
}

// ---- wrong answers for a fitted slot ----

type Rule = fn(Slot) -> CellNumbers;

const NONE: f64 = f64::NAN;

/// What each does wrong, and how that is told.
#[rustfmt::skip]
const RULES: &[(&str, Rule)] = &[
    // Which answer comes first.
    ("kind should be 2 and is 1", // open before off
        |it| if it.cell.ma == 0 { CellNumbers { kind: OPEN, ..it.right() } } else { it.right() }),
    ("kind should be 2 and is 0", // ohms before off
        |it| if it.cell.ma > 0 { it.on_if(true) } else { it.right() }),
    // What open is.
    ("kind should be 1 and is 0", // judged by the count
        |it| it.where_kind(OPEN, |to| if it.supply.amp_count > 0 {
            (to.kind, to.ohms) = (OHMS, f64::INFINITY);
        })),
    ("kind should be 1 and is 0", // never open
        |it| it.where_kind(OPEN, |to| (to.kind, to.ohms) = (OHMS, f64::INFINITY))),
    ("kind should be 1 and is 0", // only without volts
        |it| it.where_kind(OPEN, |to| if it.cell.ticks > 0 { to.kind = OHMS })),
    ("kind should be 0 and is 1", // also without volts
        |it| it.where_kind(OHMS, |to| if it.cell.ticks == 0 { (to.kind, to.ohms) = (OPEN, NONE) })),
    ("kind should be 0 and is 1", // at 1 mA too
        |it| it.where_kind(OHMS, |to| if it.cell.ma <= 1 { (to.kind, to.ohms) = (OPEN, NONE) })),
    ("kind should be 0 and is 1", // by amperes cut to whole ones
        |it| it.where_kind(OHMS, |to| if it.cell.ma < 1000 { (to.kind, to.ohms) = (OPEN, NONE) })),
    ("kind should be 1 and is 2", |it| it.where_kind(OPEN, |to| to.kind = OFF)),
    // What off is: WANT, the two trips and the four lines, each alone, and each left out.
    ("kind should be 2 and is", |it| it.on_by(WANT_OFF)),
    ("kind should be 2 and is", |it| it.on_by(0x18)),
    ("kind should be 2 and is", |it| it.on_by(AC | OTP | SO | ENA)),
    ("kind should be 2 and is", |it| it.on_by(!WANT_OFF)),
    ("kind should be 2 and is", |it| it.on_by(!0x18)),
    ("kind should be 2 and is", |it| it.on_by(!(AC | OTP | SO | ENA))),
    ("kind should be 2 and is", |it| it.on_by(!0x08)),
    ("kind should be 2 and is", |it| it.on_by(!0x10)),
    ("kind should be 2 and is", |it| it.on_by(!AC)),
    ("kind should be 2 and is", |it| it.on_by(!OTP)),
    ("kind should be 2 and is", |it| it.on_by(!SO)),
    ("kind should be 2 and is", |it| it.on_by(!ENA)),
    ("kind should be 2 and is", |it| it.on_if(true)),
    ("kind should be 0 and is 2", |it| it.on_if(false)),
    ("kind should be 0 and is 2", |it| it.on_if(it.cell.on && it.supply.cv_seen == 1)),
    ("kind should be 0 and is 2", |it| it.on_if(it.cell.on && it.cell.ticks > 0)),
    ("kind should be 0 and is 2", |it| it.on_if(it.cell.on && it.supply.feve == 0)),
    ("code should be 0 and is 6", |it| it.where_kind(OFF, |to| *to = Err(6).into())),
    ("code should be 0 and is 6", |it| it.where_kind(OPEN, |to| *to = Err(6).into())),
    ("code should be 0 and is 1", |it| it.where_kind(OFF, |to| to.code = 1)),
    // The numbers of the kinds.
    ("kind should be 0 and is 1", |it| CellNumbers { kind: [1, 0, 2][usize::from(it.right().kind)], ..it.right() }),
    ("kind should be 1 and is 2", |it| CellNumbers { kind: [0, 2, 1][usize::from(it.right().kind)], ..it.right() }),
    ("kind should be 2 and is 0", |it| CellNumbers { kind: [2, 1, 0][usize::from(it.right().kind)], ..it.right() }),
    ("kind should be 0 and is 1", |it| CellNumbers { kind: it.right().kind + 1, ..it.right() }),
    ("kind should be 2 and is 255", |it| it.where_kind(OFF, |to| to.kind = NO_KIND)),
    // Ohms where there are none.
    ("ohms should be NaN", |it| it.where_kind(OPEN, |to| to.ohms = 0.0)),
    ("ohms should be NaN", |it| it.where_kind(OPEN, |to| to.ohms = f64::INFINITY)),
    ("ohms should be NaN", |it| it.where_kind(OFF, |to| to.ohms = 0.0)),
    ("ohms should be NaN", |it| it.where_kind(OFF, |to| to.ohms = it.on_if(true).ohms)),
    // Volts and amps, which stand beside all three answers.
    ("volts should be", |it| it.where_kind(OFF, |to| to.volts = 0.0)),
    ("amps should be", |it| it.where_kind(OFF, |to| to.amps = 0.0)),
    ("volts should be", |it| it.where_kind(OFF, |to| to.volts = NONE)),
    ("amps should be", |it| it.where_kind(OFF, |to| to.amps = NONE)),
    ("volts should be", |it| it.where_kind(OPEN, |to| to.volts = 0.0)),
    ("volts should be", |it| it.where_kind(OPEN, |to| to.volts = NONE)),
    ("amps should be 0 (0000000000000000) and is NaN", |it| it.where_kind(OPEN, |to| to.amps = NONE)),
    ("volts should be", |it| it.where_kind(OHMS, |to| to.volts = NONE)),
    ("volts should be", |it| it.beside(|ticks, ma| (ticks / 1_000.0, ma / 1_000.0))), // ten times
    ("volts should be", |it| it.beside(|ticks, ma| (ticks / 10.0, ma / 1_000.0))),
    ("volts should be", |it| it.beside(|ticks, ma| (ticks, ma / 1_000.0))),
    ("amps should be", |it| it.beside(|ticks, ma| (ticks / 10_000.0, ma / 10_000.0))),
    ("amps should be", |it| it.beside(|ticks, ma| (ticks / 10_000.0, ma))),
    ("volts should be", |it| it.beside(|ticks, ma| (ma / 1_000.0, ticks / 10_000.0))),
    ("volts should be", |it| it.beside(|ticks, ma| (ticks * 0.0001, ma / 1_000.0))),
    ("amps should be", |it| it.beside(|ticks, ma| (ticks / 10_000.0, ma * 0.001))),
    ("volts should be", |it| it.beside(|ticks, ma| (ticks / 10.0 / 1_000.0, ma / 1_000.0))),
    ("volts should be", |it| it.beside(|ticks, ma| (f64::from(ticks as f32 / 10_000.0), ma / 1_000.0))),
    ("amps should be", |it| it.beside(|ticks, ma| (ticks / 10_000.0, f64::from((ma / 1_000.0) as f32)))),
    ("volts should be", |it| it.beside(|ticks, ma| ((ticks / 10.0).floor() / 1_000.0, ma / 1_000.0))),
    ("volts should be", |it| it.beside(|ticks, ma| ((ticks / 10_000.0).floor(), ma / 1_000.0))),
    ("amps should be", |it| it.beside(|ticks, ma| (ticks / 10_000.0, (ma / 1_000.0).floor()))),
    ("volts should be 0 (0000000000000000) and is -0 (8000000000000000)",
        |it| it.beside(|ticks, ma| (if ticks == 0.0 { -0.0 } else { ticks / 10_000.0 }, ma / 1_000.0))),
    ("amps should be 0 (0000000000000000) and is -0 (8000000000000000)",
        |it| it.beside(|ticks, ma| (ticks / 10_000.0, if ma == 0.0 { -0.0 } else { ma / 1_000.0 }))),
    ("volts should be", |it| it.beside(|ticks, ma| (-ticks / 10_000.0, ma / 1_000.0))),
    ("volts should be", |it| it.beside(|ticks, ma| ((ticks / 10_000.0).next_up(), ma / 1_000.0))),
    ("amps should be", |it| it.beside(|ticks, ma| (ticks / 10_000.0, (ma / 1_000.0).next_up()))),
    // Which counts and settings.
    ("volts should be", |it| it.as_if(|supply| supply.volt_count = supply.amp_count)),
    ("amps should be", |it| it.as_if(|supply| supply.amp_count = supply.volt_count)),
    ("volts should be", |it| it.as_if(|supply| std::mem::swap(&mut supply.volt_count, &mut supply.amp_count))),
    ("volts should be", |it| it.reads(it.supply.pv.into(), it.cell.ma)),
    ("amps should be", |it| it.reads(it.cell.ticks, it.supply.pc.into())),
    ("volts should be", |it| it.reads(it.supply.volt_count.into(), it.cell.ma)),
    ("amps should be", |it| it.reads(it.cell.ticks, it.supply.amp_count.into())),
    ("volts should be", |it| it.reads(it.cell.ticks.min(it.supply.ovp.into()), it.cell.ma)),
    ("volts should be", |it| it.as_if(|supply| supply.volt_count = supply.volt_count.min(50_000))),
    ("amps should be", |it| it.as_if(|supply| supply.amp_count = supply.amp_count.min(50_000))),
    ("volts should be", |it| it.as_if(|supply| supply.volt_count = supply.volt_count.min(65_534))),
    ("volts should be", |it| it.as_if(|supply| supply.volt_count = supply.volt_count.swap_bytes())),
    ("volts should be", |it| it.as_if(|supply| supply.volt_count &= 0x7FFF)), // as if signed
    // What a count reads.
    ("volts should be", |it| it.reads_by(to_nearest, cut)),
    ("amps should be", |it| it.reads_by(cut, to_nearest)),
    ("volts should be", |it| it.reads_by(up, cut)),
    ("amps should be", |it| it.reads_by(cut, up)),
    ("volts should be", |it| it.reads_by(in_32_bits, cut)),
    ("amps should be", |it| it.reads_by(cut, in_32_bits)),
    ("volts should be", |it| it.reads_by(of_65536, cut)),
    ("amps should be", |it| it.reads_by(cut, of_65536)),
    ("volts should be", |it| CellNumbers { volts: it.uncut().0 / 10_000.0, ..it.right() }),
    ("amps should be", |it| CellNumbers { amps: it.uncut().1 / 1_000.0, ..it.right() }),
    ("ohms should be", |it| it.ohms(|_, ma| it.uncut().0 / (10.0 * ma))),
    ("ohms should be", |it| it.ohms(|ticks, _| ticks / (10.0 * it.uncut().1))),
    ("ohms should be", |it| it.ohms(|_, _| it.uncut().0 / (10.0 * it.uncut().1))),
    ("kind should be 1 and is 0", // nothing is 0 mA but count 0
        |it| it.where_kind(OPEN, |to| if it.uncut().1 > 0.0 { to.kind = OHMS })),
    ("volts should be", |it| Slot::of((it.model + 1) % 12, it.supply).right()),
    // How ohms come from ticks and mA.
    ("ohms should be", |it| it.ohms(|ticks, ma| ticks / ma)), // mA not times ten
    ("ohms should be", |it| it.ohms(|ticks, ma| ticks / (1_000.0 * ma))),
    ("ohms should be", |it| it.ohms(|ticks, ma| ticks * 100.0 / ma)), // milliohms
    ("ohms should be", |it| it.ohms(|ticks, ma| 10.0 * ma / ticks)), // siemens
    ("ohms should be", |it| it.ohms(|ticks, ma| ticks * ma / 1e7)), // watts
    ("ohms should be", |it| it.ohms(|ticks, ma| (ticks / (10.0 * ma)).round())),
    ("ohms should be", |it| it.ohms(|ticks, ma| (ticks / (10.0 * ma)).floor())),
    ("ohms should be", |it| it.ohms(|ticks, ma| (ticks * 100.0 / ma).round() / 1_000.0)),
    ("ohms should be", |it| it.ohms(|ticks, ma| (ticks * 100.0 / ma).floor() / 1_000.0)),
    ("ohms should be", |it| it.ohms(|ticks, ma| (ticks * 1e5 / ma).round() / 1e6)),
    ("ohms should be", |it| it.ohms(|ticks, ma| (ticks / 10_000.0) / (ma / 1_000.0))), // volts by amps
    ("ohms should be", |it| it.ohms(|ticks, ma| ticks / 10.0 / ma)),
    ("ohms should be", |it| it.ohms(|ticks, ma| ticks / ma / 10.0)),
    ("ohms should be", |it| it.ohms(|ticks, ma| ticks / ma * 0.1)),
    ("ohms should be", |it| it.ohms(|ticks, ma| ticks * 0.1 / ma)),
    ("ohms should be", |it| it.ohms(|ticks, ma| ticks * (1.0 / (10.0 * ma)))),
    ("ohms should be", |it| it.ohms(|ticks, ma| f64::from(ticks as f32 / (10.0 * ma) as f32))),
    ("ohms should be", |it| it.ohms(|ticks, ma| f64::from((ticks / (10.0 * ma)) as f32))),
    ("ohms should be", |it| it.ohms(|ticks, ma| (ticks / (10.0 * ma)).next_up())),
    ("ohms should be", |it| it.ohms(|ticks, ma| -ticks / (10.0 * ma))),
    ("ohms should be 0 (0000000000000000) and is -0 (8000000000000000)",
        |it| it.ohms(|ticks, ma| if ticks == 0.0 { -0.0 } else { ticks / (10.0 * ma) })),
    ("ohms should be 0 (0000000000000000) and is NaN",
        |it| it.ohms(|ticks, ma| if ticks == 0.0 { NONE } else { ticks / (10.0 * ma) })),
    ("ohms should be", |it| it.ohms(|_, _| 0.0)),
    ("ohms should be", |it| it.ohms(|_, _| NONE)),
];

#[test]
fn a_wrong_answer_is_told() {
    for (said, rule) in RULES {
        tells(&Made(|rack: &mut Rack, address| by_rule(rack, address, rule)), said);
    }
}

/// Each of these is told by every check of that model.
#[test]
fn a_wrong_rating_is_told_whichever_model_has_it() {
    for model in 0..MODELS.len() as u8 {
        for other in (0..MODELS.len() as u8).filter(|other| *other != model) {
            let rated = |slot: Slot| match slot.model == model {
                true => Slot::of(other, slot.supply).right(),
                false => slot.right(),
            };
            let wrong = Made(|rack: &mut Rack, address| by_rule(rack, address, rated));
            let faults = faults(&wrong, prepared());
            let start = format!("model {model}, ");
            let told = faults.iter().filter(|fault| fault.starts_with(&start)).count();
            let due = prepared().iter().filter(|check| check.name.starts_with(&start)).count();
            assert!(due > 20 && told == due, "model {other} for model {model}");
        }
    }
}

// ---- wrong addresses and refusals ----

type Answer = fn(&Rack, u64) -> CellNumbers;

/// Right, but these addresses are refused.
fn refusing(rack: &Rack, address: u64, refused: bool) -> CellNumbers {
    if refused {
        Err(6).into()
    } else {
        right(rack, address)
    }
}

/// Right, but an address that is refused gets what this makes of the refusal.
fn refused(rack: &Rack, address: u64, change: fn(&mut CellNumbers)) -> CellNumbers {
    let mut numbers = right(rack, address);
    if numbers.code != 0 {
        change(&mut numbers);
    }
    numbers
}

/// Right by the model that stands at another address.
fn with_model_of(rack: &Rack, address: u64, other: u64) -> CellNumbers {
    let model = slot_at(rack, other).map(|slot| slot.model);
    by_rule(rack, address, |slot| Slot::of(model.unwrap_or(slot.model), slot.supply).right())
}

#[rustfmt::skip]
const ADDRESSES: &[(&str, Answer)] = &[
    // Another slot, or a part of another one.
    ("code should be", |rack, address| right(rack, address.wrapping_add(1))),
    ("code should be", |rack, address| right(rack, address.wrapping_sub(1))),
    ("volts should be", |rack, address| right(rack, if address < 30 { address + 1 } else { address })),
    ("volts should be", |rack, address| right(rack, if address < 31 { 30 - address } else { address })),
    ("volts should be", |rack, address| refusing(rack, rack.line.selected.into(), right(rack, address).code != 0)),
    ("code should be 0 and is 6", |rack, address| refusing(rack, address, address != u64::from(rack.line.selected))),
    ("volts should be", |rack, address| with_model_of(rack, address, address.wrapping_add(1))),
    ("volts should be", |rack, address| with_model_of(rack, address, address.wrapping_sub(1))),
    ("volts should be", |rack, address| with_model_of(rack, address, 0)),
    ("volts should be", |rack, address| with_model_of(rack, address, rack.line.selected.into())),
    // Addresses that no slot has.
    ("address 256, where nothing is fitted: code should be 6 and is 0", |rack, address| right(rack, address % 256)),
    ("address 32, where nothing is fitted: code should be 6 and is 0", |rack, address| right(rack, address % 32)),
    ("address 31, where nothing is fitted: code should be 6 and is 0", |rack, address| right(rack, address % 31)),
    ("address 128, where nothing is fitted: code should be 6 and is 0", |rack, address| right(rack, address % 128)),
    ("address 65536, where nothing is fitted: code should be 6 and is 0", |rack, address| right(rack, address & 0xFFFF)),
    ("address 2147483648, where nothing is fitted: code should be 6 and is 0",
        |rack, address| right(rack, address & 0x7FFF_FFFF)),
    ("address 4294967296, where nothing is fitted: code should be 6 and is 0",
        |rack, address| right(rack, address & 0xFFFF_FFFF)),
    ("address 9223372036854775808, where nothing is fitted: code should be 6 and is 0",
        |rack, address| right(rack, address & !(1 << 63))),
    ("address 18446744073709551615, where nothing is fitted: code should be 6 and is 0", // negative
        |rack, address| right(rack, (address as i64).max(0) as u64)),
    ("address 31, where nothing is fitted: code should be 6 and is 0", // 31 taken
        |rack, address| right(rack, if address == 31 { 30 } else { address })),
    ("address 31, where nothing is fitted: code should be 6 and is 0",
        |rack, address| right(rack, if address == 31 { 0 } else { address })),
    ("address 18446744073709551615, where nothing is fitted: code should be 6 and is 0",
        |rack, address| right(rack, address.min(30))),
    ("address 18446744073709551615, where nothing is fitted: code should be 6 and is 0",
        |rack, address| right(rack, if address == u64::MAX { 30 } else { address })),
    // Addresses that some slot has.
    ("address 30, where Cell", |rack, address| refusing(rack, address, address >= 30)),
    ("address 0, where Cell", |rack, address| refusing(rack, address, address == 0)),
    ("address 16, where Cell", |rack, address| refusing(rack, address, address == 16)),
    ("code should be 0 and is 6", |rack, address| refusing(rack, address, rack.line.selected > 30)),
    ("code should be 0 and is 6", |_, _| Err(6).into()),
    ("code should be 0 and is 6", // model 0 taken for none
        |rack, address| refusing(rack, address, slot_at(rack, address).is_some_and(|slot| slot.model == 0))),
    ("code should be 0 and is 6", // model 11 taken for none
        |rack, address| refusing(rack, address, slot_at(rack, address).is_some_and(|slot| slot.model > 10))),
    // Which refusal.
    ("code should be 6 and is 7", |rack, address| refused(rack, address, |it| it.code = 7)),
    ("code should be 6 and is 0", |rack, address| refused(rack, address, |it| it.code = 0)),
    ("code should be 6 and is 8", |rack, address| if address > 30 { Err(8).into() } else { right(rack, address) }),
    ("code should be 6 and is 7", |rack, address| if address > 30 { Err(7).into() } else { right(rack, address) }),
    ("code should be 6 and is 7", // another one for an empty slot
        |rack, address| if address < 31 { refused(rack, address, |it| it.code = 7) } else { right(rack, address) }),
    ("code should be 6 and is 0", // an empty slot answered as model 0
        |rack, address| match rack.slots.get(address as usize).filter(|_| address < 31) {
            Some(supply) if right(rack, address).code == 6 => Slot::of(0, supply).right(),
            _ => right(rack, address),
        }),
    ("code should be 6 and is 0", // an empty slot answered as off
        |rack, address| if address < 31 {
            refused(rack, address, |it| *it = CellNumbers { code: 0, kind: OFF, ohms: NONE, volts: 0.0, amps: 0.0 })
        } else {
            right(rack, address)
        }),
    // What stands beside a refusal.
    ("kind should be 255 and is 0", |rack, address| refused(rack, address, |it| it.kind = OHMS)),
    ("kind should be 255 and is 1", |rack, address| refused(rack, address, |it| it.kind = OPEN)),
    ("kind should be 255 and is 2", |rack, address| refused(rack, address, |it| it.kind = OFF)),
    ("kind should be 255 and is 3", |rack, address| refused(rack, address, |it| it.kind = 3)),
    ("ohms should be NaN", |rack, address| refused(rack, address, |it| it.ohms = 0.0)),
    ("volts should be NaN", |rack, address| refused(rack, address, |it| it.volts = 0.0)),
    ("amps should be NaN", |rack, address| refused(rack, address, |it| it.amps = 0.0)),
    ("amps should be NaN", |rack, address| refused(rack, address, |it| it.amps = -0.0)),
    ("ohms should be NaN", |rack, address| refused(rack, address, |it| it.ohms = f64::INFINITY)),
];

#[test]
fn a_wrong_address_or_refusal_is_told() {
    for (said, answer) in ADDRESSES {
        tells(&Made(|rack: &mut Rack, address| answer(rack, address)), said);
    }
}

// ---- a rack that is changed ----

type Change = fn(&mut Rack, usize);

#[rustfmt::skip]
const CHANGES: &[(&str, Change)] = &[
    ("volt count should be", |rack, slot| rack.slots[slot].volt_count = 0),
    ("ampere count should be", |rack, slot| rack.slots[slot].amp_count = 0),
    ("FEVE should be", |rack, slot| rack.slots[slot].feve = 0),
    ("SEVE should be", |rack, slot| rack.slots[slot].seve = 0),
    ("FENA should be", |rack, slot| rack.slots[slot].fena |= 1),
    ("SENA should be", |rack, slot| rack.slots[slot].sena ^= 1),
    ("WANT should be 1 and is 0", |rack, slot| rack.slots[slot].want = 0),
    ("OVP trip should be 1 and is 0", |rack, slot| rack.slots[slot].ovp_trip = 0),
    ("FOLD trip should be 1 and is 0", |rack, slot| rack.slots[slot].fold_trip = 0),
    ("CV memory should be 1 and is 0", |rack, slot| rack.slots[slot].cv_seen = 0),
    ("CV memory should be 0 and is 1", |rack, slot| rack.slots[slot].cv_seen |= rack.slots[slot].want),
    ("MODE should be 0 and is 1", |rack, slot| rack.slots[slot].mode = rack.slots[slot].mode.max(1)),
    ("LINES should be", |rack, slot| rack.slots[slot].lines = 0),
    ("PV should be", |rack, slot| rack.slots[slot].pv = 0),
    ("OVP should be", |rack, slot| rack.slots[slot].ovp -= 1),
    ("slot 0 PC should be", |rack, _| rack.slots[0].pc += 1),
    ("slot 30 UVL should be", |rack, _| rack.slots[30].uvl += 1),
    ("the address selected should be", |rack, slot| rack.line.selected = slot as u8),
    ("the address selected should be", |rack, _| rack.line.selected = 31),
    ("the count of kept characters should be", |rack, _| rack.line.count = 0),
    ("the line's mark as spoiled should be 1 and is 0", |rack, _| rack.line.spoiled = 0),
    ("character 0 of the line should be", |rack, _| rack.line.kept[0] = 0),
    ("character 63 of the line should be", |rack, _| rack.line.kept[63] ^= 1),
    ("the model of slot", |rack, slot| rack.models[slot] = EMPTY),
];

/// Whether the change comes with an answer or with a refusal.
#[test]
fn a_rack_that_is_changed_is_told() {
    for (said, change) in CHANGES {
        let changing = Made(|rack: &mut Rack, address| {
            let numbers = right(rack, address);
            if numbers.code == 0 {
                change(rack, address as usize);
            }
            numbers
        });
        tells(&changing, said);
    }
    let refusing = Made(|rack: &mut Rack, address| {
        let numbers = right(rack, address);
        rack.line.selected ^= u8::from(numbers.code != 0);
        numbers
    });
    tells(&refusing, "nothing is fitted: the address selected should be");
}

// ---- what is printed ----

/// A supply with 5.5 V and 24.69 A says this to MV?, MC? and OUT?; what is said of its answer.
fn told_of(mv: &str, mc: &str, out: &str) -> String {
    let mut rack = stand_in::fit(&[0; SLOTS]).rack;
    (rack.slots[6].want, rack.slots[6].volt_count, rack.slots[6].amp_count) = (1, 45_834, 12_345);
    let printed = Printed { mv: mv.into(), mc: mc.into(), out: out.into() };
    let asked = Asked { address: 6, due: None, printed: Some(printed) };
    let model = Made(|rack: &mut Rack, address| right(rack, address));
    asked.fault(&rack, &model).unwrap_or_default()
}

#[test]
fn another_text_than_the_answer_is_told() {
    assert_eq!(told_of("5.5000", "24.690", "ON"), "");
    for volts in ["5.5001", "5.4999", "-5.5000", "", "NaN", "E05"] {
        assert!(told_of(volts, "24.690", "ON").contains("volts: it answers"), "{volts}");
    }
    for amps in ["24.691", "24.689", "0.000", "24,690", "OK"] {
        assert!(told_of("5.5000", amps, "ON").contains("amps: it answers"), "{amps}");
    }
    assert!(told_of("5.5000", "24.690", "OFF").contains("off: it answers"));
}

/// What the answer makes of a text that is there.
#[test]
fn off_and_open_are_told_by_the_text() {
    let printed =
        |mc: &str, out: &str| Printed { mv: "5.5000".into(), mc: mc.into(), out: out.into() };
    let came = |kind, amps| CellNumbers { code: 0, kind, ohms: NONE, volts: 5.5, amps };
    for (mc, out, amps, kind) in [
        ("24.690", "ON", 24.69, OHMS),
        ("0.001", "ON", 0.001, OHMS),
        ("0.000", "ON", 0.0, OPEN),
        ("0.000", "OFF", 0.0, OFF),
        ("24.690", "OFF", 24.69, OFF),
    ] {
        for answered in [OHMS, OPEN, OFF] {
            let fault = printed(mc, out).fault(&came(answered, amps));
            assert_eq!(fault.is_none(), answered == kind, "{mc} and {out} with kind {answered}");
        }
    }
}

// ---- what is asked ----

/// How often each answer is due: ohms, open, off, a refusal, and a free one.
fn kinds<'a>(checks: impl Iterator<Item = &'a Check>) -> [usize; 5] {
    let mut counts = [0; 5];
    for asked in checks.flat_map(Check::asked) {
        let kind = asked.due.map(|due| due.map(|cell| CellNumbers::from(Ok(cell)).kind));
        counts[match kind {
            Some(Ok(kind)) => usize::from(kind),
            Some(Err(_)) => 3,
            None => 4,
        }] += 1;
    }
    counts
}

#[test]
fn every_kind_of_answer_is_due_many_times() {
    let all = kinds(prepared().iter());
    assert!(all.iter().take(4).all(|count| *count > 1_500), "{all:?}");
    for name in ["generated lists", "drawn racks", "racks that no call made"] {
        let counts = kinds(prepared().iter().filter(|check| check.name.starts_with(name)));
        assert!(counts.iter().take(4).all(|count| *count > 150), "{name}: {counts:?}");
    }
    for model in 0..MODELS.len() {
        let start = format!("model {model}, ");
        let counts = kinds(prepared().iter().filter(|check| check.name.starts_with(&start)));
        assert!(counts.iter().take(3).all(|count| *count > 30), "{start}: {counts:?}");
    }
}

/// Racks that calls made are also asked over the serial line, at each fitted slot.
#[test]
fn every_cell_of_a_rack_that_calls_made_is_printed() {
    let made = prepared().iter().filter(|check| check.name != "racks that no call made");
    for asked in made.flat_map(Check::asked) {
        let fitted = asked.due.is_some_and(|due| due.is_ok());
        assert_eq!(asked.printed.is_some(), fitted, "address {}", asked.address);
    }
}

// ---- answers worked by hand ----

/// A supply of this model with its output on and these counts.
fn on(model: u8, volt_count: u16, ampere_count: u16) -> Plain {
    Plain { want: true, volt_count, ampere_count, ..Plain::fresh(model) }
}

/// Ohms, volts and amps by their bits; no ohms if the cell is open.
fn bits(supply: &Plain) -> (Option<u64>, u64, u64) {
    let cell = Cell::of(supply);
    let ohms = match cell.resistance() {
        Resistance::Ohms(ohms) => Some(ohms.to_bits()),
        Resistance::Open => None,
        Resistance::Off => panic!("it is on"),
    };
    (ohms, cell.volts().to_bits(), cell.amps().to_bits())
}

#[test]
fn cells_worked_by_hand() {
    // 45,834 * 60,000 / 50,000 = 55,000.8 ticks, which is 5.5 V.
    let volts = 0x4016_0000_0000_0000;
    assert_eq!(bits(&on(0, 45_834, 0)), (None, volts, 0));
    // 24,690 mA; 55,000 / 246,900 = 0.222762251923855812..
    let (ohms, amps) = (0x3FCC_8379_3565_EC4D, 0x4038_B0A3_D70A_3D71);
    assert_eq!(bits(&on(0, 45_834, 12_345)), (Some(ohms), volts, amps));
    // The least that can be told: 1.2 ticks by 131,070 mA, 1 / 1,310,700 = 0.000000762951094834..
    let (ohms, volts, amps) = (0x3EA9_99B3_334C_CCE6, 0x3F1A_36E2_EB1C_432D, 0x4060_623D_70A3_D70A);
    assert_eq!(bits(&on(0, 1, u16::MAX)), (Some(ohms), volts, amps));
    // 7,864,200 ticks. 38 counts are 0.988 mA and 39 are 1.014: open, and 786,420 ohms.
    let volts = 0x4088_935C_28F5_C28F;
    assert_eq!(bits(&on(11, u16::MAX, 38)), (None, volts, 0));
    let (ohms, amps) = (0x4127_FFE8_0000_0000, 0x3F50_624D_D2F1_A9FC);
    assert_eq!(bits(&on(11, u16::MAX, 39)), (Some(ohms), volts, amps));
    // 1,703.91 mA; 7,864,200 / 17,030 = 461.785085143863769..
    let (ohms, amps) = (0x407C_DC8F_B570_9787, 0x3FFB_3F7C_ED91_6873);
    assert_eq!(bits(&on(11, u16::MAX, u16::MAX)), (Some(ohms), volts, amps));
    // 399,996 ticks by 11,111 mA is 3.6 ohms, and no volts are +0.0 ohms.
    let ohms = 3.6_f64.to_bits();
    assert_eq!(
        bits(&on(6, 33_333, 44_444)),
        (Some(ohms), 39.9996_f64.to_bits(), 11.111_f64.to_bits())
    );
    assert_eq!(bits(&on(9, 0, 777)), (Some(0), 0, 0.077_f64.to_bits()));
}

#[test]
fn off_comes_before_open() {
    for off in [
        Plain { want: false, ..on(0, 45_834, 0) },
        Plain { lines: AC, ..on(0, 45_834, 0) },
        Plain { lines: OTP, ..on(0, 45_834, 12_345) },
        Plain { lines: SO, ..on(0, 45_834, 12_345) },
        Plain { lines: ENA, ..on(0, 45_834, 12_345) },
        Plain { fold_trip: true, ..on(0, 45_834, 12_345) },
        Plain { ovp_trip: true, ..on(0, 45_834, 0) },
    ] {
        let cell = Cell::of(&off);
        assert_eq!((cell.resistance(), cell.volts()), (Resistance::Off, 5.5), "{off:?}");
        assert_eq!(cell.amps(), if off.ampere_count == 0 { 0.0 } else { 24.69 }, "{off:?}");
    }
}

#[test]
fn addresses_worked_by_hand() {
    let mut list = [EMPTY; SLOTS];
    (list[0], list[6], list[30]) = (3, 0, 11);
    let rack = Model::fit(&list).expect("a good list");
    let fresh = Ok(Cell { on: false, ticks: 0, ma: 0 });
    for address in [0, 6, 30] {
        assert_eq!(Cell::at(&rack, address), fresh);
    }
    for address in [1, 29, 31, 32, 255, 256, 262, (1 << 32) + 6, (1 << 63) + 6, u64::MAX] {
        assert_eq!(Cell::at(&rack, address), Err(6));
    }
    let refusal = CellNumbers::from(Err(6));
    assert_eq!((refusal.code, refusal.kind), (6, 255));
    assert!([refusal.ohms, refusal.volts, refusal.amps].iter().all(|figure| figure.is_nan()));
}

// ---- the float nearest to a quotient ----

#[test]
fn only_one_float_is_nearest_to_a_figure_of_a_cell() {
    for (dividend, divisor) in [(1, 1_310_700), (1, 10_000), (7_864_200, 10), (55_000, 246_900)] {
        let float = dividend as f64 / divisor as f64;
        let moved = |by: i64| f64::from_bits(float.to_bits().wrapping_add_signed(by));
        for by in [-(1 << 52), -1000, -2, -1, 0, 1, 2, 1000, 1 << 52] {
            assert_eq!(is_nearest(moved(by), dividend, divisor), by == 0, "{dividend} / {divisor}");
        }
    }
    assert!(is_nearest(0.0, 0, 10));
    for odd in [-0.0, f64::MIN_POSITIVE, f64::from_bits(1), f64::NAN, 1.0] {
        assert!(!is_nearest(odd, 0, 10));
    }
}

// ---- the library ----

#[test]
fn what_is_no_library_is_not_opened() {
    let complaint = |path: &str| Library::open(path).err().unwrap_or_default();
    assert!(complaint("src/nothing.so").starts_with("src/nothing.so: "));
    assert!(complaint("src/lib.rs").contains("src/lib.rs"));
}
