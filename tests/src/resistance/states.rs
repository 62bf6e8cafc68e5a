//! Each model with its output on, and off by each cause, as calls bring it about; and in each such
//! state the least and the greatest counts, and those beside the first that reads anything and the
//! first that trips.

use crate::counts::least_count;
use crate::direct::bench::{Bench, Tally};
use crate::direct::fields::split;
use crate::direct::library::Controller;
use crate::rack::{EMPTY, SLOTS};
use crate::script;
use crate::supply::{Model, MODELS};

use super::{Check, Situation};

/// Which volt counts a state can have.
#[derive(Clone, Copy)]
enum Volts {
    Any,
    /// A sample with the output on trips from OVP on.
    BelowOvp,
    FromOvp,
}

/// A state that a supply is brought to, by the lines of a script, where @ is its address. Each
/// sample follows what comes before it and precedes what comes after it.
struct Way {
    name: &'static str,
    /// FLT as it must be then.
    flt: u8,
    volts: Volts,
    once: &'static str,
    before: &'static str,
    after: &'static str,
}

const NEVER_ON: Way =
    Way { name: "never on", flt: 0x40, volts: Volts::Any, once: "", before: "", after: "" };

/// Off by what is done once, whatever is sampled afterwards.
const fn off(name: &'static str, flt: u8, once: &'static str) -> Way {
    Way { name, flt, once, ..NEVER_ON }
}

/// On by what is done around each sample, unless FLT is given otherwise.
const fn around(name: &'static str, before: &'static str, after: &'static str) -> Way {
    Way { name, flt: 0, before, after, ..NEVER_ON }
}

const WAYS: [Way; 22] = [
    Way { volts: Volts::BelowOvp, ..around("on by OUT 1", "line OUT 1", "") },
    around("on by OUT 1 after the sample", "line OUT 0", "line OUT 1"),
    around("on by its key after the sample", "line OUT 0; line RMT 0", "key @ OUTPUT"),
    around("on after a trip", "line OUT 1; sample @ 65535 0", "line OUT 1"),
    around("on with auto start after SO", "line AST 1; line OUT 1; lines @ SO", "lines @ none"),
    NEVER_ON,
    off("off by OUT 0", 0x40, "line OUT 1; line OUT 0"),
    Way { flt: 0x40, volts: Volts::BelowOvp, ..around("OUT 0 last", "line OUT 1", "line OUT 0") },
    off("off by a line that fell again", 0x40, "line OUT 1; lines @ ENA; lines @ none"),
    off("off by AC", 0x42, "line OUT 1; lines @ AC"),
    off("off by OTP", 0x44, "line OUT 1; lines @ OTP"),
    off("off by SO", 0x60, "line OUT 1; lines @ SO"),
    off("off by ENA", 0xC0, "line OUT 1; lines @ ENA"),
    off("off by AC alone", 0x02, "line AST 1; line OUT 1; lines @ AC"),
    off("off by OTP alone", 0x04, "line AST 1; line OUT 1; lines @ OTP"),
    off("off by SO alone", 0x20, "line AST 1; line OUT 1; lines @ SO"),
    off("off by ENA alone", 0x80, "line AST 1; line OUT 1; lines @ ENA"),
    off("off by all lines", 0xA6, "line AST 1; line OUT 1; lines @ AC OTP SO ENA"),
    off("off by the OVP trip", 0x10, "line OUT 1; sample @ 65535 0"),
    off("off by the OVP trip and OUT 0", 0x50, "line OUT 1; sample @ 65535 0; line OUT 0"),
    Way { flt: 0x10, volts: Volts::FromOvp, ..around("tripped by the sample", "line OUT 1", "") },
    off(
        "off by the FOLD trip",
        0x08,
        "line PC 1; line FLD 1; line OUT 1; sample @ 0 0; sample @ 0 65535",
    ),
];

pub fn checks(controller: &dyn Controller) -> Result<Vec<Check>, String> {
    let models = 0..MODELS.len() as u8;
    models
        .flat_map(|model| WAYS.iter().map(move |way| (model, way)))
        .map(|(model, way)| {
            let name = format!("model {model}, {}", way.name);
            let situations =
                situations(controller, model, way).map_err(|what| format!("{name}: {what}"))?;
            Ok(Check { name, situations })
        })
        .collect()
}

/// The state with each pair of counts. The slots beside it have other models, counts and states,
/// and one of them is selected when the question comes.
fn situations(controller: &dyn Controller, model: u8, way: &Way) -> Result<Vec<Situation>, String> {
    let slot = usize::from(model) * 5 % SLOTS;
    let (next, previous) = ((slot + 1) % SLOTS, (slot + SLOTS - 1) % SLOTS);
    let mut list = [EMPTY; SLOTS];
    list[slot] = model;
    list[next] = (model + 1) % MODELS.len() as u8;
    list[previous] = (model + 5) % MODELS.len() as u8;
    let mut tally = Tally::default();
    let mut bench = Bench::fit(controller, &mut tally, &list)?;
    work(&mut bench, next, "line ADR @; sample @ 12345 23456; line OUT 1")?;
    work(&mut bench, previous, "sample @ 34567 4567")?;
    work(&mut bench, slot, &format!("line ADR @; {}", way.once))?;
    let mut found = Vec::new();
    for (volts, amps) in pairs(&MODELS[usize::from(model)], way.volts) {
        work(&mut bench, slot, &format!("line ADR @; {}", way.before))?;
        work(&mut bench, slot, &format!("sample @ {volts} {amps}; {}", way.after))?;
        let supply = bench.model().slots[slot].as_ref().expect("a fitted slot");
        if (supply.flt(), supply.volt_count, supply.ampere_count) != (way.flt, volts, amps) {
            return Err(format!("{volts} and {amps} lead to another state: {supply:?}"));
        }
        work(&mut bench, next, "line ADR @")?;
        found.push(Situation::reached(controller, bench.rack(), bench.model(), [slot as u64])?);
    }
    Ok(found)
}

/// Lines of a script, parted by semicolons, for this slot.
fn work(bench: &mut Bench, slot: usize, lines: &str) -> Result<(), String> {
    let source = lines.replace(';', "\n").replace('@', &slot.to_string());
    for row in script::parse(source.as_bytes())?.rows {
        for field in split(&row.bytes) {
            bench.draws(&field, bench.next_room(), 0)?;
        }
    }
    Ok(())
}

/// Each volt count with each ampere count.
fn pairs(model: &Model, volts: Volts) -> Vec<(u16, u16)> {
    let trips = least_count(model.ovp_most, model.rated_volts).expect("a count that trips");
    let mut volt_counts = counts(model.rated_volts);
    volt_counts.extend([trips - 1, trips]);
    volt_counts.retain(|count| match volts {
        Volts::Any => true,
        Volts::BelowOvp => *count < trips,
        Volts::FromOvp => *count >= trips,
    });
    let amp_counts = counts(model.rated_amperes);
    volt_counts
        .into_iter()
        .flat_map(|volts| amp_counts.iter().map(move |it| (volts, *it)))
        .collect()
}

/// The ends, the rating, one between, and the greatest that reads 0 with the next.
fn counts(rating: i64) -> Vec<u16> {
    let first = least_count(1, rating).expect("a count that reads anything");
    let mut counts = vec![0, 1, first - 1, first, 34_567, 50_000, u16::MAX];
    counts.sort_unstable();
    counts.dedup();
    counts
}
