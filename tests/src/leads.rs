//! The lead adviser beside a second reading of its paper. It is asked how long a lead of some gauge
//! may be at a current, and for a gauge that serves a current and a length. Codes and gauges are
//! compared with this reading and metres bit by bit; where several gauges serve, each is right.

pub mod library;
pub mod questions;

use std::ops::RangeInclusive;

use crate::rounding;

use library::{Adviser, GaugeFor, LongestLead};

/// Each listed gauge with its figure, in tenths of a milliohm per km, from the thinnest on.
pub const TABLE: [(u64, u64); 8] = [
    (14, 82_870),
    (12, 52_130),
    (10, 32_789),
    (8, 20_620),
    (6, 12_969),
    (4, 8_156),
    (2, 5_131),
    (0, 3_225),
];
/// Currents that are accepted, in mA.
pub const CURRENTS: RangeInclusive<u64> = 1..=150_000;
/// Lengths that are accepted, in mm.
pub const LENGTHS: RangeInclusive<u64> = 1..=1_000_000;
/// The most that current, figure and length may come to with a length in metres: one volt.
pub const MOST_BY_METRES: u64 = 10_000_000_000;
/// The same with a length in mm.
pub const MOST_BY_MM: u64 = 10_000_000_000_000;

pub const NOT_LISTED: u8 = 9;
pub const OUT_OF_RANGE: u8 = 10;
pub const NONE_SERVES: u8 = 11;
/// The gauge beside a refusal, which is none.
pub const NO_GAUGE: u64 = 255;

pub fn figure(gauge: u64) -> Option<u64> {
    TABLE.iter().find(|(listed, _)| *listed == gauge).map(|(_, figure)| *figure)
}

/// Current, figure and length multiplied: wide enough for any three numbers that fit the ranges.
pub fn product(ma: u64, figure: u64, mm: u64) -> u128 {
    u128::from(ma) * u128::from(figure) * u128::from(mm)
}

/// The metres, or the code of the refusal.
pub fn longest_lead(gauge: u64, ma: u64) -> Result<f64, u8> {
    let figure = figure(gauge).ok_or(NOT_LISTED)?;
    match CURRENTS.contains(&ma) {
        true => Ok(MOST_BY_METRES as f64 / (ma * figure) as f64),
        false => Err(OUT_OF_RANGE),
    }
}

/// Every gauge that may be named, from the thinnest on, or the code of the refusal.
pub fn gauges_for(ma: u64, mm: u64) -> Result<Vec<u64>, u8> {
    if !CURRENTS.contains(&ma) || !LENGTHS.contains(&mm) {
        return Err(OUT_OF_RANGE);
    }
    let serves = |(_, figure): &&(u64, u64)| product(ma, *figure, mm) <= u128::from(MOST_BY_MM);
    let gauges: Vec<u64> = TABLE.iter().filter(serves).map(|(gauge, _)| *gauge).collect();
    match gauges.is_empty() {
        true => Err(NONE_SERVES),
        false => Ok(gauges),
    }
}

/// Something asked of an adviser.
#[derive(Clone, Copy, Debug, PartialEq, Eq)]
pub enum Question {
    Lead { gauge: u64, ma: u64 },
    Gauge { ma: u64, mm: u64 },
}

impl Question {
    /// What is wrong with the adviser's answer, if anything is.
    pub fn fault(self, adviser: &dyn Adviser) -> Option<String> {
        match self {
            Question::Lead { gauge, ma } => lead_fault(gauge, ma, adviser.longest_lead(gauge, ma))
                .map(|fault| format!("gauge {gauge} at {ma} mA {fault}")),
            Question::Gauge { ma, mm } => gauge_fault(ma, mm, adviser.gauge_for(ma, mm))
                .map(|fault| format!("{ma} mA over {mm} mm {fault}")),
        }
    }
}

/// The metres must be those of this reading, and also the float nearest to the quotient.
fn lead_fault(gauge: u64, ma: u64, came: LongestLead) -> Option<String> {
    let due = LongestLead::from(longest_lead(gauge, ma));
    if (came.code, came.metres.to_bits()) != (due.code, due.metres.to_bits()) {
        return Some(format!("should be {due} and is {came}"));
    }
    let divisor = figure(gauge).filter(|_| due.code == 0)? * ma;
    let nearest = rounding::is_nearest(came.metres, MOST_BY_METRES, divisor);
    (!nearest).then(|| format!("is {came}, and another float is nearer"))
}

fn gauge_fault(ma: u64, mm: u64, came: GaugeFor) -> Option<String> {
    let (right, due) = match gauges_for(ma, mm) {
        Ok(gauges) => (
            came.code == 0 && gauges.contains(&came.gauge),
            format!("code 0 with one of the gauges {gauges:?}"),
        ),
        Err(code) => {
            let due = GaugeFor::from(Err(code));
            ((came.code, came.gauge) == (due.code, due.gauge), due.to_string())
        }
    };
    (!right).then(|| format!("should be {due} and is {came}"))
}

/// Questions that belong together, by the name that a report calls them.
pub struct Check {
    pub name: String,
    pub questions: Vec<Question>,
}

/// The checks that this adviser does not pass, in words, each with its first wrong answer.
pub fn faults(adviser: &dyn Adviser, checks: &[Check]) -> Vec<String> {
    let judge = |check: &Check| {
        let fault = check.questions.iter().find_map(|question| question.fault(adviser))?;
        Some(format!("{}: {fault}", check.name))
    };
    checks.iter().filter_map(judge).collect()
}
