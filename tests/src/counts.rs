//! Volts and amperes as counts: which count a board would send for a value.

use crate::supply::{Model, COUNTS_AT_RATING};

/// What a count measures: its name, the letter after a value, the decimals of its unit, and its
/// rating.
pub struct Quantity {
    pub name: &'static str,
    pub letter: char,
    pub decimals: usize,
    pub rating: fn(&Model) -> i64,
}

pub const VOLTS: Quantity =
    Quantity { name: "volt count", letter: 'V', decimals: 4, rating: |model| model.rated_volts };
pub const AMPERES: Quantity = Quantity {
    name: "ampere count",
    letter: 'A',
    decimals: 3,
    rating: |model| model.rated_amperes,
};

/// The smallest count whose reading is at least the value, in ticks or mA; none if no count reads
/// that high. A reading is truncated to a whole unit, so it reaches the value exactly when count ×
/// rating reaches 50,000 × value.
pub fn least_count(value: i64, rating: i64) -> Option<u16> {
    u16::try_from((value * COUNTS_AT_RATING + rating - 1) / rating).ok()
}

/// A value in whole units; a text with more decimals than the unit has is not a value.
pub fn units(text: &str, decimals: usize) -> Option<i64> {
    let (whole, fraction) = text.split_once('.').unwrap_or((text, ""));
    let digits = format!("{whole}{fraction:0<decimals$}");
    let good = fraction.len() <= decimals
        && whole.len() + fraction.len() > 0
        && digits.bytes().all(|digit| digit.is_ascii_digit());
    digits.parse().ok().filter(|value| good && *value <= MOST)
}

/// Far above any reading, and far below what would overflow.
const MOST: i64 = 1_000_000_000_000;
