//! Whether a float is the right one for a quotient, by whole numbers alone.

/// Floats are taken as whole numbers of 2^-74 here.
const FINENESS: u64 = 74;
/// A float is its mantissa times 2^(exponent field - 1075).
const BIAS: u64 = 1075;
const MANTISSA_BITS: u32 = 52;
/// Exponent fields that are handled, for floats from 2^-22 up to 2^22: every lead is among them,
/// and every figure of a cell but 0.
const LEAST_FIELD: u64 = BIAS - FINENESS;
const MOST_FIELD: u64 = 1044;

/// The float with these bits in parts of 2^-74, if it is above 0 and neither too large nor too small.
fn parts(bits: u64) -> Option<u128> {
    let field = bits >> MANTISSA_BITS; // the sign is above it, so that no negative float is handled
    let mantissa = (1 << MANTISSA_BITS) | (bits & ((1 << MANTISSA_BITS) - 1));
    let handled = (LEAST_FIELD..=MOST_FIELD).contains(&field);
    handled.then(|| u128::from(mantissa) << (field - LEAST_FIELD))
}

/// How far that float is from the quotient, times the divisor.
fn apart(bits: u64, dividend: u64, divisor: u64) -> Option<u128> {
    let multiplied = parts(bits)?.checked_mul(divisor.into())?;
    Some(multiplied.abs_diff(u128::from(dividend) << FINENESS))
}

/// Whether neither neighbour of the float is nearer to the quotient, and at a tie the float is even.
/// Floats further off are further from the quotient, too. Nothing divided is +0.0 alone.
pub fn is_nearest(float: f64, dividend: u64, divisor: u64) -> bool {
    let bits = float.to_bits();
    if dividend == 0 {
        return bits == 0;
    }
    let Some(own) = apart(bits, dividend, divisor) else { return false };
    [bits - 1, bits + 1].into_iter().all(|other| match apart(other, dividend, divisor) {
        Some(other) => own < other || (own == other && bits.is_multiple_of(2)),
        None => false,
    })
}
