//! The customers' `fit` and `call` driven directly, one call at a time, beside the reference model.
//! After each call everything is compared: code, bytes used, reply length, every byte of the buffer
//! and of its surroundings, the lent bytes, and every field of the rack. A refused call must leave
//! all of it as it was.

pub mod bench;
pub mod fields;
pub mod fitting;
pub mod forged;
pub mod library;
pub mod lists;
pub mod outcome;
pub mod refusals;
pub mod stand_in;

use bench::Tally;
use library::Controller;

/// The result of a check: nothing to say if all is as it should be.
type Judge = Box<dyn Fn(&dyn Controller, &mut Tally) -> Result<(), String>>;

/// One test by its name.
pub struct Check {
    pub name: String,
    pub judge: Judge,
}

impl Check {
    fn new(
        name: impl Into<String>,
        judge: impl Fn(&dyn Controller, &mut Tally) -> Result<(), String> + 'static,
    ) -> Check {
        Check { name: name.into(), judge: Box::new(judge) }
    }
}

/// All tests, with this many generated lists; the last checks what the others covered.
pub fn checks(generated: u64) -> Result<Vec<Check>, String> {
    let mut checks = fitting::checks();
    checks.extend(refusals::checks());
    checks.push(forged::check());
    checks.extend(lists::checks(generated)?);
    checks
        .push(Check::new("every tag and refusal met, at every size of the buffer", |_, tally| {
            tally.missing().map_or(Ok(()), Err)
        }));
    Ok(checks)
}

/// The checks that this controller does not pass, in words.
pub fn faults(controller: &dyn Controller, checks: &[Check], tally: &mut Tally) -> Vec<String> {
    let judge = |check: &Check| {
        let fault = (check.judge)(controller, tally).err()?;
        Some(format!("{}: {fault}", check.name))
    };
    checks.iter().filter_map(judge).collect()
}
