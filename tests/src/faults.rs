//! A program whose reads and writes do not go as asked. At every moment what it has printed is a
//! prefix of the true replies to the bytes that it read, whatever its reads and writes returned: no
//! reply is left out, sent twice, or cut and then followed by another. What passes by itself (a
//! call that was interrupted, a pipe that is empty or full for now, only a part of the bytes) must
//! not show at all. Anything else ends the program with one line on standard error, and with
//! nothing more on standard output even if writing would work again.

pub mod bench;
pub mod calls;
pub mod full;
pub mod injected;
pub mod opened;
pub mod random;
pub mod stack;
pub mod terminal;
pub mod waiting;

use bench::Bench;

/// The result of a case: nothing to say if all is as it should be.
type Judge = Box<dyn Fn(&Bench) -> Result<(), String> + Send + Sync>;

/// One test by its name.
pub struct Case {
    pub name: String,
    pub judge: Judge,
}

impl Case {
    fn new(
        name: impl Into<String>,
        judge: impl Fn(&Bench) -> Result<(), String> + Send + Sync + 'static,
    ) -> Case {
        Case { name: name.into(), judge: Box::new(judge) }
    }
}

/// All cases; those that mostly wait come first, so that others run beside them.
pub fn cases() -> Vec<Case> {
    let mut cases = waiting::cases();
    cases.extend(full::cases());
    cases.extend(terminal::cases());
    cases.extend(opened::cases());
    cases.extend(stack::cases());
    cases.extend(injected::cases());
    cases.extend(random::cases());
    cases
}
