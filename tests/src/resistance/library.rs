//! The resistance of a cell as a program in C or Rust asks the library `capi` for it: its struct
//! declared once more, and its function, taken from a shared object beside the other two.

use std::ffi::c_void;
use std::mem::{offset_of, size_of, transmute};

use super::{Cell, Resistance};
use crate::direct::library::{Library as Calls, Rack};
use crate::direct::outcome::parted;
use crate::shared_object::SharedObject;

pub const OHMS: u8 = 0;
pub const OPEN: u8 = 1;
pub const OFF: u8 = 2;
/// The kind beside a refusal, which is none.
pub const NO_KIND: u8 = 255;

/// Code 0 with the kind of the answer, or the code of a refusal. A missing figure is not a number.
#[repr(C)]
#[derive(Clone, Copy, Debug)]
pub struct CellNumbers {
    pub code: u8,
    pub kind: u8,
    pub ohms: f64,
    pub volts: f64,
    pub amps: f64,
}

const _: () = assert!(size_of::<CellNumbers>() == 32 && offset_of!(CellNumbers, code) == 0);
const _: () = assert!(offset_of!(CellNumbers, kind) == 1 && offset_of!(CellNumbers, ohms) == 8);
const _: () = assert!(offset_of!(CellNumbers, volts) == 16 && offset_of!(CellNumbers, amps) == 24);

impl From<Result<Cell, u8>> for CellNumbers {
    fn from(answer: Result<Cell, u8>) -> CellNumbers {
        let none = f64::NAN;
        let cell = match answer {
            Ok(cell) => cell,
            Err(code) => {
                return CellNumbers { code, kind: NO_KIND, ohms: none, volts: none, amps: none };
            }
        };
        let (kind, ohms) = match cell.resistance() {
            Resistance::Ohms(ohms) => (OHMS, ohms),
            Resistance::Open => (OPEN, none),
            Resistance::Off => (OFF, none),
        };
        CellNumbers { code: 0, kind, ohms, volts: cell.volts(), amps: cell.amps() }
    }
}

impl CellNumbers {
    /// The first number in which an answer is not as it should be, in words; none if all are. Which
    /// bits a float has that is not a number makes no difference.
    pub fn difference(&self, came: &CellNumbers) -> Option<String> {
        let answer = |of: &CellNumbers| [of.code, of.kind];
        let figures = |of: &CellNumbers| [of.ohms, of.volts, of.amps].map(Figure);
        parted(&answer(self), &answer(came), |at| ["code", "kind"][at].into()).or_else(|| {
            parted(&figures(self), &figures(came), |at| ["ohms", "volts", "amps"][at].into())
        })
    }
}

/// A float that is the same as another if they have the same bits, or neither is a number.
struct Figure(f64);

impl PartialEq for Figure {
    fn eq(&self, other: &Figure) -> bool {
        match self.0.is_nan() {
            true => other.0.is_nan(),
            false => self.0.to_bits() == other.0.to_bits(),
        }
    }
}

/// With its bits, which also tell two floats apart that look alike.
impl std::fmt::Display for Figure {
    fn fmt(&self, out: &mut std::fmt::Formatter) -> std::fmt::Result {
        write!(out, "{} ({:016X})", self.0, self.0.to_bits())
    }
}

/// Anything that tells the resistance at an address of a rack, which it must not change.
pub trait Meter {
    fn resistance(&self, rack: &mut Rack, address: u64) -> CellNumbers;
}

type Ask = unsafe extern "C" fn(*mut Rack, u64) -> CellNumbers;

/// The functions of a shared object made from target/staticlib/libcapi.a.
pub struct Library {
    pub calls: Calls,
    ask: Ask,
}

impl Library {
    pub fn open(path: &str) -> Result<Library, String> {
        let calls = Calls::open(path)?;
        let ask = SharedObject::open(path)?.symbol(c"pu_resistance")?;
        // SAFETY: the crate `capi` exports it with this signature.
        let ask = unsafe { transmute::<*mut c_void, Ask>(ask) };
        Ok(Library { calls, ask })
    }
}

impl Meter for Library {
    fn resistance(&self, rack: &mut Rack, address: u64) -> CellNumbers {
        // SAFETY: the pointer leads to a rack, and it takes any number. The rack is lent to be
        // written, so that it may be compared with what it was even if it was changed.
        unsafe { (self.ask)(rack, address) }
    }
}
