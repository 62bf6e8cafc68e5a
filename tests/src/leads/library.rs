//! The library `leads` as a program in C or Rust sees it: its structs declared once more, and its
//! two functions, taken from a shared object.

use std::ffi::c_void;
use std::fmt;
use std::mem::{offset_of, size_of, transmute};

use super::NO_GAUGE;
use crate::shared_object::SharedObject;

/// Code 0 with the metres, or the code of a refusal with +0.0.
#[repr(C)]
#[derive(Clone, Copy, Debug)]
pub struct LongestLead {
    pub code: u8,
    pub metres: f64,
}

/// Code 0 with the gauge, or the code of a refusal with a gauge that is none.
#[repr(C)]
#[derive(Clone, Copy, Debug)]
pub struct GaugeFor {
    pub code: u8,
    pub gauge: u64,
}

const _: () = assert!(size_of::<LongestLead>() == 16 && offset_of!(LongestLead, metres) == 8);
const _: () = assert!(size_of::<GaugeFor>() == 16 && offset_of!(GaugeFor, gauge) == 8);

impl From<Result<f64, u8>> for LongestLead {
    fn from(answer: Result<f64, u8>) -> LongestLead {
        match answer {
            Ok(metres) => LongestLead { code: 0, metres },
            Err(code) => LongestLead { code, metres: 0.0 },
        }
    }
}

impl From<Result<u64, u8>> for GaugeFor {
    fn from(answer: Result<u64, u8>) -> GaugeFor {
        match answer {
            Ok(gauge) => GaugeFor { code: 0, gauge },
            Err(code) => GaugeFor { code, gauge: NO_GAUGE },
        }
    }
}

/// With its bits, which also tell two floats apart that look alike.
impl fmt::Display for LongestLead {
    fn fmt(&self, out: &mut fmt::Formatter) -> fmt::Result {
        write!(out, "code {} with {} m ({:016X})", self.code, self.metres, self.metres.to_bits())
    }
}

impl fmt::Display for GaugeFor {
    fn fmt(&self, out: &mut fmt::Formatter) -> fmt::Result {
        write!(out, "code {} with gauge {}", self.code, self.gauge)
    }
}

/// Anything that answers the two questions.
pub trait Adviser {
    fn longest_lead(&self, gauge: u64, ma: u64) -> LongestLead;
    fn gauge_for(&self, ma: u64, mm: u64) -> GaugeFor;
}

type Lead = unsafe extern "C" fn(u64, u64) -> LongestLead;
type Gauge = unsafe extern "C" fn(u64, u64) -> GaugeFor;

/// The two functions of a shared object made from target/staticlib/libleads.a.
pub struct Library {
    lead: Lead,
    gauge: Gauge,
}

impl Library {
    pub fn open(path: &str) -> Result<Library, String> {
        let object = SharedObject::open(path)?;
        let lead = object.symbol(c"pu_longest_lead")?;
        let gauge = object.symbol(c"pu_gauge_for")?;
        // SAFETY: the crate `leads` exports them with these signatures.
        let (lead, gauge) = unsafe {
            (transmute::<*mut c_void, Lead>(lead), transmute::<*mut c_void, Gauge>(gauge))
        };
        Ok(Library { lead, gauge })
    }
}

impl Adviser for Library {
    fn longest_lead(&self, gauge: u64, ma: u64) -> LongestLead {
        // SAFETY: it takes any two numbers.
        unsafe { (self.lead)(gauge, ma) }
    }

    fn gauge_for(&self, ma: u64, mm: u64) -> GaugeFor {
        // SAFETY: it takes any two numbers.
        unsafe { (self.gauge)(ma, mm) }
    }
}
