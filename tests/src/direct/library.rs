//! The library `capi` as a program in C or Rust sees it: its structs declared once more, and its
//! functions `pu_fit` and `pu_call`, taken from a shared object.

use std::ffi::c_void;
use std::mem::{align_of, offset_of, size_of, transmute};

use crate::line::LINE_ROOM;
use crate::rack::SLOTS;
use crate::shared_object::SharedObject;

/// A supply; a bool is a byte here, so that any other value is noticed.
#[repr(C)]
#[derive(Clone, Copy)]
pub struct Supply {
    pub pv: u32,
    pub pc: u32,
    pub ovp: u32,
    pub uvl: u32,
    pub want: u8,
    pub armed: u8,
    pub ast: u8,
    pub mode: u8,
    pub lines: u8,
    pub fold_trip: u8,
    pub ovp_trip: u8,
    pub fena: u8,
    pub feve: u8,
    pub sena: u8,
    pub seve: u8,
    pub cv_seen: u8,
    pub volt_count: u16,
    pub amp_count: u16,
}

#[repr(C)]
#[derive(Clone, Copy)]
pub struct Line {
    pub kept: [u8; LINE_ROOM],
    pub count: usize,
    pub spoiled: u8,
    pub selected: u8,
}

/// Bytes between the fields are not defined, so racks are compared only field by field.
#[repr(C)]
#[derive(Clone, Copy)]
pub struct Rack {
    pub slots: [Supply; SLOTS],
    pub line: Line,
    pub models: [u8; SLOTS],
}

#[repr(C)]
#[derive(Clone, Copy)]
pub struct Fitted {
    pub code: u8,
    pub rack: Rack,
}

#[repr(C)]
#[derive(Clone, Copy)]
pub struct Done {
    pub code: u8,
    pub used: usize,
    pub length: usize,
}

// The sizes that the proofs know: `size-is` and `align-is`, as `rt goals` prints them.
const _: () = assert!(size_of::<Supply>() == 32 && align_of::<Supply>() == 4);
const _: () = assert!(size_of::<Line>() == 80 && align_of::<Line>() == 8);
const _: () = assert!(size_of::<Rack>() == 1104 && align_of::<Rack>() == 8);
const _: () = assert!(size_of::<Fitted>() == 1112 && size_of::<Done>() == 24);
const _: () = assert!(offset_of!(Supply, cv_seen) == 27 && offset_of!(Supply, volt_count) == 28);
const _: () = assert!(offset_of!(Rack, models) == 1072);

/// Anything that makes racks and works calls on them.
pub trait Controller {
    fn fit(&self, list: &[u8]) -> Fitted;
    fn call(&self, rack: &mut Rack, bytes: &[u8], reply: &mut [u8]) -> Done;
}

type Fit = unsafe extern "C" fn(*const u8, usize) -> Fitted;
type Call = unsafe extern "C" fn(*mut Rack, *const u8, usize, *mut u8, usize) -> Done;

/// Both functions, of a shared object made from target/staticlib/libcapi.a.
pub struct Library {
    fit: Fit,
    call: Call,
}

impl Library {
    pub fn open(path: &str) -> Result<Library, String> {
        let object = SharedObject::open(path)?;
        let (fit, call) = (object.symbol(c"pu_fit")?, object.symbol(c"pu_call")?);
        // SAFETY: crates/capi/src/lib.rt exports them with these signatures, slices as pointer and count.
        let (fit, call) =
            unsafe { (transmute::<*mut c_void, Fit>(fit), transmute::<*mut c_void, Call>(call)) };
        Ok(Library { fit, call })
    }
}

impl Controller for Library {
    fn fit(&self, list: &[u8]) -> Fitted {
        // SAFETY: the pointer leads to as many bytes as given.
        unsafe { (self.fit)(list.as_ptr(), list.len()) }
    }

    fn call(&self, rack: &mut Rack, bytes: &[u8], reply: &mut [u8]) -> Done {
        // SAFETY: each pointer leads to as many bytes as given, and no two overlap.
        unsafe { (self.call)(rack, bytes.as_ptr(), bytes.len(), reply.as_mut_ptr(), reply.len()) }
    }
}
