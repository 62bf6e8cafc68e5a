//! Functions of a shared object, found when a test runs, so that the tests build without it.

use std::ffi::{c_char, c_int, c_void, CStr, CString};
use std::os::unix::ffi::OsStrExt;

extern "C" {
    fn dlopen(path: *const c_char, flags: c_int) -> *mut c_void;
    fn dlsym(object: *mut c_void, name: *const c_char) -> *mut c_void;
    fn dlerror() -> *const c_char;
}

const ALL_AT_ONCE: c_int = 2;

/// An open shared object. It is never closed, so its functions stay where they are.
pub struct SharedObject(*mut c_void);

impl SharedObject {
    pub fn open(path: &str) -> Result<SharedObject, String> {
        // Without a folder in its name, it would be looked for among the system's libraries.
        let whole = std::fs::canonicalize(path).map_err(|error| format!("{path}: {error}"))?;
        let name = CString::new(whole.as_os_str().as_bytes()).map_err(|error| error.to_string())?;
        // SAFETY: the name ends with NUL.
        let object = unsafe { dlopen(name.as_ptr(), ALL_AT_ONCE) };
        (!object.is_null()).then_some(SharedObject(object)).ok_or_else(complaint)
    }

    /// Where the function of this name is; never null.
    pub fn symbol(&self, name: &CStr) -> Result<*mut c_void, String> {
        // SAFETY: an open object and a name that ends with NUL.
        let found = unsafe { dlsym(self.0, name.as_ptr()) };
        (!found.is_null()).then_some(found).ok_or_else(complaint)
    }
}

/// What the loader says about the last failure.
fn complaint() -> String {
    // SAFETY: the loader returns a text of its own, or null.
    let text = unsafe { dlerror() };
    if text.is_null() {
        return "the loader gives no reason".into();
    }
    // SAFETY: it is not null, and ends with NUL.
    unsafe { CStr::from_ptr(text) }.to_string_lossy().into_owned()
}
