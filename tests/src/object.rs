//! Shared objects, loaded while the program runs. The measurements have this file too.

use std::ffi::{CStr, CString, c_char, c_int, c_void};

unsafe extern "C" {
    fn dlopen(path: *const c_char, mode: c_int) -> *mut c_void;
    fn dlsym(object: *mut c_void, name: *const c_char) -> *mut c_void;
    fn dlerror() -> *const c_char;
}

/// RTLD_NOW and RTLD_LOCAL: all names are bound at once, and the object lends none of its own to others.
const MODE: c_int = 2;

pub struct Object(*mut c_void);

impl Object {
    /// The object at `path`, which stays loaded.
    pub fn open(path: &str) -> Result<Object, String> {
        let full = std::fs::canonicalize(path).map_err(|error| format!("{path}: {error}"))?;
        let full = CString::new(full.into_os_string().into_encoded_bytes()).expect("a path has no zero byte");
        // SAFETY: the path is a C string. What runs when the object is loaded is the caller's choice.
        let object = unsafe { dlopen(full.as_ptr(), MODE) };
        if object.is_null() { Err(error()) } else { Ok(Object(object)) }
    }

    /// The object's function of that name.
    ///
    /// # Safety
    ///
    /// `F` must be the type of that function.
    pub unsafe fn function<F: Copy>(&self, name: &CStr) -> Result<F, String> {
        const { assert!(size_of::<F>() == size_of::<*mut c_void>()) };
        // SAFETY: the object is loaded, and the name is a C string.
        let address = unsafe { dlsym(self.0, name.as_ptr()) };
        if address.is_null() {
            return Err(error());
        }
        // SAFETY: the address is not null, and is that of a function of this type.
        Ok(unsafe { std::mem::transmute_copy(&address) })
    }
}

/// Why the last of these calls failed.
fn error() -> String {
    // SAFETY: after a call that failed there is a message, a C string that stays until the next call of this thread.
    unsafe { CStr::from_ptr(dlerror()) }.to_string_lossy().into_owned()
}
