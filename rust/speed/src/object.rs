//! Shared objects, opened in this process never to be closed.

use std::ffi::{CStr, CString, c_char, c_int, c_void};
use std::os::unix::ffi::OsStrExt;
use std::path::Path;
use std::ptr::{null, null_mut};

/// The C library's declarations, as Linux has them.
mod dl {
    use super::{c_char, c_int, c_void};

    pub const RTLD_LOCAL: c_int = 0;
    pub const RTLD_NOW: c_int = 2;

    /// `Dl_info`
    #[repr(C)]
    pub struct Info {
        pub object_name: *const c_char,
        pub object_base: *mut c_void,
        pub symbol_name: *const c_char,
        pub symbol: *mut c_void,
    }

    unsafe extern "C" {
        pub fn dlopen(name: *const c_char, mode: c_int) -> *mut c_void;
        pub fn dlsym(object: *mut c_void, name: *const c_char) -> *mut c_void;
        pub fn dladdr(address: *const c_void, info: *mut Info) -> c_int;
        pub fn dlerror() -> *const c_char;
    }
}

/// An object that is open.
pub struct Object {
    name: CString,
    handle: *mut c_void,
}

impl Object {
    /// A name that is open already gives the object that it was opened as,
    /// whatever the file holds by then.
    pub fn open(path: &Path) -> Result<Object, String> {
        let name = CString::new(path.as_os_str().as_bytes()).expect("no path has a zero byte");
        // SAFETY: the name ends with a zero byte, and nothing of an archive runs
        // when it is opened.
        let handle = unsafe { dl::dlopen(name.as_ptr(), dl::RTLD_NOW | dl::RTLD_LOCAL) };
        if handle.is_null() {
            return Err(complaint());
        }
        Ok(Object { name, handle })
    }

    /// The address of a function that this very object holds.
    pub fn function(&self, name: &CStr) -> Result<*mut c_void, String> {
        // SAFETY: the object is open, and the name ends with a zero byte.
        let address = unsafe { dl::dlsym(self.handle, name.as_ptr()) };
        let name = name.to_string_lossy();
        if address.is_null() {
            return Err(format!("there is no {name} in it"));
        }
        match holder(address) {
            Some((_, holder)) if holder == self.name => Ok(address),
            _ => Err(format!("{name} is found elsewhere")),
        }
    }
}

/// Where the object begins that holds an address.
pub fn base(address: usize) -> Option<usize> {
    holder(address as *const c_void).map(|(base, _)| base)
}

/// The same, and the name by which it was opened.
fn holder(address: *const c_void) -> Option<(usize, CString)> {
    let mut info = dl::Info {
        object_name: null(),
        object_base: null_mut(),
        symbol_name: null(),
        symbol: null_mut(),
    };
    // SAFETY: the record is lent for writing; where the answer is not 0 the name
    // is set, ends with a zero byte, and stays while the object is open.
    unsafe {
        let found = dl::dladdr(address, &mut info) != 0;
        found.then(|| {
            let name = CStr::from_ptr(info.object_name).to_owned();
            (info.object_base as usize, name)
        })
    }
}

fn complaint() -> String {
    // SAFETY: the message, where there is one, ends with a zero byte and stays
    // until the next call of these functions.
    unsafe {
        let message = dl::dlerror();
        if message.is_null() {
            return "it cannot be opened".to_string();
        }
        CStr::from_ptr(message).to_string_lossy().into_owned()
    }
}
