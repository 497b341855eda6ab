//! OpenSSL's hash, looked for at run time so that building needs nothing of it.

use std::ffi::{c_char, c_void, CStr};

type Sha512 = unsafe extern "C" fn(*const u8, usize, *mut u8) -> *mut u8;

const RTLD_NOW: i32 = 2;

extern "C" {
    fn dlopen(name: *const c_char, flags: i32) -> *mut c_void;
    fn dlsym(library: *mut c_void, name: *const c_char) -> *mut c_void;
}

/// SHA2-512 by libcrypto, where it is.
pub fn sha512() -> Option<impl Fn(&[u8]) -> [u8; 64]> {
    let function = find()?;
    Some(move |message: &[u8]| {
        let mut digest = [0; 64];
        // SAFETY: the pointers hold for the message's length and for 64 bytes.
        unsafe { function(message.as_ptr(), message.len(), digest.as_mut_ptr()) };
        digest
    })
}

fn find() -> Option<Sha512> {
    let names: [&CStr; 3] = [c"libcrypto.so.3", c"libcrypto.so.1.1", c"libcrypto.so"];
    for name in names {
        // SAFETY: SHA512 has had this type since OpenSSL 0.9.8.
        unsafe {
            let library = dlopen(name.as_ptr(), RTLD_NOW);
            if !library.is_null() {
                let function = dlsym(library, c"SHA512".as_ptr());
                if !function.is_null() {
                    return Some(std::mem::transmute::<*mut c_void, Sha512>(function));
                }
            }
        }
    }
    None
}
