//! The calls of `bindings/c/syned.h` that carry scripts out, for slices. All `unsafe` code of the crate is here.

use crate::run::Dialect;
use std::ffi::{c_char, CStr};

type Run = unsafe extern "C" fn(*const u8, usize, *mut u8, usize, *mut usize) -> u8;

type Explain = unsafe extern "C" fn(*const u8, usize, *mut u8, usize) -> usize;

mod c {
    use super::c_char;

    extern "C" {
        pub fn syned_run(
            script: *const u8,
            script_length: usize,
            room: *mut u8,
            room_length: usize,
            length: *mut usize,
        ) -> u8;
        pub fn syned_explain(
            script: *const u8,
            script_length: usize,
            room: *mut u8,
            room_length: usize,
        ) -> usize;
        pub fn syned_run_wide(
            script: *const u8,
            script_length: usize,
            room: *mut u8,
            room_length: usize,
            length: *mut usize,
        ) -> u8;
        pub fn syned_explain_wide(
            script: *const u8,
            script_length: usize,
            room: *mut u8,
            room_length: usize,
        ) -> usize;
        pub fn syned_version() -> *const c_char;
    }
}

/// The status, and how many bytes the answer has. They are at the beginning of the room if they fit.
pub(crate) fn run(dialect: Dialect, script: &[u8], room: &mut [u8]) -> (u8, usize) {
    let run: Run = match dialect {
        Dialect::Syned => c::syned_run,
        Dialect::Wide => c::syned_run_wide,
    };
    let mut length = 0;
    // SAFETY: a slice's pointer is never null, not even an empty one's, and is good for its length. Nobody else has
    // `room` or `length`, since both are borrowed mutably, and the call keeps no pointer.
    let status = unsafe {
        run(
            script.as_ptr(),
            script.len(),
            room.as_mut_ptr(),
            room.len(),
            &mut length,
        )
    };
    (status, length)
}

/// How many bytes the sentence has. They are at the beginning of the room if they fit.
pub(crate) fn explain(dialect: Dialect, script: &[u8], room: &mut [u8]) -> usize {
    let explain: Explain = match dialect {
        Dialect::Syned => c::syned_explain,
        Dialect::Wide => c::syned_explain_wide,
    };
    // SAFETY: as in `run`.
    unsafe { explain(script.as_ptr(), script.len(), room.as_mut_ptr(), room.len()) }
}

/// The version of the library, as bytes.
pub(crate) fn version() -> &'static [u8] {
    // SAFETY: it gives a constant text that ends with a zero.
    unsafe { CStr::from_ptr(c::syned_version()) }.to_bytes()
}
