//! What a signal leaves behind: on SIGHUP, SIGINT and SIGTERM the draft that is being written is removed, then the program
//! ends as it would have. A write past the limit on a file's size is an error, not the end. The program's only file with
//! `unsafe`: Rust's own library has no signals.
#![allow(unsafe_code)]
use std::ffi::{c_char, c_int, CString};
use std::os::unix::ffi::OsStrExt;
use std::path::Path;
use std::ptr;
use std::sync::atomic::{AtomicPtr, Ordering};

extern "C" {
    fn signal(number: c_int, handler: usize) -> usize;
    fn raise(number: c_int) -> c_int;
    fn unlink(path: *const c_char) -> c_int;
}

const SIGNALS: [c_int; 3] = [1, 2, 15];
/// Of a write past the limit on a file's size.
const SIGXFSZ: c_int = 25;
const DEFAULT: usize = 0;
const IGNORED: usize = 1;

/// The draft's path, or null.
static DRAFT: AtomicPtr<c_char> = AtomicPtr::new(ptr::null_mut());

/// Takes the signals over; one that is ignored stays so.
pub fn taken_over() {
    for number in SIGNALS {
        let handler = stopped as extern "C" fn(c_int) as usize;
        // SAFETY: the handler calls nothing but functions that a handler may call
        unsafe {
            if signal(number, handler) == IGNORED {
                signal(number, IGNORED);
            }
        }
    }
    // SAFETY: the handler does nothing. A program that is started has the default again, which it would not with IGNORED
    unsafe { signal(SIGXFSZ, passed as extern "C" fn(c_int) as usize) };
}

extern "C" fn passed(_: c_int) {}

extern "C" fn stopped(number: c_int) {
    let draft = DRAFT.load(Ordering::SeqCst);
    // SAFETY: a path that is not null ends with a NUL, and is freed only once DRAFT no longer has it
    unsafe {
        if !draft.is_null() {
            unlink(draft);
        }
        signal(number, DEFAULT);
        raise(number);
    }
}

/// The draft at this path goes where a signal comes; none where there is no path.
pub fn draft_is(path: Option<&Path>) {
    let path = path.and_then(|path| CString::new(path.as_os_str().as_bytes()).ok());
    let old = DRAFT.swap(path.map_or(ptr::null_mut(), CString::into_raw), Ordering::SeqCst);
    if !old.is_null() {
        // SAFETY: it came from `into_raw`, and DRAFT no longer has it
        drop(unsafe { CString::from_raw(old) });
    }
}
