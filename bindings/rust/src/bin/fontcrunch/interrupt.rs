//! What an interrupt leaves: no temporary file. A signal that would end the program removes the temporary files that
//! are named here, and then ends it, so that whoever waits for it sees the signal.
//!
//! The handler calls nothing but what POSIX allows in one: unlink, write, signal and raise.

use std::ffi::{c_char, c_int, c_void, CString};
use std::os::unix::ffi::OsStrExt;
use std::path::Path;
use std::ptr;
use std::sync::atomic::{AtomicBool, AtomicPtr, Ordering};
use std::sync::Once;

extern "C" {
    fn signal(number: c_int, handler: usize) -> usize;
    fn raise(number: c_int) -> c_int;
    fn unlink(path: *const c_char) -> c_int;
    fn write(file: c_int, bytes: *const c_void, count: usize) -> isize;
}

const HANGUP: c_int = 1;
const INTERRUPT: c_int = 2;
const TERMINATE: c_int = 15;
const DEFAULT: usize = 0;
const IGNORE: usize = 1;

/// One for each thread that may write, and some to spare.
const PLACES: usize = 320;

static NAMED: [AtomicPtr<c_char>; PLACES] = [const { AtomicPtr::new(ptr::null_mut()) }; PLACES];
static GOES_ON: AtomicBool = AtomicBool::new(false);
static INSTALLED: Once = Once::new();

const INTERRUPTED: &[u8] =
    b"fontcrunch: interrupted: what is written is whole, and the same call goes on from there\n";

/// A file that is removed where a signal ends the program, as long as this is held.
pub struct Named(usize);

impl Named {
    pub fn new(path: &Path) -> Named {
        install();
        let Ok(name) = CString::new(path.as_os_str().as_bytes()) else {
            return Named(PLACES);
        };
        let name = name.into_raw();
        let free = |place: &AtomicPtr<c_char>| {
            place.compare_exchange(ptr::null_mut(), name, Ordering::SeqCst, Ordering::SeqCst).is_ok()
        };
        match NAMED.iter().position(free) {
            Some(place) => Named(place),
            None => {
                // SAFETY: it came of into_raw, and no place has it.
                drop(unsafe { CString::from_raw(name) });
                Named(PLACES)
            }
        }
    }
}

impl Drop for Named {
    fn drop(&mut self) {
        let Some(place) = NAMED.get(self.0) else {
            return;
        };
        let name = place.swap(ptr::null_mut(), Ordering::SeqCst);
        if !name.is_null() {
            // SAFETY: it came of into_raw; whoever takes it from its place is the only one that has it.
            drop(unsafe { CString::from_raw(name) });
        }
    }
}

/// From now on an interrupt says that the same call goes on from there.
pub fn goes_on() {
    install();
    GOES_ON.store(true, Ordering::SeqCst);
}

fn install() {
    INSTALLED.call_once(|| {
        for number in [HANGUP, INTERRUPT, TERMINATE] {
            // SAFETY: the handler is a function of the type that signal asks for, and calls what it may.
            let before = unsafe { signal(number, handler as *const () as usize) };
            if before == IGNORE {
                // SAFETY: as above. Who started the program wants this signal ignored, as nohup does.
                unsafe { signal(number, IGNORE) };
            }
        }
    });
}

extern "C" fn handler(number: c_int) {
    for place in &NAMED {
        let name = place.swap(ptr::null_mut(), Ordering::SeqCst);
        if !name.is_null() {
            // SAFETY: a string that ends with 0, and nobody else has it now.
            unsafe { unlink(name) };
        }
    }
    if GOES_ON.load(Ordering::SeqCst) {
        // SAFETY: the bytes of a constant, with their length.
        unsafe { write(2, INTERRUPTED.as_ptr().cast(), INTERRUPTED.len()) };
    }
    // SAFETY: the signal is met as if there had been no handler.
    unsafe {
        signal(number, DEFAULT);
        raise(number);
    }
}
