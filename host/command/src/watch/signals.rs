//! Ctrl-C, and being told to end: noted, so that the supervisor can stop its processes and remove their files.

use std::ffi::{c_int, c_void};
use std::sync::atomic::{AtomicI32, Ordering};

const SIGHUP: c_int = 1;
const SIGINT: c_int = 2;
const SIGTERM: c_int = 15;

/// The last signal that came, 0 for none.
static RECEIVED: AtomicI32 = AtomicI32::new(0);

extern "C" {
    fn signal(number: c_int, handler: extern "C" fn(c_int)) -> *const c_void;
}

/// Storing an atomic number is all that a handler may safely do, and all that it does.
extern "C" fn note(number: c_int) {
    RECEIVED.store(number, Ordering::Relaxed);
}

/// From now on the signals that end a program are noted and do nothing else.
pub fn take() {
    for number in [SIGHUP, SIGINT, SIGTERM] {
        // SAFETY: C's own `signal`, with a number that it knows and a handler that is there for ever.
        unsafe { signal(number, note) };
    }
}

/// The signal that came, if one did.
pub fn received() -> Option<u8> {
    u8::try_from(RECEIVED.load(Ordering::Relaxed)).ok().filter(|number| *number != 0)
}
