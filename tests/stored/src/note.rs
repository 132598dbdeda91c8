//! What is being tried, for the last words of a run that reads or writes where it may not.

use std::ffi::{c_int, c_void};
use std::sync::atomic::{AtomicU8, AtomicUsize, Ordering::Relaxed};

extern "C" {
    /// Has a signal call a handler.
    fn signal(number: c_int, handler: extern "C" fn(c_int)) -> usize;
    /// Writes bytes to an open file.
    fn write(file: c_int, bytes: *const c_void, length: usize) -> isize;
    /// Ends the process at once.
    fn _exit(status: c_int) -> !;
}

// As the headers of Linux on x86-64 have them.
const BUS_ERROR: c_int = 7;
const SEGMENT_ERROR: c_int = 11;
const STANDARD_ERROR: c_int = 2;

const LONGEST: usize = 400;
static TEXT: [AtomicU8; LONGEST] = [const { AtomicU8::new(0) }; LONGEST];
static LENGTH: AtomicUsize = AtomicUsize::new(0);

/// Says what is tried from now on.
pub fn set(text: &str) {
    for (place, byte) in TEXT.iter().zip(text.bytes()) {
        place.store(byte, Relaxed);
    }
    LENGTH.store(text.len().min(LONGEST), Relaxed);
}

/// Says what was tried, and ends the run.
extern "C" fn stopped(_: c_int) {
    let mut line = [0; LONGEST + 100];
    let start = b"stored: stopped by a step beside what is lent, in: ";
    let text = TEXT[..LENGTH.load(Relaxed)].iter();
    let bytes = start.iter().copied();
    let bytes = bytes.chain(text.map(|byte| byte.load(Relaxed)));
    let mut length = 0;
    for byte in bytes.chain([b'\n']) {
        line[length] = byte;
        length += 1;
    }
    // SAFETY: both may be called in a signal's handler, and the line is there.
    unsafe {
        write(STANDARD_ERROR, line.as_ptr().cast(), length);
        _exit(1)
    }
}

/// Has a step beside readable memory told with what was tried.
pub fn watch() {
    // SAFETY: the handler calls nothing that it may not.
    unsafe {
        signal(SEGMENT_ERROR, stopped);
        signal(BUS_ERROR, stopped);
    }
}
