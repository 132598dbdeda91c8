//! How wide the terminal is that the text is printed to.

use std::ffi::{c_int, c_ulong};
use std::io::{self, IsTerminal};
use std::os::fd::AsRawFd;

/// The request for a terminal's size, as Linux numbers it.
const SIZE_REQUEST: c_ulong = 0x5413;

extern "C" {
    /// The C library's call for devices.
    fn ioctl(file: c_int, request: c_ulong, ...) -> c_int;
}

/// The columns of the terminal; none where the text goes to no terminal, or to one that does
/// not know its size.
pub fn columns() -> Option<usize> {
    let output = io::stdout();
    if !output.is_terminal() {
        return None;
    }
    // Rows, columns, and the same in pixels.
    let mut size = [0u16; 4];
    // SAFETY: the request writes four numbers of 16 bits, and they live through the call.
    let answer = unsafe { ioctl(output.as_raw_fd(), SIZE_REQUEST, size.as_mut_ptr()) };
    (answer == 0 && size[1] > 0).then_some(usize::from(size[1]))
}
