//! The terminal: whether a stream is one, how wide it is, whether it can write over what it shows, and whether colour is wanted.

use std::os::raw::{c_int, c_ulong};

extern "C" {
    fn isatty(stream: c_int) -> c_int;
    fn ioctl(stream: c_int, request: c_ulong, ...) -> c_int;
}

/// A standard stream.
#[derive(Clone, Copy)]
pub enum Stream {
    Output = 1,
    Error = 2,
}

/// Whether a stream is a terminal.
pub fn is_terminal(stream: Stream) -> bool {
    // SAFETY: the call takes a number, and touches no memory of ours.
    unsafe { isatty(stream as c_int) == 1 }
}

/// How many columns a line on standard output may have: what COLUMNS says, whether or not the output is a terminal, else the
/// terminal's width; none where the output is none.
pub fn columns() -> Option<usize> {
    let said = std::env::var("COLUMNS").ok();
    let said = said.and_then(|text| text.trim().parse().ok());
    said.filter(|&columns| columns > 0).or_else(width)
}

/// The width of the terminal that standard output is.
fn width() -> Option<usize> {
    /// The request for a terminal's size, and the four numbers that answer it: rows, columns, and two in pixels.
    const SIZE_OF_TERMINAL: c_ulong = 0x5413;
    let mut size = [0u16; 4];
    // SAFETY: the call writes four numbers of 16 bits, for which there is room.
    let told = unsafe { ioctl(Stream::Output as c_int, SIZE_OF_TERMINAL, size.as_mut_ptr()) };
    match (told, size[1]) {
        (0, columns @ 1..) => Some(usize::from(columns)),
        _ => None,
    }
}

/// Whether a stream is a terminal that does more than print one line below the other, which TERM=dumb says that it does not.
pub fn can_be_written_over(stream: Stream) -> bool {
    is_terminal(stream) && std::env::var_os("TERM").map_or(true, |kind| kind != "dumb")
}

/// Whether standard output is to have colour: on a terminal that can show it, and where NO_COLOR is not set.
pub fn wants_colour() -> bool {
    let refused = std::env::var_os("NO_COLOR").unwrap_or_default();
    can_be_written_over(Stream::Output) && refused.is_empty()
}
