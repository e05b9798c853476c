//! The proved runner of sheets, linked from Rust: a sheet's bytes in, the text of its run out, nothing read or written elsewhere.
//!
//! `sanding.h` beside this package says the same for C.

/// The longest sheet that is not refused for its length, in bytes.
pub const SHEET: usize = 65_000;

/// A buffer this long is enough for the run of every sheet.
pub const ROOM: usize = 211_236;

/// A thread whose stack has this many bytes may call each function.
pub const STACK: usize = 65_536;

/// The exported functions as they stand in the archive; a slice passes as pointer and length.
mod archive {
    extern "C" {
        pub fn sanding_refusal(sheet: *const u8, sheet_length: usize) -> u8;
        pub fn sanding_room(sheet: *const u8, sheet_length: usize) -> usize;
        pub fn sanding_run(sheet: *const u8, sheet_length: usize, out: *mut u8, out_length: usize) -> usize;
    }
}

/// The number of the refusal that this sheet gets, 20 to 24; none if it is accepted. Runs nothing.
pub fn refusal(sheet: &[u8]) -> Option<u8> {
    // SAFETY: pointer and length are those of one slice, which is only read.
    match unsafe { archive::sanding_refusal(sheet.as_ptr(), sheet.len()) } {
        0 => None,
        number => Some(number),
    }
}

/// How long a buffer `run` needs for this sheet: 8 bytes for a refused one, else 42 for each event, 38 for each record and 20.
pub fn room(sheet: &[u8]) -> usize {
    // SAFETY: pointer and length are those of one slice, which is only read.
    unsafe { archive::sanding_room(sheet.as_ptr(), sheet.len()) }
}

/// Writes the text of the sheet's run to the front of `out` and gives its length; the bytes of `out` beyond it are kept.
/// The text of a refused sheet is `X`, its number and a line's end.
///
/// None if `out` is shorter than `room(sheet)`: then all of it is kept.
pub fn run(sheet: &[u8], out: &mut [u8]) -> Option<usize> {
    // SAFETY: both pairs are those of a slice; the sheet is only read, and `out`, being lent by `&mut`, does not overlap it.
    match unsafe { archive::sanding_run(sheet.as_ptr(), sheet.len(), out.as_mut_ptr(), out.len()) } {
        0 => None,
        length => Some(length),
    }
}

/// The text of the sheet's run, in a vector of its own.
pub fn text(sheet: &[u8]) -> Vec<u8> {
    let mut out = vec![0; room(sheet)];
    let length = run(sheet, &mut out).expect("the room that the library asks for is enough for it");
    out.truncate(length);
    out
}
