//! The answers to sheets, as the programs write them.

use crate::archive::{knob_moved_sheet, knob_thin_sheet};

/// The answer of a sheet, as the program `thin` writes it: from any bytes to `ok` and the weights, `refused` and a number, or `bad` and
/// the number of the first line that is off the form.
///
/// ```
/// assert_eq!(knobthistle::thin_sheet(b"thin"), b"bad\t1\n");
/// ```
pub fn thin_sheet(text: &[u8]) -> Vec<u8> {
    answered(text, knob_thin_sheet, 1342)
}

/// The answer of a sheet, as the program `moved` writes it: that of [`thin_sheet`], and behind `ok` and the weights a line `word` for each
/// row with its change, by magnitude from the largest down, the smaller row first where two are equal.
///
/// ```
/// let sheet = b"thin\t1\t1\t0000000000000000\ttarget\t1\ncol\t4000000000000000\t3FF0000000000000\n";
/// let answer = b"ok\t0\t1\t0000000000000000\nw\t0\t3FF0000000000000\nword\t0\t0000000000000000\n";
/// assert_eq!(knobthistle::moved_sheet(sheet), answer);
/// assert_eq!(knobthistle::moved_sheet(b"thin"), b"bad\t1\n");
/// ```
pub fn moved_sheet(text: &[u8]) -> Vec<u8> {
    answered(text, knob_moved_sheet, 4094)
}

/// The answer of a call, of which so many bytes are enough for every one: KNOB_SHEET_ANSWER and KNOB_MOVED_ANSWER of the header.
fn answered(text: &[u8], call: unsafe extern "C" fn(*const u8, usize, *mut u8, usize) -> usize, longest: usize) -> Vec<u8> {
    let mut answer = vec![0; longest];
    // SAFETY: each pointer goes with its length; what is written is borrowed from nowhere else; the archive keeps no pointer.
    let written = unsafe { call(text.as_ptr(), text.len(), answer.as_mut_ptr(), answer.len()) };
    answer.truncate(written);
    answer
}
