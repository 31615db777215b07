//! Sheets that were damaged on their way.

use crate::archive::knob_salvage;
use crate::sheets::LONGEST;

/// What is good of a damaged sheet: the columns' lines that are of the form, behind the first line with their number, and a line `lost` with
/// its number for each other line; or only `bad` and 1 where the first line is wrong, and `bad` and 2 where no column is left.
///
/// ```
/// let saved = knobthistle::salvage(b"thin\t2\t0\t0000000000000000\ttarget\t1\ncol\t3FF000000000000\ncol\t3FF0000000000000\n");
/// assert_eq!(saved, b"thin\t1\t0\t0000000000000000\ttarget\t1\ncol\t3FF0000000000000\nlost\t2\n");
/// assert_eq!(knobthistle::salvage(b"thin"), b"bad\t1\n");
/// ```
pub fn salvage(text: &[u8]) -> Vec<u8> {
    // A `lost` line has at most 26 bytes, and beside these lines the text is at most as long as a sheet.
    let lines = text.iter().filter(|byte| **byte == b'\n').count() + 1;
    let mut answer = vec![0; LONGEST + 26 * lines];
    // SAFETY: for the reasons that `thin_matrix` gives.
    let length = unsafe { knob_salvage(text.as_ptr(), text.len(), answer.as_mut_ptr(), answer.len()) };
    answer.truncate(length);
    answer
}
