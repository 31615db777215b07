//! What is lent to a call: the matrix as one array, and scratch.

use std::borrow::Cow;

/// The most columns that a call takes.
pub const MAX_COLUMNS: usize = 256;
/// The most rows that a call takes.
pub const MAX_ROWS: usize = 4096;

/// Columns as the archive takes them: one array, column after column.
pub struct Matrix<'a> {
    pub entries: Cow<'a, [f64]>,
    pub m: usize,
    pub n: usize,
}

impl<'a> Matrix<'a> {
    /// One array as it is. The archive itself tests whether it has m n entries.
    pub fn flat(entries: &'a [f64], m: usize, n: usize) -> Matrix<'a> {
        Matrix { entries: Cow::Borrowed(entries), m, n }
    }

    /// The rows are as many as the first column's entries. Columns that the archive has to refuse for their sizes or lengths are not
    /// copied. It is lent a single entry in their place, and says itself which number is the lowest: beyond the limits that is at most
    /// 3, whatever is lent; and where two columns differ in length, m n is not 1 and so number 4 applies.
    pub fn new(columns: &[Vec<f64>]) -> Matrix<'static> {
        let (m, n) = (columns.len(), columns.first().map_or(0, Vec::len));
        let taken = m <= MAX_COLUMNS && n <= MAX_ROWS && columns.iter().all(|column| column.len() == n);
        Matrix { entries: Cow::Owned(if taken { columns.concat() } else { vec![0.0] }), m, n }
    }
}

/// The two scratches of a call.
pub struct Scratch {
    pub numbers: Vec<f64>,
    pub indices: Vec<u32>,
}

impl Scratch {
    /// What the sizes ask for; for sizes beyond the limits what the limits ask for, since those are refused before scratch is looked at.
    pub fn new(m: usize, n: usize) -> Scratch {
        let (m, n) = (m.min(MAX_COLUMNS), n.min(MAX_ROWS));
        Scratch { numbers: vec![0.0; m * (n + 1) + m * m + 16 * m + 8 * (n + 1)], indices: vec![0; 8 * (m + n + 1)] }
    }
}
