//! Sheets, written and read: text in which every double stands by its bits.

use crate::archive::{knob_read_sheet, knob_write_sheet};
use crate::lent::Matrix;
use crate::{Edition, Job, Refusal, Rule};

/// What a sheet says: a matrix by its columns, their weights, and a job.
#[derive(Clone, Debug, PartialEq)]
pub struct Sheet {
    /// The matrix, column by column.
    pub columns: Vec<Vec<f64>>,
    /// How many entries each column has: also where there is no column.
    pub rows: usize,
    /// A weight for each column.
    pub weights: Vec<f64>,
    /// The seed, the edition and the rule.
    pub job: Job,
}

/// No sheet's text is longer.
pub(crate) const LONGEST: usize = 35572;

/// The text of a sheet: of every double its bits, so that NaNs keep their pattern and zeros their sign.
///
/// # Errors
///
/// [`Refusal::Size`] (more than 32 columns or 64 rows, a target or cap above 4294967295) and [`Refusal::Length`].
///
/// ```
/// use knobthistle::{read_sheet, write_sheet, Edition, Job, Rule, Sheet};
///
/// let job = Job { seed: 0, edition: Edition::Second, rule: Rule::Within { allowance: 0.5, cap: None } };
/// let sheet = Sheet { columns: vec![vec![-0.0]], rows: 1, weights: vec![1.0], job };
/// let text = write_sheet(&sheet).unwrap();
/// assert_eq!(text, b"thin\t1\t1\t0000000000000000\twithin\t3FE0000000000000\t-\t2\ncol\t3FF0000000000000\t8000000000000000\n");
/// assert_eq!(read_sheet(&text), Ok(sheet));
/// assert_eq!(read_sheet(b"thin\n"), Err(1));
/// ```
pub fn write_sheet(sheet: &Sheet) -> Result<Vec<u8>, Refusal> {
    let matrix = Matrix::new(&sheet.columns);
    let entries: Vec<u64> = matrix.entries.iter().map(|entry| entry.to_bits()).collect();
    let weights: Vec<u64> = sheet.weights.iter().map(|weight| weight.to_bits()).collect();
    let (rule, allowance, limit) = match sheet.job.rule {
        Rule::Target(target) => (0, 0, target as u64),
        Rule::Within { allowance, cap: None } => (1, allowance.to_bits(), 0),
        Rule::Within { allowance, cap: Some(cap) } => (2, allowance.to_bits(), cap as u64),
    };
    let mut text = vec![0; LONGEST];
    let mut length = 0;
    // SAFETY: for the reasons that `thin_matrix` gives.
    let number = unsafe {
        knob_write_sheet(
            entries.as_ptr(),
            entries.len(),
            sheet.columns.len(),
            sheet.rows,
            weights.as_ptr(),
            weights.len(),
            sheet.job.seed,
            sheet.job.edition as u32,
            rule,
            allowance,
            limit,
            text.as_mut_ptr(),
            text.len(),
            &mut length,
        )
    };
    text.truncate(length);
    Refusal::check(number).map(|()| text)
}

/// What a text says.
///
/// # Errors
///
/// The number of its first wrong line, from 1.
pub fn read_sheet(text: &[u8]) -> Result<Sheet, u64> {
    let (mut matrix, mut weights, mut first) = ([0; 2048], [0; 32], [0; 7]);
    // SAFETY: for the reasons that `thin_matrix` gives.
    let number = unsafe {
        knob_read_sheet(
            text.as_ptr(),
            text.len(),
            matrix.as_mut_ptr(),
            matrix.len(),
            weights.as_mut_ptr(),
            weights.len(),
            first.as_mut_ptr(),
            first.len(),
        )
    };
    if number != 0 {
        return Err(number);
    }
    let [m, rows, seed, edition, rule, allowance, limit] = first;
    let (m, rows, allowance, limit) = (m as usize, rows as usize, f64::from_bits(allowance), limit as usize);
    let rule = match rule {
        0 => Rule::Target(limit),
        1 => Rule::Within { allowance, cap: None },
        _ => Rule::Within { allowance, cap: Some(limit) },
    };
    let edition = if edition == 2 { Edition::Second } else { Edition::First };
    let columns = (0..m).map(|j| matrix[j * rows..(j + 1) * rows].iter().map(|bits| f64::from_bits(*bits)).collect()).collect();
    let weights = weights[..m].iter().map(|bits| f64::from_bits(*bits)).collect();
    Ok(Sheet { columns, rows, weights, job: Job { seed, edition, rule } })
}
