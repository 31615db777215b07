//! The colouring of a matrix's columns.

use crate::archive::{knob_discrepancy_coloring, Colored};
use crate::bits::color_votes;
use crate::forms::Form;
use crate::lent::{Matrix, Scratch, MAX_COLUMNS};
use crate::{Margins, Refusal};

/// A signing of the columns by 1 and -1 that tries to keep every row's sum of entry times sign small. No columns or no rows are fine.
///
/// # Errors
///
/// [`Refusal::Size`], [`Refusal::Length`] and [`Refusal::ColoringEntry`].
///
/// ```
/// let columns = vec![vec![1.0, -0.5, 0.25]; 2];
/// let signs = knobthistle::discrepancy_coloring(&columns, 3).unwrap();
/// assert_eq!(signs[0], -signs[1]);
/// ```
pub fn discrepancy_coloring(columns: &[Vec<f64>], seed: u64) -> Result<Vec<i8>, Refusal> {
    color(columns, seed).map(|coloring| coloring.signs)
}

/// A colouring, and what it took.
#[derive(Clone, Debug, PartialEq, Eq)]
pub struct Coloring {
    /// The signs, one for each column: what [`discrepancy_coloring`] gives.
    pub signs: Vec<i8>,
    /// How many directions were drawn, one that was broken off among them: at most 2k for k columns, hence at most 2k² Gaussians.
    pub directions: usize,
    /// How many sweeps local search made, the last, which turns nothing, among them: at most 100.
    pub sweeps: usize,
}

/// The same signing, and how many directions and sweeps it took. The columns may be [`Votes`](crate::Votes) as well.
///
/// # Errors
///
/// [`Refusal::Size`], [`Refusal::Length`] and [`Refusal::ColoringEntry`]; for [`Votes`](crate::Votes) [`Refusal::SpareBit`] in the place of
/// the last.
///
/// ```
/// let columns = vec![vec![1.0, -1.0, 1.0], vec![-1.0, -1.0, 1.0]];
/// let votes = knobthistle::Votes::from_signs(&columns).unwrap();
/// assert_eq!(knobthistle::color(&votes, 3), knobthistle::color(&columns, 3));
/// ```
pub fn color<M: Margins + ?Sized>(columns: &M, seed: u64) -> Result<Coloring, Refusal> {
    match columns.lend() {
        Form::Doubles(matrix) => color_matrix(&matrix, seed),
        Form::Bits(votes) => color_votes(votes, seed),
    }
}

pub(crate) fn color_matrix(matrix: &Matrix, seed: u64) -> Result<Coloring, Refusal> {
    let mut scratch = Scratch::new(matrix.m, matrix.n);
    // Beyond the limits nothing is written: the call is refused before it looks at the output.
    let mut output = vec![0; matrix.m.min(MAX_COLUMNS)];
    let mut answer = Colored::default();
    // SAFETY: for the reasons that `thin_matrix` gives.
    unsafe {
        knob_discrepancy_coloring(
            &mut answer,
            matrix.entries.as_ptr(),
            matrix.entries.len(),
            matrix.m,
            matrix.n,
            seed,
            output.as_mut_ptr(),
            output.len(),
            scratch.numbers.as_mut_ptr(),
            scratch.numbers.len(),
            scratch.indices.as_mut_ptr(),
            scratch.indices.len(),
        );
    }
    colored(answer, output)
}

/// An answer of the archive, with the signs that it wrote.
pub(crate) fn colored(answer: Colored, output: Vec<i8>) -> Result<Coloring, Refusal> {
    Refusal::check(answer.number)?;
    Ok(Coloring { signs: output, directions: answer.directions as usize, sweeps: answer.sweeps as usize })
}
