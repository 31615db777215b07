//! The same calls on a matrix that is one array, column after column, which is lent as it is: nothing is copied.
//!
//! `matrix[j * n + i]` is the entry of column `j` and row `i`; there are m columns and n rows, so m·n entries, else the call is refused
//! by [`Refusal::Length`].
//!
//! ```
//! use knobthistle::{flat, Edition, Job, Rule};
//!
//! let matrix = [1.0, 1.0, 1.0, -1.0];
//! let job = Job { seed: 0, edition: Edition::First, rule: Rule::Target(1) };
//! let thinned = flat::thin(&matrix, 2, 2, &[1.0, 3.0], job)?;
//! assert_eq!(thinned.weights, [0.0, 1.0]);
//! assert_eq!(flat::moved(&matrix, 2, 2, &[0.25, 0.75], &thinned.weights)?.rows, [1, 0]);
//! # Ok::<(), knobthistle::Refusal>(())
//! ```

use crate::lent::Matrix;
use crate::{Coloring, Job, Moved, Refusal, Thinned};

/// [`thin`](crate::thin).
///
/// # Errors
///
/// Those of [`thin`](crate::thin).
pub fn thin(matrix: &[f64], m: usize, n: usize, weights: &[f64], job: Job) -> Result<Thinned, Refusal> {
    crate::thinning::thin_matrix(&Matrix::flat(matrix, m, n), weights, job)
}

/// [`color`](crate::color).
///
/// # Errors
///
/// Those of [`color`](crate::color).
pub fn color(matrix: &[f64], m: usize, n: usize, seed: u64) -> Result<Coloring, Refusal> {
    crate::coloring::color_matrix(&Matrix::flat(matrix, m, n), seed)
}

/// [`max_margin_change`](crate::max_margin_change).
///
/// # Errors
///
/// Those of [`max_margin_change`](crate::max_margin_change).
pub fn max_margin_change(matrix: &[f64], m: usize, n: usize, before: &[f64], after: &[f64]) -> Result<f64, Refusal> {
    crate::margins::change_of_matrix(&Matrix::flat(matrix, m, n), before, after)
}

/// [`turned_words`](crate::turned_words).
///
/// # Errors
///
/// Those of [`turned_words`](crate::turned_words).
pub fn turned_words(matrix: &[f64], m: usize, n: usize, before: &[f64], after: &[f64], thresholds: &[f64]) -> Result<usize, Refusal> {
    crate::margins::turned_in_matrix(&Matrix::flat(matrix, m, n), before, after, thresholds)
}

/// [`moved`](crate::moved).
///
/// # Errors
///
/// Those of [`moved`](crate::moved).
pub fn moved(matrix: &[f64], m: usize, n: usize, before: &[f64], after: &[f64]) -> Result<Moved, Refusal> {
    crate::moving::moved_in_matrix(&Matrix::flat(matrix, m, n), before, after)
}
