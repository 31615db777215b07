//! The same functions with the very signatures of miniboosts: a refusal is a panic there, and so it is here.
//!
//! A host that has `use miniboosts::optimization::sparsification::..` changes that line to `use knobthistle::sparsification::..` and no
//! other. A host that would rather be told takes the functions of the crate's root. What the original takes and this library refuses is
//! more than 256 columns or 4096 rows, and in a colouring entries above 2^32 in magnitude. The values are the original's where the draws
//! are: its logarithm and cosine are the platform's, ours one rule for every machine, so that up to a few thinnings in a thousand and
//! about one in five large colourings come out otherwise than by the original as it ships (the crate's first page has the counts).

use crate::Refusal;

fn or_panic<T>(answer: Result<T, Refusal>) -> T {
    answer.unwrap_or_else(|refusal| panic!("{refusal}"))
}

/// [`sparsify`](crate::sparsify) with the original's result.
///
/// # Panics
///
/// Where that is refused.
///
/// ```
/// use knobthistle::sparsification::{max_margin_change, sparsify};
///
/// let columns: Vec<Vec<f64>> =
///     (0..16).map(|j| (0..8).map(|i| if (j * 37 + i * 11) % 7 < 4 { 1.0 } else { -1.0 }).collect()).collect();
/// let weights = vec![1.0 / 16.0; 16];
/// let sparse = sparsify(&columns, &weights, 4, 0);
/// assert!(sparse.iter().filter(|w| **w != 0.0).count() <= 4);
/// assert!((0.0..=2.0).contains(&max_margin_change(&columns, &weights, &sparse)));
/// ```
pub fn sparsify(columns: &[Vec<f64>], weights: &[f64], target: usize, seed: u64) -> Vec<f64> {
    or_panic(crate::sparsify(columns, weights, target, seed))
}

/// [`sparsify_within`](crate::sparsify_within) with the original's result.
///
/// # Panics
///
/// Where that is refused.
pub fn sparsify_within(columns: &[Vec<f64>], weights: &[f64], max_change: f64, max_nonzeros: Option<usize>, seed: u64) -> Vec<f64> {
    or_panic(crate::sparsify_within(columns, weights, max_change, max_nonzeros, seed))
}

/// [`max_margin_change`](crate::max_margin_change) with the original's result.
///
/// # Panics
///
/// Where that is refused.
pub fn max_margin_change(columns: &[Vec<f64>], before: &[f64], after: &[f64]) -> f64 {
    or_panic(crate::max_margin_change(columns, before, after))
}

/// [`discrepancy_coloring`](crate::discrepancy_coloring) with the original's result.
///
/// # Panics
///
/// Where that is refused.
pub fn discrepancy_coloring(columns: &[Vec<f64>], seed: u64) -> Vec<i8> {
    or_panic(crate::discrepancy_coloring(columns, seed))
}
