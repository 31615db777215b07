//! What a change of weights does to the margins.

use crate::archive::{knob_max_margin_change, knob_turned_words};
use crate::bits::{change_of_votes, turned_in_votes};
use crate::forms::Form;
use crate::lent::Matrix;
use crate::{Margins, Refusal};

/// The largest change of a row's margin when the weights `before` are replaced by `after`, both used as given. Entries and weights may be
/// any doubles. With no columns or no rows it is 0. The columns may be [`Votes`](crate::Votes) as well.
///
/// # Errors
///
/// [`Refusal::Size`] and [`Refusal::Length`]; for [`Votes`](crate::Votes) then [`Refusal::SpareBit`].
///
/// ```
/// let columns = vec![vec![1.0, 1.0], vec![1.0, -1.0]];
/// assert_eq!(knobthistle::max_margin_change(&columns, &[0.5, 0.5], &[1.0, 0.0]), Ok(1.0));
/// ```
pub fn max_margin_change<M: Margins + ?Sized>(columns: &M, before: &[f64], after: &[f64]) -> Result<f64, Refusal> {
    match columns.lend() {
        Form::Doubles(matrix) => change_of_matrix(&matrix, before, after),
        Form::Bits(votes) => change_of_votes(votes, before, after),
    }
}

pub(crate) fn change_of_matrix(matrix: &Matrix, before: &[f64], after: &[f64]) -> Result<f64, Refusal> {
    let mut change = 0.0;
    // SAFETY: for the reasons that `thin_matrix` gives.
    let number = unsafe {
        knob_max_margin_change(
            matrix.entries.as_ptr(),
            matrix.entries.len(),
            matrix.m,
            matrix.n,
            before.as_ptr(),
            before.len(),
            after.as_ptr(),
            after.len(),
            &mut change,
        )
    };
    Refusal::check(number).map(|()| change)
}

/// The number of words that turn: the rows whose margin is above the row's threshold by `before` and not by `after`, or by `after` and
/// not by `before`. There is one threshold for each row. Entries and weights may be any doubles; a margin that is a NaN is above nothing.
/// The columns may be [`Votes`](crate::Votes) as well. It is no function of the module that this library was made from.
///
/// # Errors
///
/// [`Refusal::Size`], [`Refusal::Length`], for [`Votes`](crate::Votes) then [`Refusal::SpareBit`], and, for a threshold that is not finite,
/// [`Refusal::Weight`].
///
/// ```
/// let columns = vec![vec![1.0, 1.0], vec![1.0, -1.0]];
/// assert_eq!(knobthistle::turned_words(&columns, &[1.0, 0.0], &[0.0, 1.0], &[0.0, 0.0]), Ok(1));
/// // At exactly its threshold a word is not above it.
/// assert_eq!(knobthistle::turned_words(&columns, &[1.0, 0.0], &[0.5, 0.5], &[0.0, 0.0]), Ok(1));
/// ```
pub fn turned_words<M: Margins + ?Sized>(columns: &M, before: &[f64], after: &[f64], thresholds: &[f64]) -> Result<usize, Refusal> {
    match columns.lend() {
        Form::Doubles(matrix) => turned_in_matrix(&matrix, before, after, thresholds),
        Form::Bits(votes) => turned_in_votes(votes, before, after, thresholds),
    }
}

pub(crate) fn turned_in_matrix(matrix: &Matrix, before: &[f64], after: &[f64], thresholds: &[f64]) -> Result<usize, Refusal> {
    let mut count = 0;
    // SAFETY: for the reasons that `thin_matrix` gives.
    let number = unsafe {
        knob_turned_words(
            matrix.entries.as_ptr(),
            matrix.entries.len(),
            matrix.m,
            matrix.n,
            before.as_ptr(),
            before.len(),
            after.as_ptr(),
            after.len(),
            thresholds.as_ptr(),
            thresholds.len(),
            &mut count,
        )
    };
    Refusal::check(number).map(|()| count as usize)
}
