//! Which word moved.

use crate::archive::{knob_moved, knob_moved_again};
use crate::lent::{Matrix, MAX_ROWS};
use crate::Refusal;

/// Every row's change, by magnitude from the largest down, the smaller row first where two are equal: `changes[k]` is that of `rows[k]`.
#[derive(Clone, Debug, Default, PartialEq)]
pub struct Moved {
    /// The rows, each once.
    pub rows: Vec<u32>,
    /// The change of each of them, signed.
    pub changes: Vec<f64>,
}

impl Moved {
    /// Brings the list up to date: the same as [`moved`], whatever the list held, in less time where few rows have changed places. A
    /// refusal leaves the rows that are still there and their changes as they were.
    ///
    /// # Errors
    ///
    /// Those of [`moved`].
    ///
    /// ```
    /// let columns = vec![vec![1.0, 1.0], vec![1.0, -1.0]];
    /// let mut list = knobthistle::moved(&columns, &[0.25, 0.75], &[0.25, 0.75])?;
    /// list.again(&columns, &[0.25, 0.75], &[0.0, 1.0])?;
    /// assert_eq!((list.rows, list.changes), (vec![1, 0], vec![0.5, 0.0]));
    /// # Ok::<(), knobthistle::Refusal>(())
    /// ```
    pub fn again(&mut self, columns: &[Vec<f64>], before: &[f64], after: &[f64]) -> Result<(), Refusal> {
        list(&Matrix::new(columns), before, after, self, true)
    }
}

/// The change of every row's margin when the weights `before` are replaced by `after`, both used as given, as a list in order. It is no
/// function of the module that this library was made from.
///
/// # Errors
///
/// [`Refusal::Size`], [`Refusal::Length`], [`Refusal::Entry`], and [`Refusal::Weight`], which here is also given for a weight above 1 in
/// magnitude.
///
/// ```
/// let columns = vec![vec![1.0, 1.0], vec![1.0, -1.0]];
/// let list = knobthistle::moved(&columns, &[0.25, 0.75], &[0.0, 1.0])?;
/// assert_eq!((list.rows, list.changes), (vec![1, 0], vec![0.5, 0.0]));
/// # Ok::<(), knobthistle::Refusal>(())
/// ```
pub fn moved(columns: &[Vec<f64>], before: &[f64], after: &[f64]) -> Result<Moved, Refusal> {
    moved_in_matrix(&Matrix::new(columns), before, after)
}

pub(crate) fn moved_in_matrix(matrix: &Matrix, before: &[f64], after: &[f64]) -> Result<Moved, Refusal> {
    let mut moved = Moved::default();
    list(matrix, before, after, &mut moved, false).map(|()| moved)
}

fn list(matrix: &Matrix, before: &[f64], after: &[f64], moved: &mut Moved, again: bool) -> Result<(), Refusal> {
    // Beyond the limits nothing is written: the call is refused before it looks at the lists.
    let places = matrix.n.min(MAX_ROWS);
    moved.rows.resize(places, 0);
    moved.changes.resize(places, 0.0);
    let call = if again { knob_moved_again } else { knob_moved };
    // SAFETY: for the reasons that `thin_matrix` gives.
    let number = unsafe {
        call(
            matrix.entries.as_ptr(),
            matrix.entries.len(),
            matrix.m,
            matrix.n,
            before.as_ptr(),
            before.len(),
            after.as_ptr(),
            after.len(),
            moved.rows.as_mut_ptr(),
            moved.rows.len(),
            moved.changes.as_mut_ptr(),
            moved.changes.len(),
        )
    };
    Refusal::check(number)
}
