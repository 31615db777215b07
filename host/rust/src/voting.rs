//! Thinning from labels and votes.

use crate::archive::{knob_thin_votes, Answer};
use crate::lent::{Matrix, Scratch, MAX_COLUMNS};
use crate::thinning::{answered, Job};
use crate::Refusal;

/// What an accepted job keeps, and how it came there.
#[derive(Clone, Debug, PartialEq)]
pub struct Kept {
    /// The columns whose weight is not 0, from 0 and rising.
    pub columns: Vec<u32>,
    /// The weight of each of them.
    pub weights: Vec<f64>,
    /// The stage returned: 0 the normalised weights, and one more with each pass that was kept.
    pub stage: usize,
    /// The largest change of a row's margin from the normalised weights to those returned.
    pub change: f64,
    /// How many directions all passes drew, a pass that was tried and discarded among them.
    pub directions: usize,
    /// How many sweeps all passes made, that pass among them too.
    pub sweeps: usize,
    /// Nonzeros and change of each stage, from 0 to the one returned.
    pub path: Vec<(usize, f64)>,
}

/// Thins weights as [`thin`](crate::thin) does on margins that are label times confidence: `confidences[j][i]` is how sure hypothesis `j`
/// is of example `i`, in [-1, 1], and `labels[i]` says what the example is, 1 or -1. With no columns the rows are as many as the labels.
///
/// # Errors
///
/// Those of [`thin`](crate::thin); [`Refusal::Length`] also where there is not one label for each row, [`Refusal::Label`], and
/// [`Refusal::Entry`] for a confidence.
///
/// ```
/// use knobthistle::{thin_votes, Edition, Job, Rule};
///
/// let job = Job { seed: 0, edition: Edition::First, rule: Rule::Within { allowance: 0.5, cap: None } };
/// let kept = thin_votes(&[vec![1.0, -1.0], vec![1.0, 1.0]], &[1, -1], &[1.0, 3.0], job)?;
/// assert_eq!((kept.columns, kept.weights, kept.change), (vec![1], vec![1.0], 0.5));
/// # Ok::<(), knobthistle::Refusal>(())
/// ```
pub fn thin_votes(confidences: &[Vec<f64>], labels: &[i8], weights: &[f64], job: Job) -> Result<Kept, Refusal> {
    let mut matrix = Matrix::new(confidences);
    if confidences.is_empty() {
        matrix.n = labels.len();
    }
    let (rule, allowance, limit) = job.rule.named();
    let mut scratch = Scratch::new(matrix.m, matrix.n);
    // Beyond the limits nothing is written: the call is refused before it looks at the lists.
    let places = matrix.m.min(MAX_COLUMNS);
    let (mut columns, mut kept) = (vec![0; places], vec![0.0; places]);
    let mut answer = Answer::default();
    // SAFETY: for the reasons that `thin_matrix` gives.
    unsafe {
        knob_thin_votes(
            &mut answer,
            matrix.entries.as_ptr(),
            matrix.entries.len(),
            labels.as_ptr(),
            labels.len(),
            matrix.m,
            matrix.n,
            weights.as_ptr(),
            weights.len(),
            job.seed,
            job.edition as u32,
            rule,
            allowance,
            limit,
            columns.as_mut_ptr(),
            columns.len(),
            kept.as_mut_ptr(),
            kept.len(),
            scratch.numbers.as_mut_ptr(),
            scratch.numbers.len(),
            scratch.indices.as_mut_ptr(),
            scratch.indices.len(),
        );
    }
    let left = answer.nonzeros as usize;
    kept.truncate(left);
    columns.truncate(left);
    let thinned = answered(answer, kept)?;
    Ok(Kept {
        columns,
        weights: thinned.weights,
        stage: thinned.stage,
        change: thinned.change,
        directions: thinned.directions,
        sweeps: thinned.sweeps,
        path: thinned.path,
    })
}
