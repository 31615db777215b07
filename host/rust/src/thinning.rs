//! The thinning of an ensemble's weights.

use crate::archive::{knob_sparsify, knob_sparsify_within, Answer};
use crate::bits::thin_votes_of;
use crate::forms::Form;
use crate::lent::{Matrix, Scratch, MAX_COLUMNS};
use crate::{Margins, Refusal};

/// When a thinning stops.
#[derive(Clone, Copy, Debug, PartialEq)]
pub enum Rule {
    /// At the first stage with at most so many nonzeros.
    Target(usize),
    /// At the last stage before the first whose change is above the allowance, or at the one with a single nonzero. A cap comes first:
    /// passes go on until at most so many nonzeros are left, even where the allowance is exceeded, and from there while stages measure
    /// within the allowance again. So it stops at the first stage with a single nonzero, or with at most so many that measures above the
    /// allowance itself or is followed by one that does.
    Within {
        /// How far any row's margin may move.
        allowance: f64,
        /// At most so many nonzeros, whatever the margins say.
        cap: Option<usize>,
    },
}

impl Rule {
    /// The number, the allowance and the limit by which the archive has a rule; what a rule does not use is 0.
    pub(crate) fn named(self) -> (u32, f64, usize) {
        match self {
            Rule::Target(target) => (0, 0.0, target),
            Rule::Within { allowance, cap: None } => (1, allowance, 0),
            Rule::Within { allowance, cap: Some(cap) } => (2, allowance, cap),
        }
    }
}

/// Which number an output of the generator becomes.
#[derive(Clone, Copy, Debug, Default, PartialEq, Eq, Hash)]
pub enum Edition {
    /// The upper 53 bits and a half, over 2^53: above 0 and at most 1. Shipped ensembles name it.
    #[default]
    First = 1,
    /// The upper 52 bits and a half, over 2^52: exact, and strictly between 0 and 1.
    Second = 2,
}

/// A job: the seed of its draws, their edition, and when it stops.
#[derive(Clone, Copy, Debug, PartialEq)]
pub struct Job {
    /// Starts the generator, which runs on through all passes.
    pub seed: u64,
    /// The edition of its draws.
    pub edition: Edition,
    /// When it stops.
    pub rule: Rule,
}

/// The answer to an accepted job.
#[derive(Clone, Debug, PartialEq)]
pub struct Thinned {
    /// The weights, one for each column. Their magnitudes sum to 1, but for rounding.
    pub weights: Vec<f64>,
    /// The stage returned: 0 the normalised weights, and one more with each pass that was kept.
    pub stage: usize,
    /// How many weights are not 0.
    pub nonzeros: usize,
    /// The largest change of a row's margin from the normalised weights to those returned.
    pub change: f64,
    /// How many directions all passes drew, a pass that was tried and discarded among them: at most eight for each column, each of at most
    /// as many Gaussians as there are columns.
    pub directions: usize,
    /// How many sweeps all passes made, that pass among them too: at most 1600.
    pub sweeps: usize,
    /// Nonzeros and change of each stage, from 0 to the one returned. The nonzeros fall strictly, each to at most half, so that there are
    /// at most nine stages; the last is `(nonzeros, change)`.
    pub path: Vec<(usize, f64)>,
}

/// Thins weights, and gives the whole answer. [`sparsify`] and [`sparsify_within`] give its weights alone. The margins are columns of doubles
/// or, where they are all 1 or -1, [`Votes`](crate::Votes), one bit each, for the same answer.
///
/// # Errors
///
/// Every [`Refusal`] but [`Refusal::Scratch`], [`Refusal::Label`], [`Refusal::ColoringEntry`] and [`Refusal::Buffer`];
/// [`Refusal::Allowance`] and [`Refusal::InfiniteAllowance`] only where the rule has an allowance; [`Refusal::Entry`] only for doubles, and
/// [`Refusal::SpareBit`] in its place for [`Votes`](crate::Votes).
pub fn thin<M: Margins + ?Sized>(columns: &M, weights: &[f64], job: Job) -> Result<Thinned, Refusal> {
    match columns.lend() {
        Form::Doubles(matrix) => thin_matrix(&matrix, weights, job),
        Form::Bits(votes) => thin_votes_of(votes, weights, job),
    }
}

pub(crate) fn thin_matrix(matrix: &Matrix, weights: &[f64], job: Job) -> Result<Thinned, Refusal> {
    let mut scratch = Scratch::new(matrix.m, matrix.n);
    // Beyond the limits nothing is written: the call is refused before it looks at the output.
    let mut output = vec![0.0; matrix.m.min(MAX_COLUMNS)];
    let mut answer = Answer::default();
    // SAFETY: each pointer is that of a Vec or slice, so never null, and goes with its length; what is written is borrowed from
    // nowhere else; the archive answers for every length, and keeps no pointer.
    unsafe {
        match job.rule {
            Rule::Target(target) => knob_sparsify(
                &mut answer,
                matrix.entries.as_ptr(),
                matrix.entries.len(),
                matrix.m,
                matrix.n,
                weights.as_ptr(),
                weights.len(),
                job.seed,
                job.edition as u32,
                target,
                output.as_mut_ptr(),
                output.len(),
                scratch.numbers.as_mut_ptr(),
                scratch.numbers.len(),
                scratch.indices.as_mut_ptr(),
                scratch.indices.len(),
            ),
            Rule::Within { allowance, cap } => knob_sparsify_within(
                &mut answer,
                matrix.entries.as_ptr(),
                matrix.entries.len(),
                matrix.m,
                matrix.n,
                weights.as_ptr(),
                weights.len(),
                job.seed,
                job.edition as u32,
                allowance,
                u32::from(cap.is_some()),
                cap.unwrap_or(0),
                output.as_mut_ptr(),
                output.len(),
                scratch.numbers.as_mut_ptr(),
                scratch.numbers.len(),
                scratch.indices.as_mut_ptr(),
                scratch.indices.len(),
            ),
        }
    };
    answered(answer, output)
}

/// An answer of the archive, with the weights that it wrote.
pub(crate) fn answered(answer: Answer, output: Vec<f64>) -> Result<Thinned, Refusal> {
    Refusal::check(answer.number)?;
    let stage = answer.stage as usize;
    let path = answer.path_nonzeros.iter().zip(answer.path_change).take(stage + 1).map(|(left, change)| (*left as usize, change)).collect();
    Ok(Thinned {
        weights: output,
        stage,
        nonzeros: answer.nonzeros as usize,
        change: answer.change,
        directions: answer.directions as usize,
        sweeps: answer.sweeps as usize,
        path,
    })
}

/// Thins weights to at most `target` nonzeros. The weights are divided by the sum of their magnitudes first; signs are kept, and a
/// weight that is 0 stays 0. Draws are those of [`Edition::First`].
///
/// # Errors
///
/// Those of [`thin`].
///
/// ```
/// let columns = vec![vec![1.0, 1.0], vec![1.0, -1.0]];
/// assert_eq!(knobthistle::sparsify(&columns, &[-3.0, 1.0], 1, 0), Ok(vec![-1.0, 0.0]));
/// ```
pub fn sparsify(columns: &[Vec<f64>], weights: &[f64], target: usize, seed: u64) -> Result<Vec<f64>, Refusal> {
    thin(columns, weights, Job { seed, edition: Edition::First, rule: Rule::Target(target) }).map(|thinned| thinned.weights)
}

/// Thins weights as far as no margin changes by more than `max_change`; with `max_nonzeros` to at most so many, even where the change is
/// exceeded: see [`Rule::Within`]. Draws are those of [`Edition::First`].
///
/// # Errors
///
/// Those of [`thin`].
///
/// ```
/// let columns = vec![vec![1.0, 1.0], vec![1.0, -1.0]];
/// assert_eq!(knobthistle::sparsify_within(&columns, &[1.0, 3.0], 0.5, None, 0), Ok(vec![0.0, 1.0]));
/// assert_eq!(knobthistle::sparsify_within(&columns, &[1.0, 3.0], 0.4, None, 0), Ok(vec![0.25, 0.75]));
/// assert_eq!(knobthistle::sparsify_within(&columns, &[1.0, 3.0], 0.4, Some(1), 0), Ok(vec![0.0, 1.0]));
/// ```
pub fn sparsify_within(
    columns: &[Vec<f64>],
    weights: &[f64],
    max_change: f64,
    max_nonzeros: Option<usize>,
    seed: u64,
) -> Result<Vec<f64>, Refusal> {
    let rule = Rule::Within { allowance: max_change, cap: max_nonzeros };
    thin(columns, weights, Job { seed, edition: Edition::First, rule }).map(|thinned| thinned.weights)
}
