//! Thinning jobs: what the original says of them, and when the documents refuse one.

use crate::draws;
use crate::lent::scratch_sizes;
use crate::original::{self, reach};
use crate::tally::same;
use crate::watch;

#[derive(Clone, Copy, Debug)]
pub enum Rule {
    Target(usize),
    Within(f64, Option<usize>),
}

/// A matrix, weights, a seed and an edition of the draw: what several jobs can share.
pub struct Ensemble {
    pub matrix: Vec<f64>,
    pub m: usize,
    pub n: usize,
    pub weights: Vec<f64>,
    pub seed: u64,
    pub edition: u32,
}

/// What the original says of a job.
pub struct Said {
    pub stage: u64,
    pub nonzeros: u64,
    pub change: f64,
    /// Nonzeros and change of each stage from 0 to this one.
    pub path: Vec<(u64, f64)>,
    pub weights: Vec<f64>,
    /// The original's own call gave these weights too.
    pub agrees: bool,
    /// What that call drew and swept, and how many of its directions were broken off.
    pub directions: u64,
    pub sweeps: u64,
    pub broken_off: u64,
}

/// The stages of an ensemble by the original's pass, and where document 01 reads them.
pub fn by_stages(columns: &[Vec<f64>], e: &Ensemble, rule: Rule) -> Said {
    draws::by_edition(e.edition);
    let first = reach::normalized(columns, &e.weights);
    let measure = |w: &[f64]| original::max_margin_change(columns, &first, w);
    let mut generator = e.seed;
    let (mut stage, mut weights) = (0, first.clone());
    let mut path = Vec::new();
    loop {
        let nonzeros = reach::count(&weights);
        path.push((nonzeros as u64, measure(&weights)));
        let mut next = None;
        let mut pass = || {
            let mut w = weights.clone();
            reach::pass(columns, &mut w, &mut generator);
            w
        };
        let stop = match rule {
            Rule::Target(target) => nonzeros <= target,
            Rule::Within(allowance, cap) => {
                let met = cap.map_or(true, |cap| nonzeros <= cap);
                nonzeros == 1 || met && (stage >= 1 && measure(&weights) > allowance || measure(next.insert(pass())) > allowance)
            }
        };
        if stop {
            let before = watch::seen();
            let own = match rule {
                Rule::Target(target) => original::sparsify(columns, &e.weights, target, e.seed),
                Rule::Within(allowance, cap) => original::sparsify_within(columns, &e.weights, allowance, cap, e.seed),
            };
            let agrees = own.iter().zip(&weights).all(|(a, b)| same(*a, *b));
            let after = watch::seen();
            return Said {
                stage,
                nonzeros: nonzeros as u64,
                change: measure(&weights),
                path,
                weights,
                agrees,
                directions: after.directions - before.directions,
                sweeps: after.sweeps - before.sweeps,
                broken_off: after.broken_off - before.broken_off,
            };
        }
        weights = match next {
            Some(next) => next,
            None => pass(),
        };
        stage += 1;
    }
}

/// The table of refusals for a thinning, the first that applies.
pub fn refusal(e: &Ensemble, rule: Rule, output: usize, numbers: usize, indices: usize) -> u64 {
    let (enough_numbers, enough_indices) = scratch_sizes(e.m, e.n);
    let (allowance_wrong, infinite, zero) = match rule {
        Rule::Target(target) => (false, false, target == 0),
        Rule::Within(allowance, cap) => (allowance.is_nan() || allowance < 0.0, allowance == f64::INFINITY, cap == Some(0)),
    };
    let sum = e.weights.iter().fold(0.0, |sum, w| sum + w.abs());
    let table = [
        (1, allowance_wrong),
        (12, infinite),
        (2, zero),
        (13, e.edition != 1 && e.edition != 2),
        (3, e.m > 256 || e.n > 4096),
        (4, e.matrix.len() as u128 != e.m as u128 * e.n as u128 || e.weights.len() != e.m || output != e.m),
        (5, e.m == 0 || e.n == 0),
        (6, (numbers as u128) < enough_numbers || (indices as u128) < enough_indices),
        (7, e.matrix.iter().any(|u| !(*u >= -1.0 && *u <= 1.0))),
        (8, e.weights.iter().any(|w| !w.is_finite())),
        (9, sum == 0.0 || sum == f64::INFINITY),
    ];
    table.iter().find(|(_, applies)| *applies).map_or(0, |(number, _)| *number)
}
