//! The calls on votes as bits.

use crate::archive::{knob_discrepancy_coloring_bits, knob_max_margin_change_bits, knob_thin_bits, knob_turned_words_bits};
use crate::archive::{Answer, Colored};
use crate::coloring::{colored, Coloring};
use crate::lent::{Scratch, MAX_COLUMNS};
use crate::thinning::{answered, Job, Thinned};
use crate::{Refusal, Votes};

pub fn thin_votes_of(votes: &Votes, weights: &[f64], job: Job) -> Result<Thinned, Refusal> {
    let (bits, m, n) = (votes.bits(), votes.columns(), votes.rows());
    let (rule, allowance, limit) = job.rule.named();
    let mut scratch = Scratch::new(m, n);
    // Beyond the limits nothing is written: the call is refused before it looks at the output.
    let mut output = vec![0.0; m.min(MAX_COLUMNS)];
    let mut answer = Answer::default();
    // SAFETY: for the reasons that `thin_matrix` gives.
    unsafe {
        knob_thin_bits(
            &mut answer,
            bits.as_ptr(),
            bits.len(),
            m,
            n,
            weights.as_ptr(),
            weights.len(),
            job.seed,
            job.edition as u32,
            rule,
            allowance,
            limit,
            output.as_mut_ptr(),
            output.len(),
            scratch.numbers.as_mut_ptr(),
            scratch.numbers.len(),
            scratch.indices.as_mut_ptr(),
            scratch.indices.len(),
        );
    }
    answered(answer, output)
}

pub fn color_votes(votes: &Votes, seed: u64) -> Result<Coloring, Refusal> {
    let (bits, m, n) = (votes.bits(), votes.columns(), votes.rows());
    let mut scratch = Scratch::new(m, n);
    // Beyond the limits nothing is written: the call is refused before it looks at the output.
    let mut output = vec![0; m.min(MAX_COLUMNS)];
    let mut answer = Colored::default();
    // SAFETY: for the reasons that `thin_matrix` gives.
    unsafe {
        knob_discrepancy_coloring_bits(
            &mut answer,
            bits.as_ptr(),
            bits.len(),
            m,
            n,
            seed,
            output.as_mut_ptr(),
            output.len(),
            scratch.numbers.as_mut_ptr(),
            scratch.numbers.len(),
            scratch.indices.as_mut_ptr(),
            scratch.indices.len(),
        );
    }
    colored(answer, output)
}

pub fn change_of_votes(votes: &Votes, before: &[f64], after: &[f64]) -> Result<f64, Refusal> {
    let bits = votes.bits();
    let mut change = 0.0;
    // SAFETY: for the reasons that `thin_matrix` gives.
    let number = unsafe {
        knob_max_margin_change_bits(
            bits.as_ptr(),
            bits.len(),
            votes.columns(),
            votes.rows(),
            before.as_ptr(),
            before.len(),
            after.as_ptr(),
            after.len(),
            &mut change,
        )
    };
    Refusal::check(number).map(|()| change)
}

pub fn turned_in_votes(votes: &Votes, before: &[f64], after: &[f64], thresholds: &[f64]) -> Result<usize, Refusal> {
    let bits = votes.bits();
    let mut count = 0;
    // SAFETY: for the reasons that `thin_matrix` gives.
    let number = unsafe {
        knob_turned_words_bits(
            bits.as_ptr(),
            bits.len(),
            votes.columns(),
            votes.rows(),
            before.as_ptr(),
            before.len(),
            after.as_ptr(),
            after.len(),
            thresholds.as_ptr(),
            thresholds.len(),
            &mut count,
        )
    };
    Refusal::check(number).map(|()| count as usize)
}
