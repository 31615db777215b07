//! Times of the original with its own draws and of the archive, side by side in one run.

use crate::{matrices, peer, thinning_calls};
use std::hint::black_box;
use std::time::Instant;

/// Rounds at least, and the seconds that both sides of a line may take together.
const ROUNDS: usize = 5;
const SECONDS: f64 = 1.5;

/// The best time of a round of each side, in seconds. A round is as many calls as take a few milliseconds; its seeds run from 0.
pub fn best(mut original: impl FnMut(u64), mut ours: impl FnMut(u64)) -> (f64, f64) {
    let round = |side: &mut dyn FnMut(u64), calls: u64| {
        let start = Instant::now();
        (0..calls).for_each(|seed| side(seed));
        start.elapsed().as_secs_f64() / calls as f64
    };
    let once = round(&mut original, 1).max(round(&mut ours, 1));
    let calls = ((0.02 / once) as u64).clamp(1, 1000);
    let (mut first, mut second) = (f64::INFINITY, f64::INFINITY);
    let (begin, mut rounds) = (Instant::now(), 0);
    while rounds < ROUNDS || (begin.elapsed().as_secs_f64() < SECONDS && rounds < 50) {
        first = first.min(round(&mut original, calls));
        second = second.min(round(&mut ours, calls));
        rounds += 1;
    }
    (first, second)
}

/// Scratch of the size that the calls ask for.
pub fn scratch(m: usize, n: usize) -> (Vec<f64>, Vec<u32>) {
    (vec![0.0; m * (n + 1) + m * m + 16 * m + 8 * (n + 1)], vec![0; 8 * (m + n + 1)])
}

/// The times of a job with target 4.
pub fn job(matrix: &[f64], m: usize, n: usize, weights: &[f64]) -> (f64, f64) {
    let columns = matrices::columns(matrix, m, n);
    let (mut output, (mut numbers, mut indices)) = (vec![0.0; m], scratch(m, n));
    let mut answer = thinning_calls::Answer::noise();
    let ours = |seed: u64| unsafe {
        thinning_calls::knob_sparsify(
            &mut answer,
            matrix.as_ptr(),
            matrix.len(),
            m,
            n,
            weights.as_ptr(),
            m,
            seed,
            1,
            4,
            output.as_mut_ptr(),
            m,
            numbers.as_mut_ptr(),
            numbers.len(),
            indices.as_mut_ptr(),
            indices.len(),
        );
        assert_eq!(answer.number, 0, "a job is accepted");
    };
    // Ours measures the change as well; the original's call does not, and is timed as it is.
    let original = |seed: u64| drop(black_box(peer::sparsify(&columns, weights, 4, seed)));
    best(original, ours)
}
