//! The worked cases of the document that the library is built from. C10 and C11 are of the draw, which this crate does not hand on.

use knobthistle::{discrepancy_coloring, max_margin_change, sparsify, sparsify_within, thin, Edition, Job, Refusal, Rule, Thinned};

/// The last one's first output is all ones: the first Gaussian is a zero, and a direction of it alone is broken off.
const SEEDS: [u64; 6] = [0, 1, 0x61C8_8646_80B5_83EB, 1 << 63, u64::MAX, 0x3162_8AF6_7B21_31AB];

/// Jobs by a rule, with each of the seeds and both editions of the draw.
fn jobs(rule: Rule) -> impl Iterator<Item = Job> {
    SEEDS.into_iter().flat_map(move |seed| [Edition::First, Edition::Second].map(|edition| Job { seed, edition, rule }))
}

/// C1's matrix: two rows, columns (1, 1) and (1, -1).
fn columns() -> Vec<Vec<f64>> {
    vec![vec![1.0, 1.0], vec![1.0, -1.0]]
}

fn within(allowance: f64, cap: Option<usize>) -> Rule {
    Rule::Within { allowance, cap }
}

/// The answer to a job on C1's matrix, the same for every seed and edition.
fn on_every_seed(weights: [f64; 2], rule: Rule) -> Result<Thinned, Refusal> {
    let first = thin(&columns(), &weights, Job { seed: SEEDS[0], edition: Edition::default(), rule });
    for job in jobs(rule) {
        assert_eq!(thin(&columns(), &weights, job), first, "{job:?}");
    }
    first
}

fn answer(weights: [f64; 2], stage: usize, nonzeros: usize, change: f64) -> Result<Thinned, Refusal> {
    // Both weights are there at stage 0 where there is a stage 1.
    let path = if stage == 0 { vec![(nonzeros, change)] } else { vec![(2, 0.0), (nonzeros, change)] };
    // One pass is made, that of C2 to be discarded: it colours one column, with one direction and one sweep.
    Ok(Thinned { weights: weights.to_vec(), stage, nonzeros, change, directions: 1, sweeps: 1, path })
}

/// Many columns of 1 and -1, in a fixed pattern.
fn pattern(m: usize, n: usize) -> Vec<Vec<f64>> {
    (0..m).map(|j| (0..n).map(|i| if (j * 37 + i * 11 + i * j) % 7 < 4 { 1.0 } else { -1.0 }).collect()).collect()
}

#[test]
fn c1_the_sheet() {
    assert_eq!(on_every_seed([1.0, 3.0], within(0.5, None)), answer([0.0, 1.0], 1, 1, 0.5));
}

#[test]
fn c2_one_double_below() {
    let allowance = f64::from_bits(0x3FDF_FFFF_FFFF_FFFF);
    assert_eq!(on_every_seed([1.0, 3.0], within(allowance, None)), answer([0.25, 0.75], 0, 2, 0.0));
}

#[test]
fn c3_the_cap_comes_first() {
    assert_eq!(on_every_seed([1.0, 3.0], within(0.0, Some(1))), answer([0.0, 1.0], 1, 1, 0.5));
}

#[test]
fn c4_equal_weights() {
    assert_eq!(on_every_seed([1.0, 1.0], Rule::Target(1)), answer([1.0, 0.0], 1, 1, 1.0));
}

#[test]
fn c5_a_negative_weight() {
    let thinned = on_every_seed([-3.0, 1.0], Rule::Target(1)).unwrap();
    assert_eq!((thinned.weights, thinned.stage, thinned.nonzeros), (vec![-1.0, 0.0], 1, 1));
}

#[test]
fn c6_an_underflow() {
    let thinned = on_every_seed([4.0, 5e-324], Rule::Target(1)).unwrap();
    assert_eq!((thinned.weights, thinned.stage, thinned.nonzeros, thinned.change), (vec![1.0, 0.0], 0, 1, 0.0));
    assert_eq!((thinned.directions, thinned.sweeps), (0, 0));
}

#[test]
fn c7_no_weight() {
    assert_eq!(on_every_seed([0.0, 0.0], Rule::Target(1)), Err(Refusal::Sum));
    assert_eq!(on_every_seed([0.0, -0.0], within(1.0, None)), Err(Refusal::Sum));
}

#[test]
fn c8_one_pass_leaves_the_largest() {
    for support in 2..=4 {
        for job in jobs(Rule::Target(support - 1)) {
            for sign in [1.0, -1.0] {
                let mut weights: Vec<f64> = (0..support).map(|j| 1.0 + j as f64).collect();
                weights[1] = sign * 9.0;
                let thinned = thin(&pattern(support, 5), &weights, job).unwrap();
                let mut alone = vec![0.0; support];
                alone[1] = sign;
                assert_eq!((thinned.weights, thinned.stage, thinned.nonzeros), (alone, 1, 1));
            }
        }
    }
}

#[test]
fn c9_a_hundred() {
    let weights: Vec<f64> = (0..100).map(|j| 1.0 + (j % 13) as f64).collect();
    for job in jobs(Rule::Target(99)) {
        let thinned = thin(&pattern(100, 40), &weights, job).unwrap();
        assert!(thinned.nonzeros <= 49 && thinned.stage == 1, "{} left", thinned.nonzeros);
    }
}

#[test]
fn c12_a_change() {
    assert_eq!(max_margin_change(&columns(), &[0.5, 0.5], &[1.0, 0.0]), Ok(1.0));
}

#[test]
fn c13_opposite_colours() {
    for seed in SEEDS {
        let signs = discrepancy_coloring(&vec![vec![1.0, -0.5, 0.25]; 2], seed).unwrap();
        assert!(signs == [1, -1] || signs == [-1, 1], "{signs:?}");
    }
}

#[test]
fn c14_the_lowest_number() {
    assert_eq!(on_every_seed([1.0, 3.0], within(f64::NAN, Some(0))), Err(Refusal::Allowance));
}

#[test]
fn c15_the_limits() {
    assert_eq!(sparsify(&pattern(257, 2), &[1.0; 257], 4, 0), Err(Refusal::Size));
    assert!(sparsify(&pattern(256, 2), &[1.0; 256], 4, 0).is_ok());
    assert!(sparsify_within(&pattern(256, 2), &[1.0; 256], 0.5, Some(4), 0).is_ok());
}
