//! The safe calls against the archive's own, bit for bit, and their answers against each other.

use knobthistle::{
    color, discrepancy_coloring, max_margin_change, sparsification, sparsify, sparsify_within, thin, turned_words, Coloring, Edition, Job,
    Rule, Thinned,
};

/// The archive's answer, declared as C has it.
#[cfg(target_arch = "x86_64")]
#[repr(C)]
struct Answer {
    number: u64,
    stage: u64,
    nonzeros: u64,
    change: f64,
    directions: u64,
    sweeps: u64,
    path_nonzeros: [u64; 9],
    path_change: [f64; 9],
}

/// And its answer to a colouring.
#[cfg(target_arch = "x86_64")]
#[repr(C)]
struct Colored {
    number: u64,
    directions: u64,
    sweeps: u64,
}

#[cfg(target_arch = "x86_64")]
#[rustfmt::skip]
extern "C" {
    fn knob_sparsify(
        matrix: *const f64, matrix_length: usize, m: usize, n: usize, weights: *const f64, weights_length: usize, seed: u64, edition: u32,
        target: usize, output: *mut f64, output_length: usize, numbers: *mut f64, numbers_length: usize, indices: *mut u32, indices_length: usize,
    ) -> Answer;
    fn knob_sparsify_within(
        matrix: *const f64, matrix_length: usize, m: usize, n: usize, weights: *const f64, weights_length: usize, seed: u64, edition: u32,
        allowance: f64, capped: u32, cap: usize, output: *mut f64, output_length: usize, numbers: *mut f64, numbers_length: usize, indices: *mut u32,
        indices_length: usize,
    ) -> Answer;
    fn knob_discrepancy_coloring(
        matrix: *const f64, matrix_length: usize, m: usize, n: usize, seed: u64, output: *mut i8, output_length: usize, numbers: *mut f64,
        numbers_length: usize, indices: *mut u32, indices_length: usize,
    ) -> Colored;
}

/// The archive's answer to a job, with scratch full of noise.
#[cfg(target_arch = "x86_64")]
#[rustfmt::skip]
fn directly(columns: &[Vec<f64>], weights: &[f64], job: Job) -> Thinned {
    let (matrix, m, n) = (columns.concat(), columns.len(), columns[0].len());
    let mut output = vec![7.0; m];
    let (mut numbers, mut indices) = (vec![f64::NAN; m * (n + 1) + m * m + 16 * m + 8 * (n + 1)], vec![77; 8 * (m + n + 1)]);
    let a = unsafe {
        match job.rule {
            Rule::Target(target) => knob_sparsify(
                matrix.as_ptr(), m * n, m, n, weights.as_ptr(), m, job.seed, job.edition as u32, target,
                output.as_mut_ptr(), m, numbers.as_mut_ptr(), numbers.len(), indices.as_mut_ptr(), indices.len(),
            ),
            Rule::Within { allowance, cap } => knob_sparsify_within(
                matrix.as_ptr(), m * n, m, n, weights.as_ptr(), m, job.seed, job.edition as u32, allowance, u32::from(cap.is_some()), cap.unwrap_or(99),
                output.as_mut_ptr(), m, numbers.as_mut_ptr(), numbers.len(), indices.as_mut_ptr(), indices.len(),
            ),
        }
    };
    assert_eq!(a.number, 0);
    assert!(numbers.iter().all(|x| x.to_bits() == 0) && indices.iter().all(|x| *x == 0));
    let stage = a.stage as usize;
    let path = (0..=stage).map(|k| (a.path_nonzeros[k] as usize, a.path_change[k])).collect();
    assert!((stage + 1..9).all(|k| a.path_nonzeros[k] == 0 && a.path_change[k].to_bits() == 0));
    let (nonzeros, directions, sweeps) = (a.nonzeros as usize, a.directions as usize, a.sweeps as usize);
    Thinned { weights: output, stage, nonzeros, change: a.change, directions, sweeps, path }
}

/// A small generator for the tests' own choices.
struct Chance(u64);

impl Chance {
    fn word(&mut self) -> u64 {
        self.0 ^= self.0 << 13;
        self.0 ^= self.0 >> 7;
        self.0 ^= self.0 << 17;
        self.0
    }

    fn signed(&mut self) -> f64 {
        (self.word() >> 11) as f64 / 4503599627370496.0 - 1.0
    }

    fn ensemble(&mut self) -> (Vec<Vec<f64>>, Vec<f64>) {
        let (m, n) = (1 + self.word() as usize % 30, 1 + self.word() as usize % 30);
        ((0..m).map(|_| (0..n).map(|_| self.signed()).collect()).collect(), (0..m).map(|_| self.signed()).collect())
    }
}

fn bits(weights: &[f64]) -> Vec<u64> {
    weights.iter().map(|w| w.to_bits()).collect()
}

#[test]
#[cfg(target_arch = "x86_64")]
fn jobs_equal_direct_calls() {
    let mut chance = Chance(1);
    for _ in 0..200 {
        let (columns, weights) = chance.ensemble();
        let seed = chance.word();
        let some = 1 + chance.word() as usize % columns.len();
        let allowance = chance.signed().abs() / 2.0;
        for rule in [Rule::Target(some), Rule::Within { allowance, cap: None }, Rule::Within { allowance, cap: Some(some) }] {
            let job = Job { seed, edition: if seed % 2 == 0 { Edition::First } else { Edition::Second }, rule };
            let (ours, theirs) = (thin(&columns, &weights, job).unwrap(), directly(&columns, &weights, job));
            assert_eq!(bits(&ours.weights), bits(&theirs.weights), "{job:?}");
            assert_eq!((ours.stage, ours.nonzeros, ours.change.to_bits()), (theirs.stage, theirs.nonzeros, theirs.change.to_bits()));
            assert_eq!((ours.directions, ours.sweeps, ours.path), (theirs.directions, theirs.sweeps, theirs.path));
        }
    }
}

#[test]
#[cfg(target_arch = "x86_64")]
fn colorings_equal_direct_calls() {
    let mut chance = Chance(2);
    for _ in 0..100 {
        let (columns, _) = chance.ensemble();
        let (matrix, m, n, seed) = (columns.concat(), columns.len(), columns[0].len(), chance.word());
        let mut output = vec![9; m];
        let (mut numbers, mut indices) = (vec![1.0; m * (n + 1) + m * m + 16 * m + 8 * (n + 1)], vec![1; 8 * (m + n + 1)]);
        let (first, second) = (numbers.as_mut_ptr(), indices.as_mut_ptr());
        let colored = unsafe {
            knob_discrepancy_coloring(
                matrix.as_ptr(),
                m * n,
                m,
                n,
                seed,
                output.as_mut_ptr(),
                m,
                first,
                numbers.len(),
                second,
                indices.len(),
            )
        };
        assert_eq!(colored.number, 0);
        assert!(colored.directions <= 2 * m as u64 && (1..=100).contains(&colored.sweeps));
        assert_eq!(discrepancy_coloring(&columns, seed).as_ref(), Ok(&output));
        let (directions, sweeps) = (colored.directions as usize, colored.sweeps as usize);
        assert_eq!(color(&columns, seed), Ok(Coloring { signs: output, directions, sweeps }));
    }
}

#[test]
fn answers_agree_with_each_other() {
    let mut chance = Chance(3);
    for _ in 0..200 {
        let (columns, weights) = chance.ensemble();
        let seed = chance.word();
        let (some, allowance) = (1 + chance.word() as usize % columns.len(), chance.signed().abs() / 2.0);
        let sum = weights.iter().fold(0.0, |sum, w| sum + w.abs());
        let normalised: Vec<f64> = weights.iter().map(|w| w / sum).collect();
        let cap = if chance.signed() < 0.0 { None } else { Some(some) };
        for rule in [Rule::Target(some), Rule::Within { allowance, cap }] {
            let thinned = thin(&columns, &weights, Job { seed, edition: Edition::First, rule }).unwrap();
            let alone = match rule {
                Rule::Target(target) => sparsify(&columns, &weights, target, seed),
                Rule::Within { allowance, cap } => sparsify_within(&columns, &weights, allowance, cap, seed),
            };
            assert_eq!(alone.as_ref(), Ok(&thinned.weights));
            assert_eq!(thinned.nonzeros, thinned.weights.iter().filter(|w| **w != 0.0).count());
            assert_eq!(max_margin_change(&columns, &normalised, &thinned.weights), Ok(thinned.change));
            assert_eq!(thinned.stage == 0, thinned.nonzeros == normalised.iter().filter(|w| **w != 0.0).count());
            match rule {
                Rule::Target(target) => assert!(thinned.nonzeros <= target),
                // Without a cap the allowance is kept; with one the cap is.
                Rule::Within { allowance, cap } => assert!(cap.map_or(thinned.change <= allowance, |cap| thinned.nonzeros <= cap)),
            }
        }
    }
}

/// A cap that the allowance alone does not meet: the passes go on, and the change says so.
#[test]
fn the_cap_forces_passes() {
    let columns: Vec<Vec<f64>> = (0..32).map(|j| (0..10).map(|i| if (j * 7 + i * 3) % 5 < 3 { 1.0 } else { -1.0 }).collect()).collect();
    let weights = vec![1.0 / 32.0; 32];
    let of =
        |allowance, cap| thin(&columns, &weights, Job { seed: 0, edition: Edition::First, rule: Rule::Within { allowance, cap } }).unwrap();
    let (free, capped, still) = (of(0.01, None), of(0.01, Some(2)), of(0.0, Some(32)));
    assert!(free.change <= 0.01);
    assert!(capped.nonzeros <= 2 && capped.stage > free.stage && capped.change > 0.01);
    // A cap that is met from the start forces nothing.
    assert_eq!(still, of(0.0, None));
    assert_eq!(of(f64::MAX, None).nonzeros, 1);
}

#[test]
fn turned_words_by_hand() {
    let mut chance = Chance(4);
    for _ in 0..200 {
        let (columns, before) = chance.ensemble();
        let after: Vec<f64> = before.iter().map(|_| chance.signed()).collect();
        let margin = |w: &[f64], i: usize| columns.iter().zip(w).fold(0.0, |sum, (column, w)| sum + column[i] * w);
        // Some thresholds are margins, so that they are met exactly.
        let thresholds: Vec<f64> = (0..columns[0].len())
            .map(|i| match chance.word() % 4 {
                0 => margin(&before, i),
                1 => margin(&after, i),
                2 => 0.0,
                _ => chance.signed(),
            })
            .collect();
        let above = |w: &[f64], i: usize| margin(w, i) > thresholds[i];
        let turned = (0..columns[0].len()).filter(|i| above(&before, *i) != above(&after, *i)).count();
        assert_eq!(turned_words(&columns, &before, &after, &thresholds), Ok(turned));
    }
}

#[test]
fn the_original_signatures() {
    let columns = vec![vec![1.0, 1.0], vec![1.0, -1.0]];
    assert_eq!(sparsification::sparsify(&columns, &[-3.0, 1.0], 1, 0), [-1.0, 0.0]);
    assert_eq!(sparsification::sparsify_within(&columns, &[1.0, 3.0], 0.0, Some(1), 0), [0.0, 1.0]);
    assert_eq!(sparsification::max_margin_change(&columns, &[0.5, 0.5], &[1.0, 0.0]), 1.0);
    assert_eq!(sparsification::discrepancy_coloring(&columns, 0).len(), 2);
}

#[test]
#[should_panic(expected = "the target or the cap is 0")]
fn the_original_panics() {
    sparsification::sparsify(&[vec![1.0]], &[1.0], 0, 0);
}
