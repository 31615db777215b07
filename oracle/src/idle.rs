// needs: knob_gaussian knob_gaussian_2
//! Looks for a step that freezes nothing in the original's colourings, a million of them, with tiny weights and tiny entries among
//! them. Where a colouring has at most 60 columns, or no entry below 2^-480 but zeros, it is proved that there is none: one found
//! there differs. The others are told: what froze nothing, where a NaN arose, and how large a direction became.

#[path = "shared/chance.rs"]
mod chance;
#[path = "shared/draws.rs"]
mod draws;
#[path = "shared/matrices.rs"]
mod matrices;
#[path = "shared/original.rs"]
mod original;
#[path = "shared/tally.rs"]
mod tally;
#[path = "shared/watch.rs"]
mod watch;

use chance::{count, Chance};
use std::panic::{catch_unwind, AssertUnwindSafe};
use tally::{end, Tally};

/// What was seen in some colourings.
#[derive(Default)]
struct Sum {
    colourings: u64,
    directions: u64,
    froze_nothing: u64,
    nan: u64,
    largest: f64,
}

impl Sum {
    fn tell(&self, which: &str) {
        println!(
            "{which}: {} colourings, {} directions; a step froze nothing in {}, a NaN arose in {}; the largest entry of a direction was {:.3e}",
            self.colourings, self.directions, self.froze_nothing, self.nan, self.largest
        );
    }
}

/// Every step of the colouring is proved to get somewhere.
fn proved(matrix: &[f64], m: usize) -> bool {
    m <= 60 || matrix.iter().all(|a| *a == 0.0 || a.abs() >= 2f64.powi(-480))
}

/// The columns of a colouring in a pass: margins times weights over the heaviest, and the row of these under them.
fn as_in_a_pass(m: usize, n: usize, chance: &mut Chance) -> Vec<f64> {
    let margins = matrices::matrix(chance.below(matrices::MARGIN_KINDS), m, n - 1, chance);
    let lowest = chance.pick(&[1, 20, 160, 162, 170, 300]);
    let scales: Vec<f64> = (0..m).map(|_| chance.sign() * (1.0 + chance.unit()) * 10f64.powi(-(chance.below(lowest) as i32))).collect();
    (0..m * n).map(|k| if k % n == n - 1 { scales[k / n].abs() } else { margins[k / n * (n - 1) + k % n] * scales[k / n] }).collect()
}

fn dot(a: &[f64], b: &[f64]) -> f64 {
    a.iter().zip(b).map(|(x, y)| x * y).sum()
}

/// A vector after both passes over a basis.
fn projected(basis: &[Vec<f64>], v: &[f64]) -> Vec<f64> {
    basis.iter().chain(basis).fold(v.to_vec(), |w, q| {
        let c = dot(q, &w);
        w.iter().zip(q).map(|(x, y)| x - c * y).collect()
    })
}

/// Rows made to be projected badly. Each has a place of its own, whose square is all that its norm sees, and on the places that all
/// share just so much that what projection leaves there is as large as it can be without being seen. So each vector of the basis
/// is several times as long as it should be, and all of them along one line. More rows than these bring no more.
fn amplifying(m: usize, n: usize, chance: &mut Chance) -> Vec<f64> {
    let (seen, unseen) = (1.6e-162, 1.55e-162);
    let rows = n.min(m / 10);
    let shared = m - rows;
    let shape: Vec<f64> = (0..m).map(|j| if j < shared { 0.9 + 0.1 * chance.unit() } else { 0.0 }).collect();
    let mut basis: Vec<Vec<f64>> = Vec::new();
    let mut matrix = vec![0.0; m * n];
    for i in 0..rows {
        let grown = projected(&basis, &shape).iter().fold(0.0, |most: f64, x| most.max(x.abs()));
        let mut row: Vec<f64> = shape.iter().map(|x| x * (unseen / grown)).collect();
        row[shared + i] = seen;
        let rest = projected(&basis, &row);
        let norm = dot(&rest, &rest).sqrt();
        basis.push(rest.iter().map(|x| x / norm).collect());
        row.iter().enumerate().for_each(|(j, x)| matrix[j * n + i] = *x);
    }
    matrix
}

fn main() {
    let mut chance = Chance::new("idle", 9);
    let (mut inside, mut outside) = (Sum::default(), Sum::default());
    let mut tally = Tally::new("idle");
    std::panic::set_hook(Box::new(|_| {}));
    let mut run = |matrix: Vec<f64>, m: usize, n: usize, seed: u64| {
        let columns = matrices::columns(&matrix, m, n);
        watch::start(false);
        // A colouring that goes on drawing without end is broken off by a panic; then a step froze nothing.
        let _ = catch_unwind(AssertUnwindSafe(|| original::discrepancy_coloring(&columns, seed)));
        let (seen, fine) = (watch::seen(), proved(&matrix, m));
        let sum = if fine { &mut inside } else { &mut outside };
        sum.colourings += 1;
        sum.directions += seen.directions;
        sum.froze_nothing += u64::from(seen.froze_nothing);
        sum.nan += u64::from(seen.nan);
        sum.largest = sum.largest.max(seen.largest);
        if fine {
            tally.note(!seen.froze_nothing, || format!("{m} columns, {n} rows, seed {seed:016X}"));
        }
    };
    for (how_many, columns, rows) in [(880_000, 12, 12), (100_000, 24, 24), (17_000, 60, 40), (2_600, 160, 80), (400, 256, 160)] {
        for _ in 0..count(how_many) {
            let (m, n) = (chance.between(columns / 4 + 1, columns), chance.between(1, rows));
            let matrix = match chance.below(4) {
                0 => matrices::matrix(chance.below(matrices::KINDS), m, n, &mut chance),
                1 => matrices::matrix(matrices::VANISHING, m, n, &mut chance),
                2 => amplifying(m, n, &mut chance),
                _ => as_in_a_pass(m, n, &mut chance),
            };
            run(matrix, m, n, chance.seed());
        }
    }
    inside.tell("where it is proved");
    outside.tell("elsewhere");
    end(&[&tally])
}
