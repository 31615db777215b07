// needs: knob_moved knob_moved_again
//! Times of the list of which word moved, in one run: a plain Rust of the same work with the library's sort, the list built anew, and the
//! list brought up to date from the list of an earlier stage. Each time is the best of several rounds, in which the sides take turns.
//! The plain Rust does the tests too, and where it goes on from an index it sorts that index.

#[path = "shared/chance.rs"]
mod chance;
#[path = "shared/moved_calls.rs"]
mod moved_calls;
#[path = "shared/plain_moved.rs"]
mod plain_moved;

use chance::Chance;
use std::hint::black_box;
use std::time::Instant;

const ROUNDS: usize = 40;
const CALLS: usize = 8;

struct Job {
    matrix: Vec<f64>,
    m: usize,
    n: usize,
    before: Vec<f64>,
    after: Vec<f64>,
    /// What the index holds at the start of each call.
    held: Vec<u32>,
}

impl Job {
    fn plain(&self, rows: &mut [u32], changes: &mut [f64], again: bool) {
        assert!(plain_moved::within_one(&self.matrix) && plain_moved::within_one(&self.before) && plain_moved::within_one(&self.after));
        let by_row = plain_moved::changes_of(&self.matrix, self.n, &self.before, &self.after);
        if !again {
            (0..self.n).for_each(|i| rows[i] = i as u32);
        }
        plain_moved::sort(rows, &by_row);
        rows.iter().zip(changes).for_each(|(row, change)| *change = by_row[*row as usize]);
    }

    fn ours(&self, rows: &mut [u32], changes: &mut [f64], again: bool) {
        let call = if again { moved_calls::knob_moved_again } else { moved_calls::knob_moved };
        let number = unsafe {
            call(
                self.matrix.as_ptr(),
                self.matrix.len(),
                self.m,
                self.n,
                self.before.as_ptr(),
                self.m,
                self.after.as_ptr(),
                self.m,
                rows.as_mut_ptr(),
                rows.len(),
                changes.as_mut_ptr(),
                changes.len(),
            )
        };
        assert_eq!(number, 0, "a list is accepted");
    }

    /// The best time of one call: plain anew, plain from the index, ours anew, ours again.
    fn times(&self) -> [f64; 4] {
        let (mut rows, mut changes) = (self.held.clone(), vec![0.0; self.n]);
        let mut best = [f64::INFINITY; 4];
        for _ in 0..ROUNDS {
            for (side, time) in best.iter_mut().enumerate() {
                let mut spent = 0.0;
                for _ in 0..CALLS {
                    rows.copy_from_slice(&self.held);
                    let start = Instant::now();
                    match side {
                        0 => self.plain(&mut rows, &mut changes, false),
                        1 => self.plain(&mut rows, &mut changes, true),
                        2 => self.ours(&mut rows, &mut changes, false),
                        _ => self.ours(&mut rows, &mut changes, true),
                    }
                    spent += start.elapsed().as_secs_f64();
                    black_box((&rows, &changes));
                }
                *time = time.min(spent / CALLS as f64);
            }
        }
        best
    }

    fn line(&self, name: &str) {
        let [plain, plain_again, anew, again] = self.times().map(|t| t * 1e6);
        println!(
            "{:<10} {name:<28} {plain:>10.1} {plain_again:>10.1} {anew:>10.1} {again:>10.1} {:>7.2} {:>7.2}",
            format!("{}x{}", self.m, self.n),
            plain / anew,
            anew / again
        );
    }
}

/// Weights of which some have gone.
fn thinner(weights: &[f64], once_in: usize, chance: &mut Chance) -> Vec<f64> {
    weights.iter().map(|w| if chance.once_in(once_in) { 0.0 } else { *w }).collect()
}

fn main() {
    let mut chance = Chance::new("moved_bench", 8);
    println!(
        "{:<10} {:<28} {:>10} {:>10} {:>10} {:>10} {:>7} {:>7}",
        "us a call", "the index held", "plain", "from it", "anew", "again", "ratio", "gain"
    );
    for (m, n) in [(8, 16), (32, 64), (60, 500), (60, 2000), (1, 4096), (256, 4096)] {
        let matrix: Vec<f64> = (0..m * n).map(|_| chance.signed()).collect();
        let before: Vec<f64> = (0..m).map(|_| chance.signed() / m as f64).collect();
        let after = thinner(&before, 2, &mut chance);
        let mut job = Job { matrix, m, n, before, after, held: (0..n as u32).collect() };
        job.line("0, 1, ..");
        let changes = plain_moved::changes_of(&job.matrix, n, &job.before, &job.after);
        plain_moved::sort(&mut job.held, &changes);
        job.line("the right list");
        let right = job.held.clone();
        for exchanges in [1, 8, 16, 20, 40] {
            job.held.copy_from_slice(&right);
            (0..exchanges).for_each(|_| job.held.swap(chance.below(n), chance.below(n)));
            job.line(&format!("{exchanges} pairs exchanged"));
        }
        job.held.copy_from_slice(&right);
        for _ in 0..20 {
            let at = chance.below(n - 1);
            job.held.swap(at, at + 1);
        }
        job.line("20 neighbours exchanged");
        // One more weight goes, a small one.
        job.held.copy_from_slice(&right);
        let gone = (0..m).find(|j| job.after[*j] != 0.0).unwrap_or(0);
        job.after[gone] *= 1.0 - 1e-6;
        job.line("one weight changed a little");
        job.held = vec![0; n];
        job.line("zeros");
    }
}
