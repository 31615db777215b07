// needs: knob_gaussian knob_gaussian_2 knob_max_margin_change knob_turned_words
//! The change of margins against the original's, turned words against a second writing of document 02's count, refusals of both
//! against a table written here. Both calls take any doubles, so infinities and NaNs are among them.

#[path = "shared/chance.rs"]
mod chance;
#[path = "shared/draws.rs"]
mod draws;
#[path = "shared/margin_calls.rs"]
mod margin_calls;
#[path = "shared/matrices.rs"]
mod matrices;
#[path = "shared/original.rs"]
mod original;
#[path = "shared/tally.rs"]
mod tally;
#[path = "shared/watch.rs"]
mod watch;

use chance::{count, Chance};
use margin_calls::{knob_max_margin_change, knob_turned_words};
use tally::{end, same, Tally};

struct Call {
    matrix: Vec<f64>,
    m: usize,
    n: usize,
    before: Vec<f64>,
    after: Vec<f64>,
    thresholds: Vec<f64>,
}

impl Call {
    /// Number and change. What is lent for the change starts as noise.
    fn change(&self) -> (u64, f64) {
        let (c, mut change) = (self, 77.0);
        let number = unsafe {
            knob_max_margin_change(
                c.matrix.as_ptr(),
                c.matrix.len(),
                c.m,
                c.n,
                c.before.as_ptr(),
                c.before.len(),
                c.after.as_ptr(),
                c.after.len(),
                &mut change,
            )
        };
        (number, change)
    }

    /// Number and turned words.
    fn turned(&self) -> (u64, u64) {
        let (c, mut count) = (self, 77);
        let number = unsafe {
            knob_turned_words(
                c.matrix.as_ptr(),
                c.matrix.len(),
                c.m,
                c.n,
                c.before.as_ptr(),
                c.before.len(),
                c.after.as_ptr(),
                c.after.len(),
                c.thresholds.as_ptr(),
                c.thresholds.len(),
                &mut count,
            )
        };
        (number, count)
    }

    fn refusal(&self) -> u64 {
        if self.m > 256 || self.n > 4096 {
            3
        } else if self.matrix.len() != self.m * self.n || self.before.len() != self.m || self.after.len() != self.m {
            4
        } else {
            0
        }
    }

    /// Turned words also want a threshold for each row, and each finite.
    fn turned_refusal(&self) -> u64 {
        match self.refusal() {
            0 if self.thresholds.len() != self.n => 4,
            0 if self.thresholds.iter().any(|t| !t.is_finite()) => 8,
            number => number,
        }
    }

    fn margin(&self, i: usize, weights: &[f64]) -> f64 {
        (0..self.m).fold(0.0, |sum, j| sum + self.matrix[j * self.n + i] * weights[j])
    }

    /// The rows whose margin was above the threshold and is not, or is and was not.
    fn turned_rows(&self) -> u64 {
        let above = |i: usize, weights: &[f64]| self.margin(i, weights) > self.thresholds[i];
        (0..self.n).filter(|i| above(*i, &self.before) != above(*i, &self.after)).count() as u64
    }

    fn bits(&self) -> Vec<u64> {
        self.matrix.iter().chain(&self.before).chain(&self.after).chain(&self.thresholds).map(|x| x.to_bits()).collect()
    }

    fn name(&self) -> String {
        format!("{} columns, {} rows", self.m, self.n)
    }
}

/// A finite threshold for a row.
fn threshold(c: &Call, i: usize, chance: &mut Chance) -> f64 {
    let met = match chance.below(6) {
        0 => c.margin(i, &c.before),
        1 => c.margin(i, &c.after),
        2 => 0.0,
        3 => -0.0,
        _ => chance.any(false),
    };
    if met.is_finite() {
        met
    } else {
        0.5
    }
}

fn call(m: usize, n: usize, chance: &mut Chance) -> Call {
    let wild = chance.once_in(5);
    let matrix =
        if wild { (0..m * n).map(|_| chance.any(true)).collect() } else { matrices::matrix(chance.below(matrices::KINDS), m, n, chance) };
    let before: Vec<f64> = (0..m).map(|_| chance.any(wild)).collect();
    // Some weights stay, so that some differences are 0.
    let after = before.iter().map(|w| if chance.once_in(3) { *w } else { chance.any(wild) }).collect();
    let mut c = Call { matrix, m, n, before, after, thresholds: Vec::new() };
    // Thresholds that a margin meets exactly, zeros of both signs, and others.
    c.thresholds = (0..n).map(|i| threshold(&c, i, chance)).collect();
    c
}

fn spoiled(chance: &mut Chance) -> Call {
    let mut c = call(chance.below(8), chance.below(8), chance);
    for _ in 0..chance.between(1, 2) {
        let near = |len: usize, chance: &mut Chance| chance.pick(&[len + 1, len.saturating_sub(1), 0, 2 * len + 3]);
        match chance.below(7) {
            0 => c.m = chance.pick(&[257, usize::MAX, 1 << 63]),
            1 => c.n = chance.pick(&[4097, usize::MAX, 1 << 61]),
            2 => c.matrix.resize(near(c.matrix.len(), chance), 0.5),
            3 => c.before.resize(near(c.before.len(), chance), 0.5),
            4 => c.after.resize(near(c.after.len(), chance), 0.5),
            5 => c.thresholds.resize(near(c.thresholds.len(), chance), 0.5),
            _ => {
                let at = chance.below(c.thresholds.len().max(1));
                if let Some(t) = c.thresholds.get_mut(at) {
                    *t = chance.pick(&[f64::NAN, f64::INFINITY, f64::NEG_INFINITY]);
                }
            }
        }
    }
    c
}

fn main() {
    let mut chance = Chance::new("margins", 4);
    let (mut changes, mut words) = (Tally::new("change"), Tally::new("turned words"));
    let (mut inputs, mut refusals) = (Tally::new("change and turned words, inputs kept"), Tally::new("change and turned words, refusals"));
    let mut sizes: Vec<(usize, usize)> = (0..=12).flat_map(|m| (0..=12).map(move |n| (m, n))).collect();
    sizes.extend([(0, 4096), (256, 0), (1, 4096), (256, 1), (256, 4096), (3, 63), (3, 64), (3, 65), (3, 127), (3, 128), (3, 129)]);
    (0..count(9_000)).for_each(|_| sizes.push((chance.below(20), chance.below(80))));
    (0..count(900)).for_each(|_| sizes.push((chance.below(100), chance.below(400))));
    (0..count(20)).for_each(|_| sizes.push((chance.between(100, 256), chance.between(1000, 4096))));
    for (m, n) in sizes {
        let c = call(m, n, &mut chance);
        let given = c.bits();
        let (number, change) = c.change();
        let expected = original::max_margin_change(&matrices::columns(&c.matrix, m, n), &c.before, &c.after);
        changes.note(number == 0 && same(change, expected), || format!("{}: {number}, {change:e}, expected {expected:e}", c.name()));
        let (number, turned) = c.turned();
        words.note(number == 0 && turned == c.turned_rows(), || format!("{}: {number}, {turned}, expected {}", c.name(), c.turned_rows()));
        inputs.note(c.bits() == given, || c.name());
    }
    for _ in 0..count(4_000) {
        let c = spoiled(&mut chance);
        let expected = (c.refusal(), c.turned_refusal());
        let ((first, change), (second, turned)) = (c.change(), c.turned());
        let right = (first, second) == expected && (first == 0 || change.to_bits() == 0) && (second == 0 || turned == 0);
        refusals.note(right, || format!("{}: {first} and {second}, expected {expected:?}; {change} and {turned}", c.name()));
    }
    end(&[&changes, &words, &inputs, &refusals])
}
