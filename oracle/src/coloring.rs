// needs: knob_gaussian knob_gaussian_2 knob_discrepancy_coloring
//! Colourings: the archive's against the original's with our draw, and every refusal against a table written here. Output, scratch
//! and what lies beside them are compared element by element.

#[path = "shared/chance.rs"]
mod chance;
#[path = "shared/coloring_call.rs"]
mod coloring_call;
#[path = "shared/domain.rs"]
mod domain;
#[path = "shared/draws.rs"]
mod draws;
#[path = "shared/lent.rs"]
mod lent;
#[path = "shared/matrices.rs"]
mod matrices;
#[path = "shared/original.rs"]
mod original;
#[path = "shared/tally.rs"]
mod tally;
#[path = "shared/watch.rs"]
mod watch;

use chance::{count, zero_at, Chance};
use coloring_call::Colored;
use domain::{Domain, Expected};
use lent::{scratch_sizes, Lent, Scratch};
use tally::{end, Tally};

/// What a call is given, and what it leaves.
struct Call {
    matrix: Vec<f64>,
    m: usize,
    n: usize,
    seed: u64,
    output: Lent<i8>,
    scratch: Scratch,
}

impl Call {
    /// A call that has all the room it needs.
    fn new(matrix: Vec<f64>, m: usize, n: usize, chance: &mut Chance) -> Call {
        let output = Lent::new(m, || chance.word() as i8);
        Call { matrix, m, n, seed: chance.seed(), output, scratch: Scratch::enough(m, n, chance) }
    }

    fn make(&mut self) -> Colored {
        let mut answer = Colored::noise();
        let (output, numbers, indices) = (self.output.len(), self.scratch.numbers.len(), self.scratch.indices.len());
        unsafe {
            coloring_call::knob_discrepancy_coloring(
                &mut answer,
                self.matrix.as_ptr(),
                self.matrix.len(),
                self.m,
                self.n,
                self.seed,
                self.output.lend(),
                output,
                self.scratch.numbers.lend().cast(),
                numbers,
                self.scratch.indices.lend(),
                indices,
            );
        }
        answer
    }

    /// Document 01's table for a colouring.
    fn refusal(&self) -> u64 {
        let (numbers, indices) = scratch_sizes(self.m, self.n);
        let entry_fits = |a: &f64| a.is_finite() && a.abs() <= 4294967296.0;
        if self.m > 256 || self.n > 4096 {
            3
        } else if self.matrix.len() != self.m * self.n || self.output.len() != self.m {
            4
        } else if (self.scratch.numbers.len() as u128) < numbers || (self.scratch.indices.len() as u128) < indices {
            6
        } else if !self.matrix.iter().all(entry_fits) {
            11
        } else {
            0
        }
    }

    fn name(&self) -> String {
        format!("{} columns, {} rows, seed {:016X}", self.m, self.n, self.seed)
    }
}

struct Comparison {
    domain: Domain,
    answers: Tally,
    outside: Tally,
    scratch: Tally,
    inputs: Tally,
    broken_off: Tally,
    refusals: Tally,
}

impl Comparison {
    fn accepted(&mut self, mut call: Call) {
        let given: Vec<u64> = call.matrix.iter().map(|a| a.to_bits()).collect();
        let columns = matrices::columns(&call.matrix, call.m, call.n);
        let expected = self.domain.expect(|| original::discrepancy_coloring(&columns, call.seed));
        let seen = watch::seen();
        let a = call.make();
        let counted = a.number == 0 && a.directions == seen.directions && a.sweeps == seen.sweeps;
        let name = || format!("{}: {a:?}, expected {} directions, {} sweeps", call.name(), seen.directions, seen.sweeps);
        let (colors, tally) = match expected {
            Expected::Original(colors) => (colors, &mut self.answers),
            Expected::Document(colors) => (colors, &mut self.outside),
        };
        let right = counted && call.output.content() == colors;
        tally.note(right, name);
        if seen.broken_off > 0 {
            self.broken_off.note(right, name);
        }
        self.scratch.note(call.scratch.wiped() && call.output.fenced(), || call.name());
        self.inputs.note(call.matrix.iter().map(|a| a.to_bits()).eq(given), || call.name());
    }

    fn refused(&mut self, mut call: Call) {
        let expected = call.refusal();
        let a = call.make();
        let zeros = a.directions == 0 && a.sweeps == 0;
        let kept = if expected == 0 { call.scratch.wiped() } else { zeros && call.output.untouched() && call.scratch.untouched() };
        self.refusals.note(a.number == expected && kept, || format!("{}: {a:?}, expected {expected}, the rest right: {kept}", call.name()));
    }
}

/// Sizes from the smallest to the largest, few of the largest.
fn sizes(chance: &mut Chance) -> Vec<(usize, usize)> {
    let mut sizes: Vec<(usize, usize)> = (0..=20).flat_map(|m| (0..=20).map(move |n| (m, n))).collect();
    sizes.extend([
        (0, 4096),
        (256, 0),
        (1, 4096),
        (256, 1),
        (256, 2),
        (2, 4096),
        (255, 64),
        (256, 64),
        (256, 256),
        (60, 500),
        (60, 2000),
        (256, 4096),
    ]);
    let mut some = |how_many: usize, m: usize, n: usize| {
        (0..count(how_many)).for_each(|_| sizes.push((chance.between(0, m), chance.between(0, n))));
    };
    some(3000, 24, 40);
    some(1500, 64, 96);
    some(150, 128, 256);
    some(60, 256, 256);
    some(30, 100, 1500);
    some(5, 256, 4096);
    sizes
}

/// One fault or two in a call that would otherwise be accepted.
fn spoil(mut call: Call, chance: &mut Chance) -> Call {
    for _ in 0..chance.between(1, 2) {
        let near = |len: usize, chance: &mut Chance| chance.pick(&[len + 1, len.saturating_sub(1), 0, 2 * len + 3]);
        match chance.below(8) {
            0 => call.m = chance.pick(&[257, 300, usize::MAX, 1 << 32, 1 << 63]),
            1 => call.n = chance.pick(&[4097, 5000, usize::MAX, 1 << 32, 1 << 61]),
            2 => call.matrix.resize(near(call.matrix.len(), chance), 0.5),
            3 => call.output = Lent::new(near(call.output.len(), chance), || 7),
            4 | 5 => {
                let (numbers, indices) = (call.scratch.numbers.len(), call.scratch.indices.len());
                call.scratch =
                    Scratch::new(if chance.once_in(2) { numbers.saturating_sub(chance.between(1, 50)) } else { numbers }, indices, chance);
                if chance.once_in(2) {
                    call.scratch = Scratch::new(numbers, indices.saturating_sub(chance.between(1, 20)), chance);
                }
            }
            _ if !call.matrix.is_empty() => {
                let at = chance.below(call.matrix.len());
                let beyond = f64::from_bits(4294967296f64.to_bits() + 1);
                call.matrix[at] =
                    chance.pick(&[f64::NAN, -f64::NAN, f64::INFINITY, f64::NEG_INFINITY, beyond, -beyond, 1e300, 4294967296.0]);
            }
            _ => {}
        }
    }
    call
}

fn main() {
    let mut chance = Chance::new("coloring", 2);
    let mut all = Comparison {
        domain: Domain::new(),
        answers: Tally::new("coloring"),
        outside: Tally::rare("coloring, outside the domain"),
        scratch: Tally::new("coloring, scratch wiped"),
        inputs: Tally::new("coloring, inputs kept"),
        broken_off: Tally::new("coloring, a direction broken off"),
        refusals: Tally::new("coloring, refusals"),
    };
    for (m, n) in sizes(&mut chance) {
        let kind = chance.below(matrices::KINDS);
        let matrix = matrices::matrix(kind, m, n, &mut chance);
        all.accepted(Call::new(matrix, m, n, &mut chance));
    }
    for (m, n) in (1..=6).flat_map(|m| (0..=6).map(move |n| (m, n))) {
        // An early Gaussian is a zero: a direction with nothing beside it is broken off, and a phase that froze nothing is rounded.
        for early in 0..12 {
            let matrix = matrices::matrix(2, m, n, &mut chance);
            all.accepted(Call { seed: zero_at(early), ..Call::new(matrix, m, n, &mut chance) });
        }
    }
    for _ in 0..count(100) {
        // Large ones of the kind in which a NaN can arise.
        let (m, n) = (chance.between(32, 256), chance.between(16, 128));
        let matrix = matrices::matrix(matrices::VANISHING, m, n, &mut chance);
        all.accepted(Call::new(matrix, m, n, &mut chance));
    }
    for _ in 0..count(4000) {
        let (m, n) = (chance.between(0, 12), chance.between(0, 12));
        let matrix = matrices::matrix(chance.below(matrices::KINDS), m, n, &mut chance);
        let call = Call::new(matrix, m, n, &mut chance);
        all.refused(spoil(call, &mut chance));
    }
    for (m, n) in [(257, 1), (1, 4097), (257, 4097), (256, 4096), (0, 4097), (257, 0)] {
        let matrix = matrices::matrix(0, m, n, &mut chance);
        all.refused(Call::new(matrix, m, n, &mut chance));
    }
    all.domain.tell();
    end(&[&all.answers, &all.outside, &all.scratch, &all.inputs, &all.broken_off, &all.refusals])
}
