//! Colourings from bits, beside those of the doubles that the bits stand for.

use crate::bits_calls::knob_discrepancy_coloring_bits;
use crate::chance::{count, zero_at, Chance};
use crate::coloring_call::{knob_discrepancy_coloring, Colored};
use crate::domain::{Domain, Expected};
use crate::lent::{scratch_sizes, Lent, Scratch};
use crate::packed::{expanded, set_spares, spare_set, stride, votes};
use crate::tally::Tally;
use crate::{draws, matrices, original, watch};

/// What a call is given, and what it leaves.
struct Call {
    bits: Lent<u8>,
    m: usize,
    n: usize,
    seed: u64,
    output: Lent<i8>,
    scratch: Scratch,
}

impl Call {
    /// A call that has all the room it needs.
    fn new(bits: &[u8], m: usize, n: usize, seed: u64, chance: &mut Chance) -> Call {
        let bits = Lent::holding(bits, || chance.word() as u8);
        let output = Lent::new(m, || chance.word() as i8);
        Call { bits, m, n, seed, output, scratch: Scratch::enough(m, n, chance) }
    }

    /// From the bits, or from doubles where they are given.
    fn make(&mut self, doubles: Option<&[f64]>) -> Colored {
        let mut answer = Colored::noise();
        let (output_len, numbers_len, indices_len) = (self.output.len(), self.scratch.numbers.len(), self.scratch.indices.len());
        let (output, numbers, indices) = (self.output.lend(), self.scratch.numbers.lend() as *mut f64, self.scratch.indices.lend());
        let (bits, bits_len) = (self.bits.lend() as *const u8, self.bits.len());
        let (m, n, seed) = (self.m, self.n, self.seed);
        #[rustfmt::skip]
        unsafe {
            match doubles {
                None => knob_discrepancy_coloring_bits(
                    &mut answer, bits, bits_len, m, n, seed, output, output_len, numbers, numbers_len, indices, indices_len,
                ),
                Some(matrix) => knob_discrepancy_coloring(
                    &mut answer, matrix.as_ptr(), matrix.len(), m, n, seed, output, output_len, numbers, numbers_len, indices, indices_len,
                ),
            }
        };
        answer
    }

    /// The table of refusals, the first that applies.
    fn refusal(&self) -> u64 {
        let (numbers, indices) = scratch_sizes(self.m, self.n);
        if self.m > 256 || self.n > 4096 {
            3
        } else if self.bits.len() != self.m * stride(self.n) || self.output.len() != self.m {
            4
        } else if (self.scratch.numbers.len() as u128) < numbers || (self.scratch.indices.len() as u128) < indices {
            6
        } else if spare_set(self.bits.content(), self.m, self.n) {
            15
        } else {
            0
        }
    }

    fn name(&self) -> String {
        format!("{} columns, {} rows, seed {:016X}", self.m, self.n, self.seed)
    }
}

pub struct Colorings {
    domain: Domain,
    answers: Tally,
    outside: Tally,
    doubles: Tally,
    fences: Tally,
    inputs: Tally,
    refusals: Tally,
}

impl Colorings {
    pub fn new() -> Colorings {
        Colorings {
            domain: Domain::new(),
            answers: Tally::new("bits, colouring"),
            outside: Tally::rare("bits, colouring outside the domain"),
            doubles: Tally::new("bits, the same colourings in doubles"),
            fences: Tally::new("bits, colouring, scratch wiped and nothing beside a list touched"),
            inputs: Tally::new("bits, colouring, inputs kept"),
            refusals: Tally::new("bits, colouring, refusals"),
        }
    }

    pub fn tallies(&self) -> [&Tally; 6] {
        [&self.answers, &self.outside, &self.doubles, &self.fences, &self.inputs, &self.refusals]
    }

    pub fn tell(&self) {
        self.domain.tell();
    }

    fn accepted(&mut self, m: usize, n: usize, seed: u64, chance: &mut Chance) {
        let bits = votes(m, n, chance);
        let matrix = expanded(&bits, m, n);
        let columns = matrices::columns(&matrix, m, n);
        draws::by_edition(1);
        let (colors, inside) = match self.domain.expect(|| original::discrepancy_coloring(&columns, seed)) {
            Expected::Original(colors) => (colors, true),
            Expected::Document(colors) => (colors, false),
        };
        let seen = watch::seen();
        for doubles in [None, Some(&matrix[..])] {
            let mut call = Call::new(&bits, m, n, seed, chance);
            let a = call.make(doubles);
            let name = || format!("{}: {a:?}, expected {} directions, {} sweeps", call.name(), seen.directions, seen.sweeps);
            let tally = match doubles {
                Some(_) => &mut self.doubles,
                None if inside => &mut self.answers,
                None => &mut self.outside,
            };
            let counted = a.number == 0 && a.directions == seen.directions && a.sweeps == seen.sweeps;
            tally.note(counted && call.output.content() == colors, name);
            self.fences.note(call.scratch.wiped() && call.output.fenced(), name);
            self.inputs.note(call.bits.untouched(), name);
        }
    }

    fn refused(&mut self, mut call: Call) {
        let expected = call.refusal();
        let a = call.make(None);
        let zeros = a.directions == 0 && a.sweeps == 0;
        let kept = if expected == 0 { call.scratch.wiped() } else { zeros && call.output.untouched() && call.scratch.untouched() };
        let right = a.number == expected && kept && call.bits.untouched();
        self.refusals.note(right, || format!("{}: {a:?}, expected {expected}, the rest right: {kept}", call.name()));
    }

    pub fn all(&mut self, chance: &mut Chance) {
        for (n, _) in (0..=70).flat_map(|n| (0..count(12)).map(move |k| (n, k))) {
            let (m, seed) = (chance.below(25), chance.seed());
            self.accepted(m, n, seed, chance);
        }
        for (how_many, m, n) in [(500, 64, 96), (20, 128, 260), (10, 100, 1500), (2, 256, 4096)] {
            for _ in 0..count(how_many) {
                let (m, n, seed) = (chance.between(0, m), chance.between(0, n), chance.seed());
                self.accepted(m, n, seed, chance);
            }
        }
        for (m, n) in [(0, 4096), (256, 0), (1, 4096), (256, 1), (2, 4095), (255, 64), (256, 256), (60, 500)] {
            let seed = chance.seed();
            self.accepted(m, n, seed, chance);
        }
        for (m, n, early) in (1..=6).flat_map(|m| [0, 1, 7, 8, 9].map(|n| (m, n))).flat_map(|(m, n)| (0..12).map(move |e| (m, n, e))) {
            // An early Gaussian is a zero: a direction with nothing beside it is broken off.
            self.accepted(m, n, zero_at(early), chance);
        }
        for _ in 0..count(4000) {
            let call = spoiled(chance);
            self.refused(call);
        }
        for (m, n) in [(257, 1), (1, 4097), (257, 4097), (256, 4096), (0, 4097), (257, 0)] {
            let bits = votes(m, n, chance);
            let call = Call::new(&bits, m, n, 1, chance);
            self.refused(call);
        }
    }
}

/// One fault or two in a call that would otherwise be accepted.
fn spoiled(chance: &mut Chance) -> Call {
    let (m, n) = (chance.between(0, 12), chance.between(0, 20));
    let mut bits = votes(m, n, chance);
    let (mut columns, mut rows, mut output) = (m, n, m);
    let (numbers, indices) = scratch_sizes(m, n);
    let (mut numbers, mut indices) = (numbers as usize, indices as usize);
    for _ in 0..chance.between(1, 2) {
        let near = |len: usize, chance: &mut Chance| chance.pick(&[len + 1, len.saturating_sub(1), 0, 2 * len + 3]);
        match chance.below(8) {
            0 => columns = chance.pick(&[257, 300, usize::MAX, 1 << 32, 1 << 63]),
            1 => rows = chance.pick(&[4097, 5000, usize::MAX, 1 << 32, 1 << 61]),
            2 => bits.resize(near(bits.len(), chance), 0),
            3 => output = near(output, chance),
            4 => numbers = numbers.saturating_sub(chance.between(1, 50)),
            5 => indices = indices.saturating_sub(chance.between(1, 20)),
            _ => set_spares(&mut bits, m, n, chance),
        }
    }
    Call {
        bits: Lent::holding(&bits, || chance.word() as u8),
        m: columns,
        n: rows,
        seed: chance.seed(),
        output: Lent::new(output, || chance.word() as i8),
        scratch: Scratch::new(numbers, indices, chance),
    }
}
