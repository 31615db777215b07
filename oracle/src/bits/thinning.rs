//! Thinnings from bits: each job by its own call and by the one that names its rule, and by the call on the doubles that the bits stand for.

use crate::bits_calls::{knob_sparsify_bits, knob_sparsify_within_bits, knob_thin_bits};
use crate::chance::{count, zero_at, Chance};
use crate::domain::{Domain, Expected};
use crate::faces;
use crate::jobs::{by_stages, Ensemble, Rule, Said};
use crate::lent::{scratch_sizes, Lent, Scratch};
use crate::matrices;
use crate::packed::{expanded, packed, set_spares, spare_set, stride, votes};
use crate::tally::{same, Tally};
use crate::thinning_calls::{knob_sparsify, knob_sparsify_within, Answer};

/// What a call is handed.
struct Call {
    bits: Vec<u8>,
    m: usize,
    n: usize,
    weights: Vec<f64>,
    seed: u64,
    edition: u32,
    rule: u32,
    allowance: f64,
    limit: usize,
}

/// How many places are lent.
#[derive(Clone, Copy)]
struct Sizes {
    output: usize,
    numbers: usize,
    indices: usize,
}

impl Sizes {
    fn exact(m: usize, n: usize) -> Sizes {
        let (numbers, indices) = scratch_sizes(m, n);
        Sizes { output: m, numbers: numbers as usize, indices: indices as usize }
    }
}

/// All that is lent, between guards; doubles by their bits.
struct Room {
    bits: Lent<u8>,
    weights: Lent<u64>,
    output: Lent<u64>,
    scratch: Scratch,
}

impl Room {
    fn new(c: &Call, sizes: Sizes, chance: &mut Chance) -> Room {
        let weights: Vec<u64> = c.weights.iter().map(|w| w.to_bits()).collect();
        Room {
            bits: Lent::holding(&c.bits, || chance.word() as u8),
            weights: Lent::holding(&weights, || chance.word()),
            output: Lent::new(sizes.output, || chance.word()),
            scratch: Scratch::new(sizes.numbers, sizes.indices, chance),
        }
    }

    fn inputs_kept(&self) -> bool {
        self.bits.untouched() && self.weights.untouched()
    }

    fn untouched(&self) -> bool {
        self.output.untouched() && self.scratch.untouched()
    }

    fn holds(&self, weights: &[f64]) -> bool {
        self.output.content().iter().copied().eq(weights.iter().map(|w| w.to_bits()))
    }
}

/// By which call a job is done.
#[derive(Clone, Copy, Debug, PartialEq)]
enum By {
    /// The one that names its rule by a number.
    Number,
    /// The one of its rule.
    Rule,
    /// That one, on doubles.
    Doubles,
}

fn make(c: &Call, by: By, room: &mut Room) -> Answer {
    let mut answer = Answer::noise();
    let (bits, bits_len) = (room.bits.lend() as *const u8, room.bits.len());
    let (weights, weights_len) = (room.weights.lend() as *const f64, room.weights.len());
    let (output, output_len) = (room.output.lend() as *mut f64, room.output.len());
    let (numbers, numbers_len) = (room.scratch.numbers.lend() as *mut f64, room.scratch.numbers.len());
    let (indices, indices_len) = (room.scratch.indices.lend(), room.scratch.indices.len());
    let (m, n, seed, edition, allowance, limit) = (c.m, c.n, c.seed, c.edition, c.allowance, c.limit);
    let (target, capped) = (c.rule == 0, u32::from(c.rule == 2));
    let matrix = if by == By::Doubles { expanded(&c.bits, m, n) } else { Vec::new() };
    #[rustfmt::skip]
    unsafe {
        match by {
            By::Number => knob_thin_bits(
                &mut answer, bits, bits_len, m, n, weights, weights_len, seed, edition, c.rule, allowance, limit,
                output, output_len, numbers, numbers_len, indices, indices_len,
            ),
            By::Rule if target => knob_sparsify_bits(
                &mut answer, bits, bits_len, m, n, weights, weights_len, seed, edition, limit,
                output, output_len, numbers, numbers_len, indices, indices_len,
            ),
            By::Rule => knob_sparsify_within_bits(
                &mut answer, bits, bits_len, m, n, weights, weights_len, seed, edition, allowance, capped, limit,
                output, output_len, numbers, numbers_len, indices, indices_len,
            ),
            By::Doubles if target => knob_sparsify(
                &mut answer, matrix.as_ptr(), matrix.len(), m, n, weights, weights_len, seed, edition, limit,
                output, output_len, numbers, numbers_len, indices, indices_len,
            ),
            By::Doubles => knob_sparsify_within(
                &mut answer, matrix.as_ptr(), matrix.len(), m, n, weights, weights_len, seed, edition, allowance, capped, limit,
                output, output_len, numbers, numbers_len, indices, indices_len,
            ),
        }
    };
    answer
}

impl Call {
    /// A number that names no rule is a target of 0.
    fn rule(&self) -> Rule {
        match self.rule {
            0 => Rule::Target(self.limit),
            1 => Rule::Within(self.allowance, None),
            2 => Rule::Within(self.allowance, Some(self.limit)),
            _ => Rule::Target(0),
        }
    }

    /// The calls that can be made: a number that names no rule has no other.
    fn ways(&self) -> &'static [By] {
        if self.rule > 2 {
            &[By::Number]
        } else {
            &[By::Number, By::Rule]
        }
    }

    /// The table of refusals, the first that applies.
    fn refusal(&self, sizes: Sizes) -> u64 {
        let (enough_numbers, enough_indices) = scratch_sizes(self.m, self.n);
        let within = self.rule == 1 || self.rule == 2;
        let sum = self.weights.iter().fold(0.0, |sum, w| sum + w.abs());
        let bytes = self.m as u128 * stride(self.n) as u128;
        let fits = self.bits.len() as u128 == bytes;
        let table = [
            (1, within && (self.allowance.is_nan() || self.allowance < 0.0)),
            (12, within && self.allowance == f64::INFINITY),
            (2, self.rule > 2 || self.rule != 1 && self.limit == 0),
            (13, self.edition != 1 && self.edition != 2),
            (3, self.m > 256 || self.n > 4096),
            (4, !fits || self.weights.len() != self.m || sizes.output != self.m),
            (5, self.m == 0 || self.n == 0),
            (6, (sizes.numbers as u128) < enough_numbers || (sizes.indices as u128) < enough_indices),
            (15, fits && spare_set(&self.bits, self.m, self.n)),
            (8, self.weights.iter().any(|w| !w.is_finite())),
            (9, sum == 0.0 || sum == f64::INFINITY),
        ];
        table.iter().find(|(_, applies)| *applies).map_or(0, |(number, _)| *number)
    }

    /// The job on the expanded matrix.
    fn on_doubles(&self) -> Ensemble {
        let matrix = expanded(&self.bits, self.m, self.n);
        Ensemble { matrix, m: self.m, n: self.n, weights: self.weights.clone(), seed: self.seed, edition: self.edition }
    }

    fn name(&self) -> String {
        format!("{} columns, {} rows, seed {:016X}, edition {}, {:?}", self.m, self.n, self.seed, self.edition, self.rule())
    }
}

/// Every number of an answer, and its path.
fn says(a: &Answer, said: &Said) -> bool {
    a.number == 0
        && a.stage == said.stage
        && a.nonzeros == said.nonzeros
        && same(a.change, said.change)
        && a.directions == said.directions
        && a.sweeps == said.sweeps
        && a.has_path(&said.path)
}

pub struct Thinnings {
    pub domain: Domain,
    pub numbers: Tally,
    pub answers: Tally,
    pub outside: Tally,
    pub doubles: Tally,
    pub refusals: Tally,
    pub spare: Tally,
    pub fences: Tally,
    pub inputs: Tally,
}

impl Thinnings {
    pub fn new() -> Thinnings {
        Thinnings {
            domain: Domain::new(),
            numbers: Tally::new("bits, the number"),
            answers: Tally::new("bits"),
            outside: Tally::rare("bits, outside the domain"),
            doubles: Tally::new("bits, the same jobs in doubles"),
            refusals: Tally::new("bits, refusals"),
            spare: Tally::new("bits, a spare bit refused"),
            fences: Tally::new("bits, scratch wiped and nothing beside a list touched"),
            inputs: Tally::new("bits, inputs kept"),
        }
    }

    pub fn tallies(&self) -> [&Tally; 8] {
        let Thinnings { numbers, answers, outside, doubles, refusals, spare, fences, inputs, .. } = self;
        [numbers, answers, outside, doubles, refusals, spare, fences, inputs]
    }

    fn call(&mut self, c: &Call, sizes: Sizes, chance: &mut Chance) {
        match c.refusal(sizes) {
            0 => self.accepted(c, sizes, chance),
            number => self.refused(c, sizes, number, chance),
        }
    }

    fn refused(&mut self, c: &Call, sizes: Sizes, expected: u64, chance: &mut Chance) {
        for by in c.ways() {
            let mut room = Room::new(c, sizes, chance);
            let a = make(c, *by, &mut room);
            let name = || format!("{}, {by:?}: {a:?}, expected {expected}", c.name());
            let counts = [a.stage, a.nonzeros, a.change.to_bits(), a.directions, a.sweeps];
            let right = a.number == expected && counts == [0; 5] && a.has_path(&[]) && room.untouched();
            self.numbers.note(a.number == expected, name);
            self.inputs.note(room.inputs_kept(), name);
            self.refusals.note(right, name);
            if expected == 15 {
                self.spare.note(right, name);
            }
        }
    }

    fn accepted(&mut self, c: &Call, sizes: Sizes, chance: &mut Chance) {
        let e = c.on_doubles();
        let columns = matrices::columns(&e.matrix, e.m, e.n);
        let (said, inside) = match self.domain.expect(|| by_stages(&columns, &e, c.rule())) {
            Expected::Original(said) => (said, true),
            Expected::Document(said) => (said, false),
        };
        for by in [By::Number, By::Rule, By::Doubles] {
            let mut room = Room::new(c, sizes, chance);
            let a = make(c, by, &mut room);
            let name = || format!("{}, {by:?}: {a:?}, expected stage {}, {:?}", c.name(), said.stage, said.path);
            self.numbers.note(a.number == 0, name);
            self.inputs.note(room.inputs_kept(), name);
            self.fences.note(room.output.fenced() && room.scratch.wiped(), name);
            let tally = match by {
                By::Doubles => &mut self.doubles,
                _ if inside => &mut self.answers,
                _ => &mut self.outside,
            };
            tally.note(says(&a, &said) && room.holds(&said.weights), name);
        }
    }

    /// With lists of the right lengths, and now and then more scratch.
    fn whole(&mut self, c: &Call, chance: &mut Chance) {
        let mut sizes = Sizes::exact(c.m, c.n);
        if chance.once_in(3) {
            (sizes.numbers, sizes.indices) = (sizes.numbers + chance.below(40), sizes.indices + chance.below(40));
        }
        self.call(c, sizes, chance);
    }

    pub fn all(&mut self, folder: &str, chance: &mut Chance) {
        for (n, _) in (1..=70).flat_map(|n| (0..count(24)).map(move |k| (n, k))) {
            let c = a_call(chance.between(1, 24), n, chance);
            self.whole(&c, chance);
        }
        for (how_many, m, n) in [(1200, 48, 70), (30, 128, 260), (4, 256, 1000)] {
            for _ in 0..count(how_many) {
                let c = a_call(chance.between(1, m), chance.between(1, n), chance);
                self.whole(&c, chance);
            }
        }
        for (m, n) in [(256, 1), (1, 4096), (3, 4095), (256, 4096), (255, 4089), (257, 1), (1, 4097)] {
            let c = a_call(m, n, chance);
            self.whole(&c, chance);
        }
        for (m, early) in (2..=8).flat_map(|m| (0..12).map(move |early| (m, early))) {
            // An early Gaussian is a zero: where the direction has nothing beside it, it is broken off.
            let c = Call { seed: zero_at(early), rule: 0, limit: 1, ..a_call(m, chance.between(1, 17), chance) };
            self.whole(&c, chance);
        }
        for _ in 0..count(300).max(60) {
            // Draws that show the edition.
            let c = Call { seed: chance.small(), ..a_call(chance.between(20, 60), chance.between(10, 40), chance) };
            self.whole(&c, chance);
        }
        self.archived(folder, chance);
        for _ in 0..count(8000) {
            let (c, sizes) = spoiled(chance);
            self.call(&c, sizes, chance);
        }
    }

    /// Those of the archived ensembles that are votes, by several jobs each.
    fn archived(&mut self, folder: &str, chance: &mut Chance) {
        let (mut taken, mut left) = (Vec::new(), 0);
        for face in faces::faces(folder) {
            if face.margins.iter().any(|margin| margin.abs() != 1.0) {
                left += 1;
                continue;
            }
            for rule in 0..3 {
                let bits = packed(&face.margins, face.m, face.n);
                let c = Call { rule, weights: face.weights.clone(), ..job(bits, face.m, face.n, chance) };
                self.whole(&c, chance);
            }
            taken.push(face.name);
        }
        println!("archived ensembles that are votes: {taken:?}; {left} are not");
    }
}

/// A job of any rule on these bits.
fn job(bits: Vec<u8>, m: usize, n: usize, chance: &mut Chance) -> Call {
    let weights = match chance.below(4) {
        0 => (0..m).map(|_| chance.unit() + 0.01).collect(),
        1 => (0..m).map(|j| if j == 0 { 1.0 } else { chance.pick(&[0.0, -0.0, 1.0, -2.0, 3.0]) }).collect(),
        2 => (0..m).map(|_| chance.sign() * 2f64.powi(chance.below(40) as i32 - 20)).collect(),
        _ => (0..m).map(|_| chance.signed()).collect(),
    };
    Call {
        bits,
        m,
        n,
        weights,
        seed: chance.seed(),
        edition: chance.pick(&[1, 2]),
        rule: chance.pick(&[0, 0, 1, 2]),
        allowance: chance.unit() * if chance.once_in(4) { 2.0 } else { 0.5 },
        limit: if chance.once_in(6) { chance.pick(&[1, m, m + 1, usize::MAX]) } else { chance.between(1, m.max(1)) },
    }
}

fn a_call(m: usize, n: usize, chance: &mut Chance) -> Call {
    let bits = votes(m, n, chance);
    let mut c = job(bits, m, n, chance);
    // What a rule does not use is not looked at.
    if c.rule == 0 && chance.once_in(2) {
        c.allowance = chance.pick(&[-1.0, f64::NAN, f64::INFINITY]);
    }
    if c.rule == 1 && chance.once_in(2) {
        c.limit = 0;
    }
    c
}

/// A call with one fault to three.
fn spoiled(chance: &mut Chance) -> (Call, Sizes) {
    let (m, n) = (chance.between(1, 8), chance.between(1, 20));
    let mut c = a_call(m, n, chance);
    let mut sizes = Sizes::exact(m, n);
    let near = |length: usize, chance: &mut Chance| chance.pick(&[length + 1, length.saturating_sub(1), 0, 2 * length + 3]);
    for _ in 0..chance.between(1, 3) {
        match chance.below(15) {
            0 => c.allowance = chance.pick(&[-1.0, f64::NAN, -5e-324, f64::NEG_INFINITY, f64::INFINITY, -0.0]),
            1 => c.limit = 0,
            2 => c.rule = chance.pick(&[3, 4, 77, u32::MAX]),
            3 => c.edition = chance.pick(&[0, 3, 12, u32::MAX]),
            4 => c.m = chance.pick(&[257, usize::MAX, 1 << 63]),
            5 => c.n = chance.pick(&[4097, usize::MAX, usize::MAX - 6, 1 << 61]),
            6 => c.bits.resize(near(c.bits.len(), chance), 0),
            // As many bytes as there would be doubles, or as a stride rounded down gives.
            7 => c.bits.resize(chance.pick(&[m * n, m * (n / 8)]), 0),
            8 => c.weights.resize(near(c.weights.len(), chance), 0.5),
            9 => sizes.output = near(sizes.output, chance),
            10 => {
                // No columns or no rows, with lengths that fit.
                c.m = chance.pick(&[0, c.m]);
                c.n = if c.m == 0 && chance.once_in(2) { c.n } else { 0 };
                c.bits.clear();
                c.weights.truncate(c.m);
                sizes.output = c.weights.len();
            }
            11 => {
                let (numbers, indices) = (sizes.numbers, sizes.indices);
                (sizes.numbers, sizes.indices) = (numbers - numbers.min(chance.below(9)), indices - indices.min(chance.below(9)));
            }
            12 | 13 => set_spares(&mut c.bits, m, n, chance),
            14 if !c.weights.is_empty() => {
                let at = chance.below(c.weights.len());
                c.weights[at] = chance.pick(&[f64::NAN, f64::INFINITY, f64::NEG_INFINITY]);
                if chance.once_in(2) {
                    c.weights.fill(chance.pick(&[0.0, -0.0, f64::MAX]));
                }
            }
            _ => {}
        }
    }
    (c, sizes)
}
