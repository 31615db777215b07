// needs: knob_gaussian knob_thin_all knob_thin_all_bits
//! Several items in one call, on doubles and on votes as bits: the number of the whole call against a table written here, each item's answer
//! and its part of the output against the original with our draw, for bits on the expanded matrix, or, where it is refused, against the table
//! of single jobs; no other part, no noise beside a list and no input is touched, and the scratch is zero, also with no items or with refused
//! ones.

#[path = "shared/batch_call.rs"]
mod batch_call;
#[path = "shared/chance.rs"]
mod chance;
#[path = "shared/domain.rs"]
mod domain;
#[path = "shared/draws.rs"]
mod draws;
#[path = "shared/jobs.rs"]
mod jobs;
#[path = "shared/lent.rs"]
mod lent;
#[path = "shared/matrices.rs"]
mod matrices;
#[path = "shared/original.rs"]
mod original;
#[path = "shared/packed.rs"]
mod packed;
#[path = "shared/tally.rs"]
mod tally;
#[path = "shared/thinning_calls.rs"]
mod thinning_calls;
#[path = "shared/watch.rs"]
mod watch;

use batch_call::{knob_thin_all, knob_thin_all_bits, Answers, MOST};
use chance::{count, Chance};
use domain::{Domain, Expected};
use jobs::{by_stages, refusal, Ensemble, Rule};
use lent::{scratch_sizes, Lent, Scratch};
use packed::{expanded, set_spares, spare_set, stride, votes};
use tally::{end, same, Tally};
use thinning_calls::Answer;

/// The matrix, in one of its two forms.
enum Margins {
    Doubles(Vec<f64>),
    Bits(Vec<u8>),
}

/// What a call is handed.
struct Call {
    margins: Margins,
    m: usize,
    n: usize,
    items: usize,
    weights: Vec<f64>,
    seeds: Vec<u64>,
    editions: Vec<u32>,
    rules: Vec<u32>,
    allowances: Vec<f64>,
    limits: Vec<u64>,
}

/// How many places are lent.
#[derive(Clone, Copy)]
struct Sizes {
    output: usize,
    numbers: usize,
    indices: usize,
}

impl Sizes {
    fn exact(m: usize, n: usize, items: usize) -> Sizes {
        let (numbers, indices) = scratch_sizes(m, n);
        Sizes { output: items * m, numbers: numbers as usize, indices: indices as usize }
    }
}

/// All that is lent, between guards; doubles by their bits. Of the two forms of a matrix one has nothing.
struct Room {
    matrix: Lent<u64>,
    bits: Lent<u8>,
    weights: Lent<u64>,
    seeds: Lent<u64>,
    editions: Lent<u32>,
    rules: Lent<u32>,
    allowances: Lent<u64>,
    limits: Lent<u64>,
    output: Lent<u64>,
    scratch: Scratch,
}

impl Room {
    fn new(c: &Call, sizes: Sizes, chance: &mut Chance) -> Room {
        let words = |doubles: &[f64]| -> Vec<u64> { doubles.iter().map(|x| x.to_bits()).collect() };
        let (matrix, bits) = match &c.margins {
            Margins::Doubles(matrix) => (words(matrix), Vec::new()),
            Margins::Bits(bits) => (Vec::new(), bits.clone()),
        };
        Room {
            matrix: Lent::holding(&matrix, || chance.word()),
            bits: Lent::holding(&bits, || chance.word() as u8),
            weights: Lent::holding(&words(&c.weights), || chance.word()),
            seeds: Lent::holding(&c.seeds, || chance.word()),
            editions: Lent::holding(&c.editions, || chance.word() as u32),
            rules: Lent::holding(&c.rules, || chance.word() as u32),
            allowances: Lent::holding(&words(&c.allowances), || chance.word()),
            limits: Lent::holding(&c.limits, || chance.word()),
            output: Lent::new(sizes.output, || chance.word()),
            scratch: Scratch::new(sizes.numbers, sizes.indices, chance),
        }
    }

    fn inputs_kept(&self) -> bool {
        let words = [&self.matrix, &self.weights, &self.seeds, &self.allowances, &self.limits];
        words.iter().all(|list| list.untouched()) && self.bits.untouched() && self.editions.untouched() && self.rules.untouched()
    }
}

fn make(c: &Call, room: &mut Room) -> Answers {
    let mut answer = Answers::noise();
    let (weights, weights_len) = (room.weights.lend() as *const f64, room.weights.len());
    let (seeds, seeds_len) = (room.seeds.lend() as *const u64, room.seeds.len());
    let (editions, editions_len) = (room.editions.lend() as *const u32, room.editions.len());
    let (rules, rules_len) = (room.rules.lend() as *const u32, room.rules.len());
    let (allowances, allowances_len) = (room.allowances.lend() as *const f64, room.allowances.len());
    let (limits, limits_len) = (room.limits.lend() as *const u64, room.limits.len());
    let (output, output_len) = (room.output.lend() as *mut f64, room.output.len());
    let (numbers, numbers_len) = (room.scratch.numbers.lend() as *mut f64, room.scratch.numbers.len());
    let (indices, indices_len) = (room.scratch.indices.lend(), room.scratch.indices.len());
    #[rustfmt::skip]
    unsafe {
        match c.margins {
            Margins::Doubles(_) => knob_thin_all(
                &mut answer, room.matrix.lend().cast(), room.matrix.len(), c.m, c.n, c.items, weights, weights_len, seeds, seeds_len,
                editions, editions_len, rules, rules_len, allowances, allowances_len, limits, limits_len,
                output, output_len, numbers, numbers_len, indices, indices_len,
            ),
            Margins::Bits(_) => knob_thin_all_bits(
                &mut answer, room.bits.lend(), room.bits.len(), c.m, c.n, c.items, weights, weights_len, seeds, seeds_len,
                editions, editions_len, rules, rules_len, allowances, allowances_len, limits, limits_len,
                output, output_len, numbers, numbers_len, indices, indices_len,
            ),
        }
    };
    answer
}

impl Call {
    /// Item k as a job of its own. A number that names no rule is a target of 0.
    fn item(&self, k: usize) -> (Ensemble, Rule) {
        let limit = self.limits[k] as usize;
        let rule = match self.rules[k] {
            0 => Rule::Target(limit),
            1 => Rule::Within(self.allowances[k], None),
            2 => Rule::Within(self.allowances[k], Some(limit)),
            _ => Rule::Target(0),
        };
        let weights = self.weights[k * self.m..(k + 1) * self.m].to_vec();
        let (matrix, seed, edition) = (self.matrix(), self.seeds[k], self.editions[k]);
        (Ensemble { matrix, m: self.m, n: self.n, weights, seed, edition }, rule)
    }

    /// The doubles that the matrix is or stands for, where it has its length.
    fn matrix(&self) -> Vec<f64> {
        match &self.margins {
            Margins::Doubles(matrix) => matrix.clone(),
            Margins::Bits(bits) => expanded(bits, self.m, self.n),
        }
    }

    /// The table of refusals for the call as a whole, the first that applies.
    fn refusal(&self, sizes: Sizes) -> u64 {
        let (enough_numbers, enough_indices) = scratch_sizes(self.m, self.n);
        let places = self.items as u128 * self.m as u128;
        let lists = [self.seeds.len(), self.editions.len(), self.rules.len(), self.allowances.len(), self.limits.len()];
        let (fits, content) = match &self.margins {
            Margins::Doubles(matrix) => {
                (matrix.len() as u128 == self.m as u128 * self.n as u128, (7, matrix.iter().any(|u| !(*u >= -1.0 && *u <= 1.0))))
            }
            Margins::Bits(bits) => {
                let fits = bits.len() as u128 == self.m as u128 * stride(self.n) as u128;
                (fits, (15, fits && spare_set(bits, self.m, self.n)))
            }
        };
        let table = [
            (3, self.m > 256 || self.n > 4096 || self.items > MOST),
            (
                4,
                !fits
                    || self.weights.len() as u128 != places
                    || sizes.output as u128 != places
                    || lists.iter().any(|length| *length != self.items),
            ),
            (5, self.m == 0 || self.n == 0),
            (6, (sizes.numbers as u128) < enough_numbers || (sizes.indices as u128) < enough_indices),
            content,
        ];
        table.iter().find(|(_, applies)| *applies).map_or(0, |(number, _)| *number)
    }
}

/// The number, and zeros.
fn refused(a: &Answer, number: u64) -> bool {
    let counts = [a.stage, a.nonzeros, a.change.to_bits(), a.directions, a.sweeps];
    a.number == number && counts == [0; 5] && a.has_path(&[])
}

struct Comparison {
    on_bits: bool,
    domain: Domain,
    whole: Tally,
    items: Tally,
    outside: Tally,
    refusals: Tally,
    content: Tally,
    past: Tally,
    fences: Tally,
    inputs: Tally,
}

impl Comparison {
    fn on_doubles() -> Comparison {
        Comparison {
            on_bits: false,
            domain: Domain::new(),
            whole: Tally::new("batch, the whole call"),
            items: Tally::new("batch, items"),
            outside: Tally::rare("batch, items outside the domain"),
            refusals: Tally::new("batch, items refused"),
            content: Tally::new("batch, an entry refused"),
            past: Tally::new("batch, zeros past the last item"),
            fences: Tally::new("batch, scratch and what is not to be touched"),
            inputs: Tally::new("batch, inputs kept"),
        }
    }

    fn on_bits() -> Comparison {
        Comparison {
            on_bits: true,
            domain: Domain::new(),
            whole: Tally::new("batch on bits, the whole call"),
            items: Tally::new("batch on bits, items"),
            outside: Tally::rare("batch on bits, items outside the domain"),
            refusals: Tally::new("batch on bits, items refused"),
            content: Tally::new("batch on bits, a spare bit refused"),
            past: Tally::new("batch on bits, zeros past the last item"),
            fences: Tally::new("batch on bits, scratch and what is not to be touched"),
            inputs: Tally::new("batch on bits, inputs kept"),
        }
    }

    fn tallies(&self) -> [&Tally; 8] {
        let Comparison { whole, items, outside, refusals, content, past, fences, inputs, .. } = self;
        [whole, items, outside, refusals, content, past, fences, inputs]
    }

    fn call(&mut self, c: &Call, sizes: Sizes, chance: &mut Chance) {
        let expected = c.refusal(sizes);
        let mut room = Room::new(c, sizes, chance);
        let before = room.output.content().to_vec();
        let answer = make(c, &mut room);
        let name = || format!("{} columns, {} rows, {} items: {}, expected {expected}", c.m, c.n, c.items, answer.number);
        self.whole.note(answer.number == expected, name);
        self.inputs.note(room.inputs_kept(), name);
        if expected != 0 {
            let zeros = answer.items.iter().all(|a| refused(a, 0));
            self.fences.note(zeros && room.output.untouched() && room.scratch.untouched(), name);
            if expected == 7 || expected == 15 {
                self.content.note(answer.number == expected, name);
            }
            return;
        }
        self.fences.note(room.scratch.wiped() && room.output.fenced(), name);
        for k in 0..c.items {
            let part = k * c.m..(k + 1) * c.m;
            self.item(c, k, &answer.items[k], &room.output.content()[part.clone()], &before[part]);
        }
        self.past.note(answer.items[c.items..].iter().all(|a| refused(a, 0)), name);
    }

    /// With lists of the right lengths, and now and then more scratch.
    fn fitting(&mut self, m: usize, n: usize, items: usize, chance: &mut Chance) {
        let c = a_call(m, n, items, self.on_bits, chance);
        let mut sizes = Sizes::exact(m, n, items);
        if chance.once_in(3) {
            (sizes.numbers, sizes.indices) = (sizes.numbers + chance.below(40), sizes.indices + chance.below(40));
        }
        self.call(&c, sizes, chance);
    }

    fn some(&mut self, how_many: usize, m: usize, n: usize, most: usize, chance: &mut Chance) {
        for _ in 0..count(how_many) {
            self.fitting(chance.between(1, m), chance.between(1, n), chance.between(0, most), chance);
        }
    }

    fn all(&mut self, chance: &mut Chance) {
        self.some(600, 12, 16, 8, chance);
        self.some(40, 40, 60, 16, chance);
        self.some(4, 120, 300, 8, chance);
        for items in [0, 63, 64, 65] {
            self.fitting(5, 7, items, chance);
        }
        for _ in 0..count(4000) {
            let (c, sizes) = spoiled(self.on_bits, chance);
            self.call(&c, sizes, chance);
        }
    }

    fn item(&mut self, c: &Call, k: usize, a: &Answer, part: &[u64], before: &[u64]) {
        let (e, rule) = c.item(k);
        let (numbers, indices) = scratch_sizes(c.m, c.n);
        let expected = refusal(&e, rule, c.m, numbers as usize, indices as usize);
        let name = || format!("item {k} of {}, {} columns, {} rows, {rule:?}: {a:?}, expected {expected}", c.items, c.m, c.n);
        if expected != 0 {
            return self.refusals.note(refused(a, expected) && part == before, name);
        }
        let columns = matrices::columns(&e.matrix, c.m, c.n);
        let (said, tally) = match self.domain.expect(|| by_stages(&columns, &e, rule)) {
            Expected::Original(said) => (said, &mut self.items),
            Expected::Document(said) => (said, &mut self.outside),
        };
        let record = a.number == 0
            && a.stage == said.stage
            && a.nonzeros == said.nonzeros
            && same(a.change, said.change)
            && a.directions == said.directions
            && a.sweeps == said.sweeps
            && a.has_path(&said.path);
        tally.note(record && part.iter().copied().eq(said.weights.iter().map(|w| w.to_bits())), name);
    }
}

/// A call, some of its items with a fault of their own.
fn a_call(m: usize, n: usize, items: usize, on_bits: bool, chance: &mut Chance) -> Call {
    let margins = if on_bits {
        Margins::Bits(votes(m, n, chance))
    } else {
        Margins::Doubles(matrices::matrix(chance.below(matrices::MARGIN_KINDS), m, n, chance))
    };
    let mut c = Call {
        margins,
        m,
        n,
        items,
        weights: (0..items * m).map(|_| chance.signed()).collect(),
        seeds: (0..items).map(|_| chance.seed()).collect(),
        editions: (0..items).map(|_| chance.pick(&[1, 2])).collect(),
        rules: (0..items).map(|_| chance.pick(&[0, 1, 2])).collect(),
        allowances: (0..items).map(|_| chance.unit()).collect(),
        limits: (0..items).map(|_| chance.between(1, m.max(1)) as u64).collect(),
    };
    for k in 0..items {
        if !chance.once_in(4) {
            continue;
        }
        let at = k * m + chance.below(m.max(1));
        match chance.below(8) {
            0 => c.allowances[k] = chance.pick(&[-1.0, f64::NAN, -0.0, f64::INFINITY, -5e-324]),
            1 => c.limits[k] = chance.pick(&[0, u64::MAX]),
            2 => c.rules[k] = chance.pick(&[3, 77, u32::MAX]),
            3 => c.editions[k] = chance.pick(&[0, 3, u32::MAX]),
            4 if m > 0 => c.weights[at] = chance.pick(&[f64::NAN, f64::INFINITY, f64::MAX, 0.0]),
            5 => c.weights[k * m..(k + 1) * m].fill(0.0),
            6 if k > 0 => {
                // The one before, with the same weights, seed and edition.
                c.weights.copy_within((k - 1) * m..k * m, k * m);
                (c.seeds[k], c.editions[k]) = (c.seeds[k - 1], c.editions[k - 1]);
            }
            _ => (c.limits[k], c.editions[k]) = (0, 3),
        }
    }
    c
}

/// A matrix of another length.
fn resize(margins: &mut Margins, m: usize, n: usize, chance: &mut Chance) {
    match margins {
        Margins::Doubles(matrix) => matrix.resize(near(matrix.len(), chance), 0.5),
        // As many bytes as there would be doubles, or as a stride rounded down gives.
        Margins::Bits(bits) if chance.once_in(2) => bits.resize(chance.pick(&[m * n, m * (n / 8)]), 0),
        Margins::Bits(bits) => bits.resize(near(bits.len(), chance), 0),
    }
}

fn near(length: usize, chance: &mut Chance) -> usize {
    chance.pick(&[length + 1, length.saturating_sub(1), 0, 2 * length + 3])
}

/// A call with one fault of the whole or two.
fn spoiled(on_bits: bool, chance: &mut Chance) -> (Call, Sizes) {
    let (m, n, items) = (chance.between(1, 6), chance.between(1, if on_bits { 20 } else { 6 }), chance.below(6));
    let mut c = a_call(m, n, items, on_bits, chance);
    let mut sizes = Sizes::exact(m, n, items);
    for _ in 0..chance.between(1, 3) {
        match chance.below(14) {
            0 => c.m = chance.pick(&[257, usize::MAX, 1 << 63]),
            1 => c.n = chance.pick(&[4097, usize::MAX, usize::MAX - 6, 1 << 61]),
            2 => c.items = chance.pick(&[65, usize::MAX, 1 << 62, items + 1]),
            3 => resize(&mut c.margins, m, n, chance),
            4 => c.weights.resize(near(c.weights.len(), chance), 0.5),
            5 => c.seeds.resize(near(c.seeds.len(), chance), 1),
            6 => c.editions.resize(near(c.editions.len(), chance), 1),
            7 => c.rules.resize(near(c.rules.len(), chance), 0),
            8 => c.allowances.resize(near(c.allowances.len(), chance), 0.5),
            9 => c.limits.resize(near(c.limits.len(), chance), 1),
            10 => sizes.output = near(sizes.output, chance),
            11 => {
                // No columns or no rows, with lengths that fit.
                c.m = chance.pick(&[0, c.m]);
                c.n = if c.m == 0 { c.n } else { 0 };
                match &mut c.margins {
                    Margins::Doubles(matrix) => matrix.clear(),
                    Margins::Bits(bits) => bits.clear(),
                }
                c.weights.truncate(if c.m == 0 { 0 } else { c.weights.len() });
                sizes.output = c.weights.len();
            }
            12 => {
                let (numbers, indices) = (sizes.numbers, sizes.indices);
                (sizes.numbers, sizes.indices) = (numbers - numbers.min(chance.below(9)), indices - indices.min(chance.below(9)));
            }
            _ => match &mut c.margins {
                Margins::Doubles(matrix) if !matrix.is_empty() => {
                    let at = chance.below(matrix.len());
                    matrix[at] = chance.pick(&[f64::NAN, 1.0000000000000002, -1.5, f64::INFINITY]);
                }
                Margins::Bits(bits) => set_spares(bits, m, n, chance),
                Margins::Doubles(_) => {}
            },
        }
    }
    (c, sizes)
}

fn main() {
    let mut chance = Chance::new("batch", 11);
    let (mut doubles, mut bits) = (Comparison::on_doubles(), Comparison::on_bits());
    doubles.all(&mut chance);
    bits.all(&mut chance);
    // Sizes at the limits and beyond them, and every number of spare bits.
    for (m, n) in [(256, 1), (1, 4096), (3, 4095), (257, 1), (1, 4097)].into_iter().chain((1..=24).map(|n| (9, n))) {
        bits.fitting(m, n, 3, &mut chance);
    }
    doubles.domain.tell();
    bits.domain.tell();
    let all: Vec<&Tally> = doubles.tallies().into_iter().chain(bits.tallies()).collect();
    end(&all)
}
