// needs: knob_gaussian knob_gaussian_2 knob_thin_votes
//! Labels and confidences: the answer and the two packed lists against the original's thinning, with our draw, of margins that are formed
//! here by its own rule, label times confidence; every refusal against a table written here. No noise beside a list and no input is
//! touched, a refusal changes nothing, and the scratch is zero after an accepted job. Argument: the folder of archived ensembles.

#[path = "shared/chance.rs"]
mod chance;
#[path = "shared/domain.rs"]
mod domain;
#[path = "shared/draws.rs"]
mod draws;
#[path = "shared/faces.rs"]
mod faces;
#[path = "shared/jobs.rs"]
mod jobs;
#[path = "shared/lent.rs"]
mod lent;
#[path = "shared/matrices.rs"]
mod matrices;
#[path = "shared/original.rs"]
mod original;
#[path = "shared/tally.rs"]
mod tally;
#[path = "shared/thinning_calls.rs"]
mod thinning_calls;
#[path = "shared/votes_call.rs"]
mod votes_call;
#[path = "shared/watch.rs"]
mod watch;

use chance::{count, zero_at, Chance};
use domain::{Domain, Expected};
use jobs::{by_stages, Ensemble, Rule, Said};
use lent::{scratch_sizes, Lent, Scratch};
use tally::{end, same, Tally};
use thinning_calls::Answer;
use votes_call::knob_thin_votes;

/// What a call is handed.
struct Call {
    confidences: Vec<f64>,
    labels: Vec<i8>,
    m: usize,
    n: usize,
    weights: Vec<f64>,
    seed: u64,
    edition: u32,
    rule: u32,
    allowance: f64,
    limit: usize,
}

/// What is lent to be written; the doubles by their bits.
struct Lists {
    columns: Lent<u32>,
    kept: Lent<u64>,
    scratch: Scratch,
}

impl Lists {
    fn new(columns: usize, kept: usize, scratch: Scratch, chance: &mut Chance) -> Lists {
        Lists { columns: Lent::new(columns, || chance.word() as u32), kept: Lent::new(kept, || chance.word()), scratch }
    }

    fn untouched(&self) -> bool {
        self.columns.untouched() && self.kept.untouched() && self.scratch.untouched()
    }

    /// The numbers of the weights that are not 0, and the weights; zeros after them.
    fn hold(&self, weights: &[f64]) -> bool {
        let left = || weights.iter().enumerate().filter(|(_, w)| **w != 0.0);
        let places = self.columns.len() == weights.len() && self.kept.len() == weights.len();
        let columns = left().map(|(place, _)| place as u32).chain(std::iter::repeat(0));
        let kept = left().map(|(_, w)| w.to_bits()).chain(std::iter::repeat(0));
        places
            && self.columns.content().iter().zip(columns).all(|(a, b)| *a == b)
            && self.kept.content().iter().zip(kept).all(|(a, b)| *a == b)
    }
}

fn make(c: &Call, lists: &mut Lists) -> Answer {
    let mut answer = Answer::noise();
    let (columns, kept) = (lists.columns.len(), lists.kept.len());
    let (numbers, indices) = (lists.scratch.numbers.len(), lists.scratch.indices.len());
    unsafe {
        knob_thin_votes(
            &mut answer,
            c.confidences.as_ptr(),
            c.confidences.len(),
            c.labels.as_ptr(),
            c.labels.len(),
            c.m,
            c.n,
            c.weights.as_ptr(),
            c.weights.len(),
            c.seed,
            c.edition,
            c.rule,
            c.allowance,
            c.limit,
            lists.columns.lend(),
            columns,
            lists.kept.lend().cast(),
            kept,
            lists.scratch.numbers.lend().cast(),
            numbers,
            lists.scratch.indices.lend(),
            indices,
        )
    };
    answer
}

impl Call {
    /// A number that names no rule is a target of 0.
    fn rule(&self) -> Rule {
        match self.rule {
            0 => Rule::Target(self.limit),
            1 => Rule::Within(self.allowance, None),
            2 => Rule::Within(self.allowance, Some(self.limit)),
            _ => Rule::Target(0),
        }
    }

    /// The job on the matrix of margins.
    fn on_margins(&self) -> Ensemble {
        let matrix = self.confidences.iter().enumerate().map(|(k, confidence)| self.labels[k % self.n] as f64 * confidence).collect();
        Ensemble { matrix, m: self.m, n: self.n, weights: self.weights.clone(), seed: self.seed, edition: self.edition }
    }

    /// The table of refusals, the first that applies.
    fn refusal(&self, lists: &Lists) -> u64 {
        let (enough_numbers, enough_indices) = scratch_sizes(self.m, self.n);
        let (numbers, indices) = (lists.scratch.numbers.len() as u128, lists.scratch.indices.len() as u128);
        let within = self.rule == 1 || self.rule == 2;
        let sum = self.weights.iter().fold(0.0, |sum, w| sum + w.abs());
        let table = [
            (1, within && (self.allowance.is_nan() || self.allowance < 0.0)),
            (12, within && self.allowance == f64::INFINITY),
            (2, self.rule > 2 || self.rule != 1 && self.limit == 0),
            (13, self.edition != 1 && self.edition != 2),
            (3, self.m > 256 || self.n > 4096),
            (
                4,
                self.confidences.len() as u128 != self.m as u128 * self.n as u128
                    || self.labels.len() != self.n
                    || [self.weights.len(), lists.columns.len(), lists.kept.len()].iter().any(|length| *length != self.m),
            ),
            (5, self.m == 0 || self.n == 0),
            (6, numbers < enough_numbers || indices < enough_indices),
            (14, self.labels.iter().any(|label| *label != 1 && *label != -1)),
            (7, self.confidences.iter().any(|u| !(*u >= -1.0 && *u <= 1.0))),
            (8, self.weights.iter().any(|w| !w.is_finite())),
            (9, sum == 0.0 || sum == f64::INFINITY),
        ];
        table.iter().find(|(_, applies)| *applies).map_or(0, |(number, _)| *number)
    }

    /// The bits of all lists that are handed over.
    fn bits(&self) -> Vec<u64> {
        let doubles = self.confidences.iter().chain(&self.weights).map(|x| x.to_bits());
        doubles.chain(self.labels.iter().map(|label| *label as u64)).collect()
    }
}

struct Comparison {
    domain: Domain,
    numbers: Tally,
    answers: Tally,
    outside: Tally,
    refusals: Tally,
    label: Tally,
    fences: Tally,
    inputs: Tally,
}

impl Comparison {
    fn call(&mut self, c: &Call, mut lists: Lists) {
        let (expected, given) = (c.refusal(&lists), c.bits());
        let a = make(c, &mut lists);
        let rule = c.rule();
        let name =
            || format!("{} columns, {} rows, seed {:016X}, edition {}, {rule:?}: {a:?}, expected {expected}", c.m, c.n, c.seed, c.edition);
        self.numbers.note(a.number == expected, &name);
        self.inputs.note(c.bits() == given, &name);
        if expected != 0 {
            let counts = [a.stage, a.nonzeros, a.change.to_bits(), a.directions, a.sweeps];
            let right = a.number == expected && counts == [0; 5] && a.has_path(&[]) && lists.untouched();
            self.refusals.note(right, &name);
            if expected == 14 {
                self.label.note(right, &name);
            }
            return;
        }
        self.fences.note(lists.columns.fenced() && lists.kept.fenced() && lists.scratch.wiped(), &name);
        let e = c.on_margins();
        let columns = matrices::columns(&e.matrix, e.m, e.n);
        let (said, tally): (Said, _) = match self.domain.expect(|| by_stages(&columns, &e, rule)) {
            Expected::Original(said) => (said, &mut self.answers),
            Expected::Document(said) => (said, &mut self.outside),
        };
        let record = a.number == 0
            && a.stage == said.stage
            && a.nonzeros == said.nonzeros
            && same(a.change, said.change)
            && a.directions == said.directions
            && a.sweeps == said.sweeps
            && a.has_path(&said.path);
        tally.note(record && lists.hold(&said.weights), name);
    }

    /// With lists of the right lengths.
    fn whole(&mut self, c: &Call, chance: &mut Chance) {
        let scratch = Scratch::enough(c.m, c.n, chance);
        let lists = Lists::new(c.m, c.m, scratch, chance);
        self.call(c, lists);
    }
}

/// Labels, now and then all of one sign.
fn labels(n: usize, chance: &mut Chance) -> Vec<i8> {
    let kind = chance.below(6);
    (0..n)
        .map(|_| match kind {
            0 => 1,
            1 => -1,
            _ => chance.sign() as i8,
        })
        .collect()
}

/// A job of any rule on these confidences.
fn job(confidences: Vec<f64>, m: usize, n: usize, chance: &mut Chance) -> Call {
    let weights = match chance.below(4) {
        0 => (0..m).map(|_| chance.unit() + 0.01).collect(),
        1 => (0..m).map(|j| if j == 0 { 1.0 } else { chance.pick(&[0.0, -0.0, 1.0, -2.0, 3.0]) }).collect(),
        2 => (0..m).map(|_| chance.sign() * 2f64.powi(chance.below(40) as i32 - 20)).collect(),
        _ => (0..m).map(|_| chance.signed()).collect(),
    };
    Call {
        confidences,
        labels: labels(n, chance),
        m,
        n,
        weights,
        seed: chance.seed(),
        edition: chance.pick(&[1, 2]),
        rule: chance.pick(&[0, 0, 1, 2]),
        allowance: chance.unit() * if chance.once_in(4) { 2.0 } else { 0.5 },
        limit: if chance.once_in(6) { chance.pick(&[1, m, m + 1, usize::MAX]) } else { chance.between(1, m.max(1)) },
    }
}

fn a_call(m: usize, n: usize, chance: &mut Chance) -> Call {
    let confidences = matrices::matrix(chance.below(matrices::MARGIN_KINDS), m, n, chance);
    let mut c = job(confidences, m, n, chance);
    // What a rule does not use is not looked at.
    if c.rule == 0 && chance.once_in(2) {
        c.allowance = chance.pick(&[-1.0, f64::NAN, f64::INFINITY]);
    }
    if c.rule == 1 && chance.once_in(2) {
        c.limit = 0;
    }
    c
}

/// A call with one fault or two.
fn spoiled(chance: &mut Chance) -> (Call, Lists) {
    let (m, n) = (chance.between(1, 8), chance.between(1, 8));
    let mut c = a_call(m, n, chance);
    let (mut columns, mut kept, (mut numbers, mut indices)) = (m, m, scratch_sizes(m, n));
    let near = |length: usize, chance: &mut Chance| chance.pick(&[length + 1, length.saturating_sub(1), 0, 2 * length + 3]);
    for _ in 0..chance.between(1, 3) {
        match chance.below(17) {
            0 => c.allowance = chance.pick(&[-1.0, f64::NAN, -5e-324, f64::NEG_INFINITY, f64::INFINITY, -0.0]),
            1 => c.limit = 0,
            2 => c.rule = chance.pick(&[3, 4, 77, u32::MAX]),
            3 => c.edition = chance.pick(&[0, 3, 12, u32::MAX]),
            4 => c.m = chance.pick(&[257, usize::MAX, 1 << 63]),
            5 => c.n = chance.pick(&[4097, usize::MAX, 1 << 61]),
            6 => c.confidences.resize(near(c.confidences.len(), chance), 0.5),
            7 => c.labels.resize(near(c.labels.len(), chance), chance.pick(&[1, -1, 0])),
            8 => c.weights.resize(near(c.weights.len(), chance), 0.5),
            9 => columns = near(columns, chance),
            10 => kept = near(kept, chance),
            11 => {
                // No columns or no rows, with lengths that fit.
                c.m = chance.pick(&[0, c.m]);
                c.n = if c.m == 0 && chance.once_in(2) { c.n } else { 0 };
                c.confidences.clear();
                c.labels.truncate(c.n);
                c.weights.truncate(c.m);
                (columns, kept) = (c.weights.len(), c.weights.len());
            }
            12 => (numbers, indices) = (numbers - numbers.min(chance.below(9) as u128), indices - indices.min(chance.below(9) as u128)),
            13 | 14 if !c.labels.is_empty() => {
                let at = chance.below(c.labels.len());
                c.labels[at] = chance.pick(&[0, 2, -2, i8::MIN, i8::MAX]);
            }
            15 if !c.confidences.is_empty() => {
                let at = chance.below(c.confidences.len());
                c.confidences[at] = chance.pick(&[f64::NAN, 1.0000000000000002, -1.5, f64::INFINITY]);
            }
            16 if !c.weights.is_empty() => {
                let at = chance.below(c.weights.len());
                c.weights[at] = chance.pick(&[f64::NAN, f64::INFINITY, f64::NEG_INFINITY]);
                if chance.once_in(2) {
                    c.weights.fill(chance.pick(&[0.0, -0.0, f64::MAX]));
                }
            }
            _ => {}
        }
    }
    let scratch = Scratch::new(numbers as usize, indices as usize, chance);
    let lists = Lists::new(columns, kept, scratch, chance);
    (c, lists)
}

fn main() {
    let folder = std::env::args().nth(1).expect("the folder of archived ensembles");
    let mut chance = Chance::new("votes", 8);
    let mut all = Comparison {
        domain: Domain::new(),
        numbers: Tally::new("votes, the number"),
        answers: Tally::new("votes"),
        outside: Tally::rare("votes, outside the domain"),
        refusals: Tally::new("votes, refusals"),
        label: Tally::new("votes, a label refused"),
        fences: Tally::new("votes, scratch wiped and nothing beside a list touched"),
        inputs: Tally::new("votes, inputs kept"),
    };
    for (how_many, m, n) in [(3000, 16, 24), (600, 48, 64), (30, 128, 256), (4, 256, 1000)] {
        for _ in 0..count(how_many) {
            let c = a_call(chance.between(1, m), chance.between(1, n), &mut chance);
            all.whole(&c, &mut chance);
        }
    }
    for (m, early) in (2..=8).flat_map(|m| (0..12).map(move |early| (m, early))) {
        // An early Gaussian is a zero: where the direction has nothing beside it, it is broken off.
        let c = Call { seed: zero_at(early), rule: 0, limit: 1, ..a_call(m, 6, &mut chance) };
        all.whole(&c, &mut chance);
    }
    for _ in 0..count(300).max(60) {
        // Draws that show the edition.
        let c = Call { seed: chance.small(), ..a_call(chance.between(20, 60), chance.between(10, 40), &mut chance) };
        all.whole(&c, &mut chance);
    }
    for face in faces::faces(&folder) {
        // Its margins for confidences.
        let c = Call { weights: face.weights, ..job(face.margins, face.m, face.n, &mut chance) };
        all.whole(&c, &mut chance);
    }
    for _ in 0..count(6000) {
        let (c, lists) = spoiled(&mut chance);
        all.call(&c, lists);
    }
    for (m, n) in [(257, 1), (1, 4097), (256, 1), (1, 4096), (256, 4096)] {
        let c = a_call(m, n, &mut chance);
        all.whole(&c, &mut chance);
    }
    all.domain.tell();
    let Comparison { numbers, answers, outside, refusals, label, fences, inputs, .. } = &all;
    end(&[numbers, answers, outside, refusals, label, fences, inputs])
}
