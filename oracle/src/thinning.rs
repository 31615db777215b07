// needs: knob_gaussian knob_gaussian_2 knob_sparsify knob_sparsify_within
//! Thinning jobs: weights, stage, nonzeros, change, directions, sweeps and path against the original's own functions with our draw, every
//! refusal against a table written here, and pairs of jobs on one ensemble and seed against each other: any two read one path, and of two
//! whose rules are so ordered the second is no earlier and keeps what its rule asks. Both editions of the draw. Arguments: the folder of
//! archived ensembles; and `ignoring` to hand the library edition 1 for every job of edition 2, which has to come out unequal.

#[path = "shared/chance.rs"]
mod chance;
#[path = "shared/domain.rs"]
mod domain;
#[path = "shared/draws.rs"]
mod draws;
#[path = "shared/faces.rs"]
mod faces;
#[path = "shared/jobs.rs"]
mod jobs;
#[path = "shared/lent.rs"]
mod lent;
#[path = "shared/matrices.rs"]
mod matrices;
#[path = "shared/original.rs"]
mod original;
#[path = "shared/tally.rs"]
mod tally;
#[path = "shared/thinning_calls.rs"]
mod thinning_calls;
#[path = "shared/watch.rs"]
mod watch;

use chance::{count, zero_at, Chance};
use domain::{Domain, Expected};
use jobs::{by_stages, refusal, Ensemble, Rule, Said};
use lent::{scratch_sizes, Lent, Scratch};
use tally::{end, same, Tally};
use thinning_calls::{knob_sparsify, knob_sparsify_within, Answer};

/// What a call was lent, and its answer.
struct Made {
    answer: Answer,
    output: Lent<u64>,
    scratch: Scratch,
}

fn make(e: &Ensemble, rule: Rule, mut output: Lent<u64>, mut scratch: Scratch) -> Made {
    let mut answer = Answer::noise();
    let (lengths, numbers, indices) = (output.len(), scratch.numbers.len(), scratch.indices.len());
    let (matrix, weights) = (e.matrix.as_ptr(), e.weights.as_ptr());
    let (to, first, second) = (output.lend().cast(), scratch.numbers.lend().cast(), scratch.indices.lend());
    unsafe {
        match rule {
            Rule::Target(target) => knob_sparsify(
                &mut answer,
                matrix,
                e.matrix.len(),
                e.m,
                e.n,
                weights,
                e.weights.len(),
                e.seed,
                e.edition,
                target,
                to,
                lengths,
                first,
                numbers,
                second,
                indices,
            ),
            Rule::Within(allowance, cap) => knob_sparsify_within(
                &mut answer,
                matrix,
                e.matrix.len(),
                e.m,
                e.n,
                weights,
                e.weights.len(),
                e.seed,
                e.edition,
                allowance,
                u32::from(cap.is_some()),
                cap.unwrap_or(0),
                to,
                lengths,
                first,
                numbers,
                second,
                indices,
            ),
        }
    };
    Made { answer, output, scratch }
}

struct Comparison {
    domain: Domain,
    answers: Tally,
    outside: Tally,
    original: Tally,
    scratch: Tally,
    inputs: Tally,
    broken_off: Tally,
    refusals: Tally,
    paths: Tally,
    pairs: Tally,
}

impl Comparison {
    /// Jobs on one ensemble: each against the original, each two against each other.
    fn jobs(&mut self, e: &Ensemble, rules: &[Rule], chance: &mut Chance) {
        let columns = matrices::columns(&e.matrix, e.m, e.n);
        let given = bits(e);
        let mut all: Vec<Made> = Vec::new();
        for rule in rules {
            let made = make(e, *rule, Lent::new(e.m, || chance.word()), Scratch::enough(e.m, e.n, chance));
            let name =
                || format!("{} columns, {} rows, seed {:016X}, edition {}, {rule:?}: {:?}", e.m, e.n, e.seed, e.edition, made.answer);
            let (said, tally) = match self.domain.expect(|| by_stages(&columns, e, *rule)) {
                Expected::Original(said) => {
                    self.original.note(said.agrees, &name);
                    (said, &mut self.answers)
                }
                Expected::Document(said) => (said, &mut self.outside),
            };
            let a = made.answer;
            let record = a.number == 0
                && a.stage == said.stage
                && a.nonzeros == said.nonzeros
                && same(a.change, said.change)
                && a.directions == said.directions
                && a.sweeps == said.sweeps
                && a.has_path(&said.path);
            let weights = made.output.content().iter().copied().eq(said.weights.iter().map(|w| w.to_bits()));
            let expected = || {
                let Said { stage, nonzeros, change, directions, sweeps, .. } = said;
                let counts = format!("{directions} directions, {sweeps} sweeps");
                format!("{}, expected stage {stage}, nonzeros {nonzeros}, change {change}, {counts}", name())
            };
            tally.note(record && weights, expected);
            if said.broken_off > 0 {
                self.broken_off.note(record && weights, expected);
            }
            self.scratch.note(made.scratch.wiped() && made.output.fenced(), &name);
            self.inputs.note(bits(e) == given, &name);
            all.push(made);
        }
        for (i, one) in all.iter().enumerate() {
            for (k, other) in all.iter().enumerate() {
                let name = || format!("{} columns, {} rows, seed {:016X}, {:?} and {:?}", e.m, e.n, e.seed, rules[i], rules[k]);
                if i < k {
                    self.paths.note(on_one_path(one, other), name);
                }
                if i != k && allows(rules[i], rules[k]) {
                    let later = one.answer.stage <= other.answer.stage && on_one_path(one, other);
                    self.pairs.note(later && keeps(rules[k], &other.answer), name);
                }
            }
        }
    }

    fn refused(&mut self, e: &Ensemble, rule: Rule, output: Lent<u64>, scratch: Scratch) {
        let expected = refusal(e, rule, output.len(), scratch.numbers.len(), scratch.indices.len());
        let given = bits(e);
        let made = make(e, rule, output, scratch);
        let a = made.answer;
        self.inputs.note(bits(e) == given, || format!("{} columns, {} rows, {rule:?}", e.m, e.n));
        let right = a.number == expected
            && if expected == 0 {
                made.scratch.wiped()
            } else {
                let counts = [a.stage, a.nonzeros, a.change.to_bits(), a.directions, a.sweeps];
                let zeros = counts == [0; 5] && a.has_path(&[]);
                zeros && made.output.untouched() && made.scratch.untouched()
            };
        self.refusals.note(right, || format!("{} columns, {} rows, edition {}, {rule:?}: {a:?}, expected {expected}", e.m, e.n, e.edition));
    }
}

/// The bits of a call's inputs.
fn bits(e: &Ensemble) -> Vec<u64> {
    e.matrix.iter().chain(&e.weights).map(|x| x.to_bits()).collect()
}

/// Two accepted jobs on equal ensembles and seeds read one path: at one stage all is equal, and at a later one there are fewer
/// nonzeros, each of them at a place that had one of the same sign before.
fn on_one_path(one: &Made, other: &Made) -> bool {
    let (early, late) = if one.answer.stage <= other.answer.stage { (one, other) } else { (other, one) };
    if early.answer.stage == late.answer.stage {
        return early.output.content() == late.output.content()
            && early.answer.nonzeros == late.answer.nonzeros
            && same(early.answer.change, late.answer.change);
    }
    let doubles = |made: &Made| made.output.content().iter().map(|w| f64::from_bits(*w)).collect::<Vec<_>>();
    let kept = |(before, after): (f64, f64)| after == 0.0 || (after > 0.0 && before > 0.0) || (after < 0.0 && before < 0.0);
    late.answer.nonzeros < early.answer.nonzeros && doubles(early).into_iter().zip(doubles(late)).all(kept)
}

/// Demand 3's order of rules: the second is of the first's kind and allows at least as much thinning. Beside a cap the second has to have
/// one that is no larger.
fn allows(first: Rule, second: Rule) -> bool {
    match (first, second) {
        (Rule::Target(one), Rule::Target(other)) => other <= one,
        (Rule::Within(one, cap), Rule::Within(other, other_cap)) => {
            one <= other && cap.map_or(true, |cap| other_cap.map_or(false, |other_cap| other_cap <= cap))
        }
        _ => false,
    }
}

/// What a rule asks of its answer: the target or the cap, or else the allowance.
fn keeps(rule: Rule, answer: &Answer) -> bool {
    match rule {
        Rule::Target(most) | Rule::Within(_, Some(most)) => answer.nonzeros <= most as u64,
        Rule::Within(allowance, None) => answer.change <= allowance,
    }
}

fn weights(m: usize, chance: &mut Chance) -> Vec<f64> {
    let kind = chance.below(12);
    let mut w: Vec<f64> = (0..m)
        .map(|_| match kind {
            0 => 1.0,
            1 | 2 => chance.unit() + 0.01,
            3 => chance.signed(),
            4 => chance.sign() * 2f64.powi(chance.below(40) as i32 - 20),
            5 => chance.sign() * 10f64.powi(chance.below(600) as i32 - 320),
            6 => f64::from_bits(chance.word() >> chance.between(12, 63)),
            7 => chance.signed() * (f64::MAX / 512.0),
            8 => chance.pick(&[0.0, -0.0, 1.0, -1.0, 3.0]),
            9 => chance.pick(&[1.0, 2.0, 3.0]),
            10 => chance.unit() * if chance.once_in(5) { 1e-300 } else { 1e-3 },
            _ => 1.0 / (1.0 + chance.below(5) as f64),
        })
        .collect();
    if chance.once_in(5) {
        let at = chance.below(m);
        w[at] = chance.pick(&[100.0, -100.0, 5e-324, 1.0]);
    }
    if w.iter().all(|w| *w == 0.0) {
        w[chance.below(m)] = chance.sign();
    }
    w
}

fn ensemble(m: usize, n: usize, chance: &mut Chance) -> Ensemble {
    let matrix = matrices::matrix(chance.below(matrices::MARGIN_KINDS), m, n, chance);
    Ensemble { matrix, m, n, weights: weights(m, chance), seed: chance.seed(), edition: chance.pick(&[1, 2]) }
}

/// Jobs of edition 2 whose draws show the edition, and what the original says of them. `handed` is the edition that the library is told.
fn parting(handed: u32, tally: &mut Tally, chance: &mut Chance) {
    for _ in 0..count(1000).max(200) {
        let (m, n) = (chance.between(20, 60), chance.between(10, 40));
        let matrix = (0..m * n).map(|_| chance.signed()).collect();
        let weights = (0..m).map(|_| chance.unit() + 0.5).collect();
        let mut e = Ensemble { matrix, m, n, weights, seed: chance.small(), edition: 2 };
        let rule = Rule::Target(chance.between(2, m / 4));
        let said = by_stages(&matrices::columns(&e.matrix, m, n), &e, rule);
        e.edition = handed;
        let made = make(&e, rule, Lent::new(m, || chance.word()), Scratch::enough(m, n, chance));
        let equal = made.answer.number == 0
            && made.answer.has_path(&said.path)
            && made.output.content().iter().copied().eq(said.weights.iter().map(|w| w.to_bits()));
        tally.note(equal, || format!("{m} columns, {n} rows, seed {:016X}, {rule:?}", e.seed));
    }
}

fn a_rule(m: usize, chance: &mut Chance) -> Rule {
    let some = |chance: &mut Chance| match chance.below(4) {
        0 => chance.between(1, 4),
        1 => chance.pick(&[m.max(1), m + 1, 1 << 32, usize::MAX]),
        _ => chance.between(1, m.max(1)),
    };
    if chance.once_in(2) {
        return Rule::Target(some(chance));
    }
    let allowance = match chance.below(8) {
        0 => chance.pick(&[0.0, -0.0, f64::MAX, 5e-324, 2.0, 1.0]),
        1 => chance.unit() * 1e-3,
        2 => chance.unit() * 2.0,
        _ => chance.unit() * 0.5,
    };
    Rule::Within(allowance, if chance.once_in(2) { None } else { Some(some(chance)) })
}

/// Four rules, the last with an allowance at the very change of an earlier job or one double below it.
fn rules(e: &Ensemble, chance: &mut Chance) -> Vec<Rule> {
    let mut rules: Vec<Rule> = (0..3).map(|_| a_rule(e.m, chance)).collect();
    let made = make(e, Rule::Target(chance.between(1, e.m)), Lent::new(e.m, || 0), Scratch::enough(e.m, e.n, chance));
    let change = made.answer.change;
    let allowance = if change > 0.0 && chance.once_in(2) { f64::from_bits(change.to_bits() - 1) } else { change };
    rules.push(Rule::Within(
        if allowance >= 0.0 { allowance } else { 0.0 },
        if chance.once_in(2) { None } else { Some(chance.between(1, e.m)) },
    ));
    rules
}

/// A job with one fault or two.
fn spoiled(chance: &mut Chance) -> (Ensemble, Rule, Lent<u64>, Scratch) {
    let (m, n) = (chance.between(1, 10), chance.between(1, 10));
    let mut e = ensemble(m, n, chance);
    let mut rule = a_rule(m, chance);
    let (mut output, (mut numbers, mut indices)) = (m, scratch_sizes(m, n));
    for _ in 0..chance.between(1, 3) {
        let near = |len: usize, chance: &mut Chance| chance.pick(&[len + 1, len.saturating_sub(1), 0, 2 * len + 3]);
        match chance.below(15) {
            0 | 1 => {
                rule = Rule::Within(
                    chance.pick(&[-1.0, f64::NAN, -f64::NAN, -5e-324, f64::NEG_INFINITY, f64::INFINITY]),
                    chance.pick(&[None, Some(0), Some(3)]),
                )
            }
            2 => rule = chance.pick(&[Rule::Target(0), Rule::Within(0.5, Some(0)), Rule::Within(f64::INFINITY, Some(0))]),
            3 => e.m = chance.pick(&[257, usize::MAX, 1 << 63]),
            4 => e.n = chance.pick(&[4097, usize::MAX, 1 << 61]),
            5 => e.matrix.resize(near(e.matrix.len(), chance), 0.5),
            6 => e.weights.resize(near(e.weights.len(), chance), 0.5),
            7 => output = near(output, chance),
            8 => {
                // No columns or no rows, with lengths that fit.
                e.m = chance.pick(&[0, e.m]);
                e.n = if e.m == 0 && chance.once_in(2) { e.n } else { 0 };
                e.matrix.clear();
                e.weights.truncate(e.m);
                output = e.weights.len();
            }
            9 => numbers -= numbers.min(chance.between(1, 60) as u128),
            10 => indices -= indices.min(chance.between(1, 60) as u128),
            11 if !e.matrix.is_empty() => {
                let at = chance.below(e.matrix.len());
                e.matrix[at] = chance.pick(&[f64::NAN, 1.0000000000000002, -1.0000000000000002, f64::INFINITY, -1e300, 1.0]);
            }
            12 if !e.weights.is_empty() => {
                let at = chance.below(e.weights.len());
                e.weights[at] = chance.pick(&[f64::NAN, f64::INFINITY, f64::NEG_INFINITY, f64::MAX]);
            }
            13 => {
                let all = chance.pick(&[0.0, -0.0, f64::MAX, -f64::MAX]);
                e.weights.iter_mut().for_each(|w| *w = all);
            }
            14 => e.edition = chance.pick(&[0, 3, 4, 12, 1 << 31, u32::MAX, 2]),
            _ => {}
        }
    }
    let output = Lent::new(output, || chance.word());
    (e, rule, output, Scratch::new(numbers as usize, indices as usize, chance))
}

fn main() {
    let folder = std::env::args().nth(1).expect("the folder of archived ensembles");
    let mut chance = Chance::new("thinning", 3);
    if std::env::args().nth(2).as_deref() == Some("ignoring") {
        let mut ignoring = Tally::new("thinning, the edition ignored");
        parting(1, &mut ignoring, &mut chance);
        end(&[&ignoring]);
    }
    let mut all = Comparison {
        domain: Domain::new(),
        answers: Tally::new("thinning"),
        outside: Tally::rare("thinning, outside the domain"),
        original: Tally::new("the original's stages and its own calls"),
        scratch: Tally::new("thinning, scratch wiped"),
        inputs: Tally::new("thinning, inputs kept"),
        broken_off: Tally::new("thinning, a direction broken off"),
        refusals: Tally::new("thinning, refusals"),
        paths: Tally::new("thinning, two jobs read one path"),
        pairs: Tally::new("thinning, the second job allows as much"),
    };
    let some = |how_many: usize, m: usize, n: usize, all: &mut Comparison, chance: &mut Chance| {
        for _ in 0..count(how_many) {
            let e = ensemble(chance.between(1, m), chance.between(1, n), chance);
            let rules = rules(&e, chance);
            all.jobs(&e, &rules, chance);
        }
    };
    some(2000, 16, 24, &mut all, &mut chance);
    some(600, 48, 64, &mut all, &mut chance);
    some(40, 128, 256, &mut all, &mut chance);
    some(6, 256, 1000, &mut all, &mut chance);
    for (m, early) in (2..=8).flat_map(|m| (0..24).map(move |early| (m, early))) {
        // An early Gaussian is a zero: where the direction has nothing beside it, it is broken off.
        let e = Ensemble { seed: zero_at(early), ..ensemble(m, 6, &mut chance) };
        let rules = [Rule::Target(1), Rule::Within(f64::MAX, None), Rule::Within(0.0, None), a_rule(m, &mut chance)];
        all.jobs(&e, &rules, &mut chance);
    }
    let mut large = ensemble(256, 4096, &mut chance);
    large.weights = (0..256).map(|_| chance.unit() + 0.5).collect();
    all.jobs(&large, &[Rule::Target(4), Rule::Within(0.25, None)], &mut chance);
    for face in faces::faces(&folder) {
        let e = Ensemble {
            matrix: face.margins,
            m: face.m,
            n: face.n,
            weights: face.weights,
            seed: chance.word(),
            edition: chance.pick(&[1, 2]),
        };
        all.jobs(&e, &[Rule::Target(4), Rule::Target(16), Rule::Within(0.2, None), Rule::Within(0.05, Some(20))], &mut chance);
    }
    let mut telling = Tally::new("thinning, jobs that show the edition");
    parting(2, &mut telling, &mut chance);
    for _ in 0..count(6000) {
        let (e, rule, output, scratch) = spoiled(&mut chance);
        all.refused(&e, rule, output, scratch);
    }
    for (m, n) in [(257, 1), (1, 4097), (256, 1), (1, 4096)] {
        let e = ensemble(m, n, &mut chance);
        let output = Lent::new(m, || chance.word());
        all.refused(&e, Rule::Target(2), output, Scratch::enough(m, n, &mut chance));
    }
    all.domain.tell();
    let Comparison { answers, outside, original, scratch, inputs, broken_off, refusals, paths, pairs, .. } = &all;
    end(&[answers, outside, original, &telling, scratch, inputs, broken_off, refusals, paths, pairs])
}
