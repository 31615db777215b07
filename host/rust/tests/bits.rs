//! Votes as bits: answers equal those of the double form, every refusal in its order, also those that only the archive's own calls can
//! reach, and spare bits.

use knobthistle::{color, max_margin_change, thin, thin_all, turned_words};
use knobthistle::{Coloring, Edition, Item, Job, NotAVote, Refusal, Rule, Thinned, Votes, MAX_COLUMNS, MAX_ITEMS, MAX_ROWS};

/// The archive's own calls, as the crate declares them.
#[allow(dead_code)]
#[path = "../src/archive.rs"]
mod archive;

use archive::{Answer, Answers, Colored};

/// A small generator for the tests' own choices.
struct Chance(u64);

impl Chance {
    fn word(&mut self) -> u64 {
        self.0 ^= self.0 << 13;
        self.0 ^= self.0 >> 7;
        self.0 ^= self.0 << 17;
        self.0
    }

    fn below(&mut self, end: usize) -> usize {
        (self.word() >> 11) as usize % end
    }

    fn signed(&mut self) -> f64 {
        (self.word() >> 11) as f64 / 4503599627370496.0 - 1.0
    }

    fn vector(&mut self, length: usize) -> Vec<f64> {
        (0..length).map(|_| self.signed()).collect()
    }

    /// Columns of yes and no, now and then all alike.
    fn bools(&mut self, m: usize, n: usize) -> Vec<Vec<bool>> {
        let kind = self.below(8);
        (0..m).map(|_| (0..n).map(|_| if kind < 2 { kind == 1 } else { self.below(2) == 1 }).collect()).collect()
    }

    fn job(&mut self, m: usize) -> Job {
        let (some, allowance) = (1 + self.below(m), self.signed().abs());
        let rule = match self.below(3) {
            0 => Rule::Target(some),
            1 => Rule::Within { allowance, cap: None },
            _ => Rule::Within { allowance: allowance / 4.0, cap: Some(some) },
        };
        Job { seed: self.word(), edition: [Edition::First, Edition::Second][self.below(2)], rule }
    }
}

/// The doubles that votes stand for.
fn doubles(votes: &[Vec<bool>]) -> Vec<Vec<f64>> {
    votes.iter().map(|column| column.iter().map(|yes| if *yes { 1.0 } else { -1.0 }).collect()).collect()
}

/// Every bit of an answer.
fn every_bit(thinned: &Thinned) -> Vec<u64> {
    let counts = [thinned.stage, thinned.nonzeros, thinned.directions, thinned.sweeps, thinned.path.len()].map(|count| count as u64);
    let path = thinned.path.iter().flat_map(|(left, change)| [*left as u64, change.to_bits()]);
    let weights = thinned.weights.iter().map(|weight| weight.to_bits());
    counts.into_iter().chain([thinned.change.to_bits()]).chain(path).chain(weights).collect()
}

/// The four calls on votes and on the doubles that they stand for.
fn hold_equal(bools: &[Vec<bool>], n: usize, chance: &mut Chance) {
    let (votes, columns, m) = (Votes::from_bools(bools), doubles(bools), bools.len());
    assert_eq!(Votes::from_signs(&columns).as_ref(), Ok(&votes));
    let (weights, job, seed) = (chance.vector(m), chance.job(m), chance.word());
    let (ours, theirs) = (thin(&votes, &weights, job).unwrap(), thin(&columns, &weights, job).unwrap());
    assert_eq!(every_bit(&ours), every_bit(&theirs), "{m} columns, {n} rows, {job:?}");
    assert_eq!(color(&votes, seed), color(&columns, seed), "{m} columns, {n} rows, seed {seed}");
    let after = if chance.below(2) == 0 { ours.weights } else { chance.vector(m) };
    let change = |found: Result<f64, Refusal>| found.unwrap().to_bits();
    let both = [max_margin_change(&votes, &weights, &after), max_margin_change(&columns, &weights, &after)].map(change);
    assert_eq!(both[0], both[1], "{m} columns, {n} rows");
    let thresholds = chance.vector(n);
    let turned = turned_words(&votes, &weights, &after, &thresholds);
    assert_eq!(turned, turned_words(&columns, &weights, &after, &thresholds), "{m} columns, {n} rows");
}

#[test]
fn answers_of_the_double_form() {
    let mut chance = Chance(11);
    for n in 1..=70 {
        for _ in 0..12 {
            let m = 1 + chance.below(24);
            hold_equal(&chance.bools(m, n), n, &mut chance);
        }
    }
    for (m, n) in [(MAX_COLUMNS, 3), (2, MAX_ROWS), (3, MAX_ROWS - 1), (60, 500), (61, 1001)] {
        hold_equal(&chance.bools(m, n), n, &mut chance);
    }
}

#[test]
fn weights_of_any_doubles() {
    let columns = vec![vec![true, false, true], vec![true, true, false]];
    let (votes, doubles) = (Votes::from_bools(&columns), doubles(&columns));
    for odd in [f64::NAN, f64::INFINITY, f64::MAX, -0.0, 5e-324] {
        for (before, after) in [([odd, 1.0], [0.5, odd]), ([1.0, 1.0], [odd, odd]), ([odd, -odd], [-odd, 0.0])] {
            assert_eq!(max_margin_change(&votes, &before, &after), max_margin_change(&doubles, &before, &after));
            assert_eq!(turned_words(&votes, &before, &after, &[0.0; 3]), turned_words(&doubles, &before, &after, &[0.0; 3]));
        }
    }
}

#[test]
fn packed_by_hand() {
    let bytes = |columns: &[Vec<bool>]| Votes::from_bools(columns).bits().to_vec();
    assert_eq!(bytes(&[vec![true; 8], vec![false; 8]]), [0x00, 0xFF]);
    // Row 0 is the lowest bit, row 8 that of the next byte, and a column begins on a byte.
    let lonely = |at: usize, n: usize| (0..n).map(|i| i != at).collect::<Vec<bool>>();
    assert_eq!(bytes(&[lonely(0, 9), lonely(7, 9), lonely(8, 9)]), [0x01, 0x00, 0x80, 0x00, 0x00, 0x01]);
    assert_eq!(bytes(&[lonely(3, 4), lonely(1, 4)]), [0x08, 0x02]);
    assert_eq!(bytes(&[vec![], vec![]]), []);
    let votes = Votes::from_bools(&[lonely(0, 9), lonely(8, 9)]);
    assert_eq!((votes.columns(), votes.rows()), (2, 9));
    assert_eq!(Votes::from_bits(votes.bits().to_vec(), 2, 9), votes);
}

#[test]
fn signs_of_every_kind() {
    let expected = Votes::from_bools(&[[true, false, false]]);
    assert_eq!(Votes::from_signs(&[[1.0f64, -1.0, -1.0]]).as_ref(), Ok(&expected));
    assert_eq!(Votes::from_signs(&[[1.0f32, -1.0, -1.0]]).as_ref(), Ok(&expected));
    assert_eq!(Votes::from_signs(&[vec![1i8, -1, -1]]).as_ref(), Ok(&expected));
    assert_eq!(Votes::from_signs(&[&[1i32, -1, -1][..]]).as_ref(), Ok(&expected));
    for other in [0.0, -0.0, 0.5, 1.0000000000000002, -1.0000000000000002, f64::NAN, f64::INFINITY, f64::NEG_INFINITY] {
        assert_eq!(Votes::from_signs(&[vec![1.0, 1.0], vec![-1.0, other]]), Err(NotAVote { column: 1, row: 1 }));
        assert_eq!(Votes::from_signs(&[vec![other, 0.0], vec![0.0, 0.0]]), Err(NotAVote { column: 0, row: 0 }));
    }
    for other in [0, 2, -2, i8::MIN, i8::MAX] {
        assert_eq!(Votes::from_signs(&[[1, other, -1]]), Err(NotAVote { column: 0, row: 1 }));
    }
    let why: Box<dyn std::error::Error> = NotAVote { column: 3, row: 4 }.into();
    assert_eq!(why.to_string(), "the entry of column 3 and row 4 is neither 1 nor -1");
}

/// Several items on votes have what each has by itself, and what they have on the doubles, by any number of threads.
#[test]
fn several_items() {
    let mut chance = Chance(12);
    for round in 0..80 {
        let (m, n) = (1 + chance.below(20), 1 + chance.below(20));
        let bools = chance.bools(m, n);
        let (votes, columns) = (Votes::from_bools(&bools), doubles(&bools));
        let many = if round == 0 { MAX_ITEMS } else { chance.below(12) };
        let weights: Vec<Vec<f64>> = (0..many)
            .map(|_| match chance.below(6) {
                0 => vec![0.0; m],
                1 => vec![f64::INFINITY; m],
                _ => chance.vector(m),
            })
            .collect();
        let job = |chance: &mut Chance| match chance.below(6) {
            0 => Job { rule: Rule::Target(0), ..chance.job(m) },
            1 => Job { rule: Rule::Within { allowance: chance.signed() / 4.0, cap: None }, ..chance.job(m) },
            _ => chance.job(m),
        };
        let items: Vec<Item> = weights.iter().map(|weights| Item { weights, job: job(&mut chance) }).collect();
        let every = |found: &[Result<Thinned, Refusal>]| -> Vec<Result<Vec<u64>, Refusal>> {
            found.iter().map(|one| one.as_ref().map(every_bit).map_err(|refusal| *refusal)).collect()
        };
        let singles: Vec<_> = items.iter().map(|item| thin(&votes, item.weights, item.job)).collect();
        assert_eq!(every(&thin_all(&columns, &items, 1).unwrap()), every(&singles), "{m} columns, {n} rows");
        for threads in [0, 1, 2, 3, 7, 100] {
            assert_eq!(every(&thin_all(&votes, &items, threads).unwrap()), every(&singles), "{m} columns, {n} rows, {threads} threads");
        }
    }
}

/// What the call for several items refuses as a whole, also spread over threads.
#[test]
fn several_items_refused() {
    let job = Job { seed: 1, edition: Edition::First, rule: Rule::Target(1) };
    let (item, zero) = (Item { weights: &[1.0, 2.0], job }, Item { weights: &[f64::NAN, 0.0], job: Job { rule: Rule::Target(0), ..job } });
    let (longer, shorter) = (Item { weights: &[1.0, 2.0, 3.0], job }, Item { weights: &[1.0], job });
    let of = |bits: &[u8], m: usize, n: usize, items: &[Item], expected: Option<Refusal>| {
        for threads in [1, 2, 8] {
            assert_eq!(thin_all(&Votes::from_bits(bits.to_vec(), m, n), items, threads).err(), expected, "{m} columns, {n} rows");
        }
    };
    of(&[0b01, 0b10], 2, 2, &[], None);
    of(&[0b01, 0b10], 2, 2, &[item; MAX_ITEMS], None);
    of(&[0b01, 0b10], 2, 2, &[item; MAX_ITEMS + 1], Some(Refusal::Size));
    of(&[0; 257], 257, 2, &[], Some(Refusal::Size));
    of(&[0; 8], usize::MAX, 1, &[item, item], Some(Refusal::Size));
    of(&[0; 8], 1, usize::MAX, &[shorter], Some(Refusal::Size));
    of(&[0b01, 0b10, 0], 2, 2, &[item, item], Some(Refusal::Length));
    of(&[0b01], 2, 2, &[item, item], Some(Refusal::Length));
    of(&[0b01, 0b10], 2, 2, &[longer, shorter], Some(Refusal::Length));
    of(&[0b01, 0b10], 2, 2, &[item, shorter, item], Some(Refusal::Length));
    of(&[0b1], 1, 1, &[Item { weights: &[], job }], Some(Refusal::Length));
    of(&[], 0, 0, &[], Some(Refusal::Empty));
    of(&[], 2, 0, &[item, item], Some(Refusal::Empty));
    of(&[0b01, 0b110], 2, 2, &[], Some(Refusal::SpareBit));
    of(&[0b101, 0b10], 2, 2, &[item, item], Some(Refusal::SpareBit));
    // The whole call is tested before any item.
    of(&[0b01, 0b110], 2, 2, &[zero, zero], Some(Refusal::SpareBit));
    let votes = Votes::from_bits(vec![0b01, 0b10], 2, 2);
    assert_eq!(thin_all(&votes, &[zero, item], 1).unwrap(), [Err(Refusal::Zero), thin(&votes, item.weights, job)]);
}

/// What every call says of votes, with lists that fit m columns and n rows.
fn everywhere(votes: &Votes) -> [Option<Refusal>; 5] {
    let weights = vec![0.5; votes.columns()];
    let job = Job { seed: 1, edition: Edition::First, rule: Rule::Target(1) };
    [
        thin(votes, &weights, job).err(),
        thin_all(votes, &[Item { weights: &weights, job }; 2], 1).err(),
        color(votes, 1).err(),
        max_margin_change(votes, &weights, &weights).err(),
        turned_words(votes, &weights, &weights, &vec![0.0; votes.rows()]).err(),
    ]
}

#[test]
fn sizes_and_lengths() {
    for (m, n) in [(MAX_COLUMNS + 1, 1), (1, MAX_ROWS + 1), (MAX_COLUMNS + 1, MAX_ROWS + 1), (MAX_COLUMNS + 1, 0)] {
        assert_eq!(everywhere(&Votes::from_bools(&vec![vec![true; n]; m])), [Some(Refusal::Size); 5]);
    }
    // The second and the third have as many bytes as m and n say all the same.
    for lengths in [&[2usize, 1][..], &[2, 1, 3], &[9, 10, 16], &[8, 9], &[1, 9], &[0, 1], &[0, 9, 9], &[1, 0], &[16, 1, 1]] {
        let columns: Vec<Vec<bool>> = lengths.iter().map(|n| vec![true; *n]).collect();
        assert_eq!(everywhere(&Votes::from_bools(&columns)), [Some(Refusal::Length); 5], "{lengths:?}");
    }
    for (m, n, bytes) in [(2, 9, 3), (2, 9, 5), (2, 8, 1), (2, 8, 4), (1, 1, 0), (0, 0, 1), (0, 9, 2), (3, 0, 1), (2, 9, 18)] {
        assert_eq!(everywhere(&Votes::from_bits(vec![0; bytes], m, n)), [Some(Refusal::Length); 5], "{m} columns, {n} rows, {bytes} bytes");
    }
    for (m, n) in [(usize::MAX, 1), (1, usize::MAX), (1 << 61, 8)] {
        let votes = Votes::from_bits(vec![0; 8], m, n);
        assert_eq!(max_margin_change(&votes, &[0.5], &[0.5]), Err(Refusal::Size));
        assert_eq!(color(&votes, 1), Err(Refusal::Size));
    }
    // No column or no row: a thinning alone minds.
    for votes in [Votes::from_bools::<Vec<bool>>(&[]), Votes::from_bools(&[[], [], []]), Votes::from_bits(vec![], 0, 9)] {
        assert_eq!(everywhere(&votes), [Some(Refusal::Empty), Some(Refusal::Empty), None, None, None]);
    }
}

/// Each spare bit of each column by itself, and no bit that is not spare.
#[test]
fn spare_bits() {
    for n in 1..=17usize {
        let (m, stride) = (3, n.div_ceil(8));
        for place in 0..8 * m * stride {
            let mut bits = vec![0; m * stride];
            bits[place / 8] |= 1 << (place % 8);
            let spare = place % (8 * stride) >= n;
            let expected = if spare { Some(Refusal::SpareBit) } else { None };
            assert_eq!(everywhere(&Votes::from_bits(bits, m, n)), [expected; 5], "{n} rows, bit {place}");
        }
    }
}

/// The arguments of one of the archive's calls.
#[derive(Clone)]
struct Call {
    bits: Vec<u8>,
    m: usize,
    n: usize,
    weights: Vec<f64>,
    after: Vec<f64>,
    thresholds: Vec<f64>,
    edition: u32,
    rule: u32,
    allowance: f64,
    limit: usize,
    places: usize,
    short: bool,
}

/// What is lent to be written.
struct Lent<T> {
    output: Vec<T>,
    numbers: Vec<f64>,
    indices: Vec<u32>,
}

impl Call {
    /// Two columns of three rows, accepted by every call.
    fn good() -> Call {
        let two = vec![1.0, 3.0];
        let thresholds = vec![0.0; 3];
        let (edition, rule, allowance, limit) = (1, 2, 0.5, 1);
        Call {
            bits: vec![0b000, 0b110],
            m: 2,
            n: 3,
            weights: two.clone(),
            after: two,
            thresholds,
            edition,
            rule,
            allowance,
            limit,
            places: 2,
            short: false,
        }
    }

    /// Scratch of exactly what is wanted, or one number less.
    fn lent<T: Clone>(&self, noise: T) -> Lent<T> {
        let (m, n) = (self.m.min(MAX_COLUMNS), self.n.min(MAX_ROWS));
        let (numbers, indices) = (m * (n + 1) + m * m + 16 * m + 8 * (n + 1), 8 * (m + n + 1));
        Lent { output: vec![noise; self.places], numbers: vec![77.0; numbers - usize::from(self.short)], indices: vec![77; indices] }
    }

    /// The number, by one of the three thinnings.
    fn thinned(&self, which: usize) -> u64 {
        let mut lent = self.lent(77.0);
        let mut answer = Answer { number: 77, stage: 77, ..Answer::default() };
        let (bits, weights) = ((self.bits.as_ptr(), self.bits.len()), (self.weights.as_ptr(), self.weights.len()));
        let (output, numbers, indices) = (lent.output.as_mut_ptr(), lent.numbers.as_mut_ptr(), lent.indices.as_mut_ptr());
        let (places, floats, words) = (lent.output.len(), lent.numbers.len(), lent.indices.len());
        let (m, n, edition, allowance, limit) = (self.m, self.n, self.edition, self.allowance, self.limit);
        #[rustfmt::skip]
        unsafe {
            match which {
                0 => archive::knob_sparsify_bits(
                    &mut answer, bits.0, bits.1, m, n, weights.0, weights.1, 5, edition, limit,
                    output, places, numbers, floats, indices, words,
                ),
                1 => archive::knob_sparsify_within_bits(
                    &mut answer, bits.0, bits.1, m, n, weights.0, weights.1, 5, edition, allowance, u32::from(self.rule == 2), limit,
                    output, places, numbers, floats, indices, words,
                ),
                _ => archive::knob_thin_bits(
                    &mut answer, bits.0, bits.1, m, n, weights.0, weights.1, 5, edition, self.rule, allowance, limit,
                    output, places, numbers, floats, indices, words,
                ),
            }
        };
        assert!(answer.number == 0 || zero(&answer));
        lent.hold(answer.number, 77.0);
        answer.number
    }

    /// The number of the call for several items, or else that of each of them: all have the job of this call. The lengths are those of
    /// weights, seeds, editions, rules, allowances, limits and output.
    fn thinned_all(&self, items: usize, lengths: [usize; 7]) -> Result<Vec<u64>, u64> {
        let mut lent = Call { places: lengths[6], ..self.clone() }.lent(77.0);
        let weights: Vec<f64> = self.weights.iter().copied().cycle().take(lengths[0]).collect();
        let (seeds, editions, rules) = (vec![5; lengths[1]], vec![self.edition; lengths[2]], vec![self.rule; lengths[3]]);
        let (allowances, limits) = (vec![self.allowance; lengths[4]], vec![self.limit as u64; lengths[5]]);
        let noise = Answer { number: 77, stage: 77, ..Answer::default() };
        let mut answers = Answers { number: 77, items: [noise; MAX_ITEMS] };
        let (output, numbers, indices) = (lent.output.as_mut_ptr(), lent.numbers.as_mut_ptr(), lent.indices.as_mut_ptr());
        let (places, floats, words) = (lent.output.len(), lent.numbers.len(), lent.indices.len());
        #[rustfmt::skip]
        unsafe {
            archive::knob_thin_all_bits(
                &mut answers, self.bits.as_ptr(), self.bits.len(), self.m, self.n, items, weights.as_ptr(), weights.len(),
                seeds.as_ptr(), seeds.len(), editions.as_ptr(), editions.len(), rules.as_ptr(), rules.len(),
                allowances.as_ptr(), allowances.len(), limits.as_ptr(), limits.len(), output, places, numbers, floats, indices, words,
            )
        };
        if answers.number != 0 {
            assert!(answers.items.iter().all(|answer| answer.number == 0 && zero(answer)));
            lent.hold(answers.number, 77.0);
            return Err(answers.number);
        }
        assert!(answers.items[items..].iter().all(|answer| answer.number == 0 && zero(answer)));
        // The scratch is zero also where every item is refused, and a refused item's part of the output is as it was.
        for (answer, part) in answers.items.iter().zip(lent.output.chunks(self.m)) {
            assert!(answer.number == 0 || zero(answer));
            assert!(part.iter().all(|weight| (*weight == 77.0) == (answer.number != 0)));
        }
        lent.output.clear();
        lent.hold(0, 77.0);
        Ok(answers.items[..items].iter().map(|answer| answer.number).collect())
    }

    fn colored(&self) -> u64 {
        let mut lent = self.lent(77i8);
        let mut answer = Colored { number: 77, directions: 77, sweeps: 77 };
        let (output, numbers, indices) = (lent.output.as_mut_ptr(), lent.numbers.as_mut_ptr(), lent.indices.as_mut_ptr());
        let (places, floats, words) = (lent.output.len(), lent.numbers.len(), lent.indices.len());
        #[rustfmt::skip]
        unsafe {
            archive::knob_discrepancy_coloring_bits(
                &mut answer, self.bits.as_ptr(), self.bits.len(), self.m, self.n, 5, output, places, numbers, floats, indices, words,
            )
        };
        assert!(answer.number == 0 || (answer.directions, answer.sweeps) == (0, 0));
        lent.hold(answer.number, 77);
        answer.number
    }

    fn changed(&self) -> u64 {
        let mut change = 77.0;
        let (before, after) = (&self.weights, &self.after);
        #[rustfmt::skip]
        let number = unsafe {
            archive::knob_max_margin_change_bits(
                self.bits.as_ptr(), self.bits.len(), self.m, self.n, before.as_ptr(), before.len(), after.as_ptr(), after.len(), &mut change,
            )
        };
        assert!(number == 0 || change.to_bits() == 0);
        number
    }

    fn turned(&self) -> u64 {
        let mut count = 77;
        let (before, after, thresholds) = (&self.weights, &self.after, &self.thresholds);
        #[rustfmt::skip]
        let number = unsafe {
            archive::knob_turned_words_bits(
                self.bits.as_ptr(), self.bits.len(), self.m, self.n, before.as_ptr(), before.len(), after.as_ptr(), after.len(),
                thresholds.as_ptr(), thresholds.len(), &mut count,
            )
        };
        assert!(number == 0 || count == 0);
        number
    }
}

/// All but the number.
fn zero(answer: &Answer) -> bool {
    let counts = [answer.stage, answer.nonzeros, answer.change.to_bits(), answer.directions, answer.sweeps];
    counts == [0; 5] && answer.path_nonzeros == [0; 9] && answer.path_change.map(f64::to_bits) == [0; 9]
}

impl<T: PartialEq> Lent<T> {
    /// A refusal changes nothing, and an accepted call leaves the scratch zero.
    fn hold(&self, number: u64, noise: T) {
        let (float, word) = if number == 0 { (0.0, 0) } else { (77.0, 77) };
        assert!(self.numbers.iter().all(|x| *x == float) && self.indices.iter().all(|x| *x == word), "{number}");
        assert!(self.output.iter().all(|x| (*x == noise) == (number != 0)), "{number}");
    }
}

/// A call with every fault at once, which are mended one after the other: each is given as soon as those before it are mended.
#[test]
fn the_order_of_refusals() {
    let good = Call::good();
    let mut call = Call {
        bits: vec![],
        m: 257,
        n: 0,
        weights: vec![],
        after: vec![],
        thresholds: vec![f64::NAN; 9],
        edition: 3,
        limit: 0,
        allowance: -1.0,
        places: 9,
        short: true,
        ..good.clone()
    };
    let all = |call: &Call| [call.thinned(0), call.thinned(1), call.thinned(2), call.colored(), call.changed(), call.turned()];
    assert_eq!(all(&call), [2, 1, 1, 3, 3, 3]);
    call.allowance = f64::INFINITY;
    assert_eq!(all(&call), [2, 12, 12, 3, 3, 3]);
    call.allowance = good.allowance;
    assert_eq!(all(&call), [2, 2, 2, 3, 3, 3]);
    call.limit = good.limit;
    assert_eq!(all(&call), [13, 13, 13, 3, 3, 3]);
    call.edition = good.edition;
    assert_eq!(all(&call), [3; 6]);
    call.m = good.m;
    assert_eq!(all(&call), [4; 6]);
    (call.weights, call.after, call.thresholds, call.places) = (vec![f64::NAN, 0.0], good.after.clone(), vec![], 2);
    assert_eq!(all(&call), [5, 5, 5, 6, 0, 0]);
    (call.n, call.bits, call.thresholds) = (good.n, vec![0b000, 0b1110], vec![0.0, f64::NAN, 0.0]);
    assert_eq!(all(&call), [6, 6, 6, 6, 15, 15]);
    call.short = false;
    assert_eq!(all(&call), [15; 6]);
    call.bits.clone_from(&good.bits);
    assert_eq!(all(&call), [8, 8, 8, 0, 0, 8]);
    (call.weights, call.thresholds) = (vec![0.0, -0.0], good.thresholds.clone());
    assert_eq!(all(&call), [9, 9, 9, 0, 0, 0]);
    call.weights.clone_from(&good.weights);
    assert_eq!(all(&call), [0; 6]);
}

/// Each list that has another length by itself, and each number that names no rule.
#[test]
fn other_lengths_and_rules() {
    type Spoil = fn(&mut Call);
    let wrong: [(Spoil, [u64; 6]); 7] = [
        (|call| call.bits.push(0), [4; 6]),
        (|call| call.bits.truncate(1), [4; 6]),
        (|call| call.weights.push(1.0), [4, 4, 4, 0, 4, 4]),
        (|call| call.after.truncate(1), [0, 0, 0, 0, 4, 4]),
        (|call| call.thresholds.push(0.0), [0, 0, 0, 0, 0, 4]),
        (|call| call.places = 3, [4, 4, 4, 4, 0, 0]),
        (|call| call.rule = 3, [0, 0, 2, 0, 0, 0]),
    ];
    for (k, (spoil, expected)) in wrong.into_iter().enumerate() {
        let mut call = Call::good();
        spoil(&mut call);
        let found = [call.thinned(0), call.thinned(1), call.thinned(2), call.colored(), call.changed(), call.turned()];
        assert_eq!(found, expected, "{k}");
    }
    // What a rule does not use is not looked at.
    assert_eq!(Call { rule: 0, allowance: f64::NAN, ..Call::good() }.thinned(2), 0);
    assert_eq!(Call { rule: 1, limit: 0, ..Call::good() }.thinned(2), 0);
}

/// The call for several items, with every fault at once, which are mended one after the other; and each list of another length by itself.
#[test]
fn refusals_of_several_items() {
    let (good, right) = (Call::good(), [6, 3, 3, 3, 3, 3, 6]);
    let mut call = Call {
        bits: vec![],
        m: 257,
        n: 0,
        weights: vec![f64::NAN, 0.0],
        edition: 3,
        limit: 0,
        allowance: -1.0,
        short: true,
        ..good.clone()
    };
    assert_eq!(call.thinned_all(3, [7; 7]), Err(3));
    call.m = good.m;
    assert_eq!(call.thinned_all(MAX_ITEMS + 1, [7; 7]), Err(3));
    assert_eq!(call.thinned_all(3, [7; 7]), Err(4));
    assert_eq!(call.thinned_all(3, right), Err(5));
    (call.n, call.bits) = (good.n, vec![0b000, 0b1110]);
    assert_eq!(call.thinned_all(3, right), Err(6));
    call.short = false;
    assert_eq!(call.thinned_all(3, right), Err(15));
    assert_eq!(call.thinned_all(0, [0; 7]), Err(15));
    call.bits.clone_from(&good.bits);
    assert_eq!(call.thinned_all(3, right), Ok(vec![1; 3]));
    call.allowance = f64::INFINITY;
    assert_eq!(call.thinned_all(3, right), Ok(vec![12; 3]));
    call.allowance = good.allowance;
    assert_eq!(call.thinned_all(3, right), Ok(vec![2; 3]));
    call.limit = good.limit;
    assert_eq!(call.thinned_all(3, right), Ok(vec![13; 3]));
    call.edition = good.edition;
    assert_eq!(call.thinned_all(3, right), Ok(vec![8; 3]));
    call.weights = vec![0.0, -0.0];
    assert_eq!(call.thinned_all(3, right), Ok(vec![9; 3]));
    call.weights.clone_from(&good.weights);
    assert_eq!(call.thinned_all(3, right), Ok(vec![0; 3]));
    assert_eq!(call.thinned_all(0, [0; 7]), Ok(vec![]));
    assert_eq!(call.thinned_all(64, [128, 64, 64, 64, 64, 64, 128]), Ok(vec![0; 64]));
    for (list, more) in (0..7).flat_map(|list| [(list, true), (list, false)]) {
        let mut lengths = right;
        lengths[list] = if more { right[list] + 1 } else { right[list] - 1 };
        assert_eq!(good.thinned_all(3, lengths), Err(4), "list {list}");
    }
    for bits in [vec![0b000], vec![0b000, 0b110, 0b000], vec![0; 6]] {
        assert_eq!(Call { bits, ..good.clone() }.thinned_all(3, right), Err(4));
    }
    assert_eq!(Call { rule: 3, ..good }.thinned_all(3, right), Ok(vec![2; 3]));
}

/// By references and pointers, as a host may have them.
#[test]
fn forms_that_are_taken() {
    let columns = vec![vec![1.0, 1.0], vec![1.0, -1.0]];
    let votes = Votes::from_signs(&columns).unwrap();
    let of = |found: Result<Coloring, Refusal>| found.unwrap();
    let expected = of(color(&columns, 3));
    assert_eq!(of(color(&columns[..], 3)), expected);
    assert_eq!(of(color(&[columns[0].clone(), columns[1].clone()], 3)), expected);
    assert_eq!(of(color(&&columns[..], 3)), expected);
    assert_eq!(of(color(&Box::new(votes.clone()), 3)), expected);
    assert_eq!(of(color(&std::rc::Rc::new(votes.clone()), 3)), expected);
    assert_eq!(of(color(&std::sync::Arc::<[Vec<f64>]>::from(columns), 3)), expected);
    assert_eq!(of(color(&&votes, 3)), expected);
    // Nothing at all, and the function of the original's shape.
    let job = Job { seed: 0, edition: Edition::First, rule: Rule::Target(1) };
    assert_eq!(thin(&[], &[], job), Err(Refusal::Empty));
    let change: fn(&[Vec<f64>], &[f64], &[f64]) -> Result<f64, Refusal> = max_margin_change;
    assert_eq!(change(&[vec![1.0]], &[1.0], &[0.5]), Ok(0.5));
}
