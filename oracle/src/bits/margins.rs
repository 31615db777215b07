//! The change of margins and turned words from bits, beside those of the doubles that the bits stand for. Both take any weights, so
//! infinities and NaNs are among them.

use crate::bits_calls::{knob_max_margin_change_bits, knob_turned_words_bits};
use crate::chance::{count, Chance};
use crate::lent::Lent;
use crate::margin_calls::{knob_max_margin_change, knob_turned_words};
use crate::matrices;
use crate::original;
use crate::packed::{expanded, set_spares, spare_set, stride, votes};
use crate::tally::{same, Tally};

/// What both calls are handed.
struct Call {
    bits: Vec<u8>,
    m: usize,
    n: usize,
    before: Vec<f64>,
    after: Vec<f64>,
    thresholds: Vec<f64>,
}

/// The same between guards, doubles by their bits, and what is written between guards too.
struct Room {
    bits: Lent<u8>,
    before: Lent<u64>,
    after: Lent<u64>,
    thresholds: Lent<u64>,
    written: Lent<u64>,
}

impl Room {
    fn new(c: &Call, chance: &mut Chance) -> Room {
        let list = |values: &[f64], chance: &mut Chance| {
            let words: Vec<u64> = values.iter().map(|x| x.to_bits()).collect();
            Lent::holding(&words, || chance.word())
        };
        Room {
            bits: Lent::holding(&c.bits, || chance.word() as u8),
            before: list(&c.before, chance),
            after: list(&c.after, chance),
            thresholds: list(&c.thresholds, chance),
            written: Lent::new(1, || chance.word()),
        }
    }

    fn kept(&self) -> bool {
        let lists = [&self.before, &self.after, &self.thresholds];
        self.bits.untouched() && lists.iter().all(|list| list.untouched()) && self.written.fenced()
    }

    fn word(&self) -> u64 {
        self.written.content()[0]
    }
}

impl Call {
    /// Number and change, from the bits or from doubles.
    fn change(&self, doubles: Option<&[f64]>, room: &mut Room) -> (u64, f64) {
        let (before_len, after_len, bits_len) = (room.before.len(), room.after.len(), room.bits.len());
        let (before, after) = (room.before.lend() as *const f64, room.after.lend() as *const f64);
        let (bits, change, m, n) = (room.bits.lend() as *const u8, room.written.lend() as *mut f64, self.m, self.n);
        #[rustfmt::skip]
        let number = unsafe {
            match doubles {
                None => knob_max_margin_change_bits(bits, bits_len, m, n, before, before_len, after, after_len, change),
                Some(matrix) => knob_max_margin_change(
                    matrix.as_ptr(), matrix.len(), m, n, before, before_len, after, after_len, change,
                ),
            }
        };
        (number, f64::from_bits(room.word()))
    }

    /// Number and turned words, from the bits or from doubles.
    fn turned(&self, doubles: Option<&[f64]>, room: &mut Room) -> (u64, u64) {
        let (before_len, after_len, bits_len) = (room.before.len(), room.after.len(), room.bits.len());
        let (before, after) = (room.before.lend() as *const f64, room.after.lend() as *const f64);
        let (thresholds_len, thresholds) = (room.thresholds.len(), room.thresholds.lend() as *const f64);
        let (bits, count, m, n) = (room.bits.lend() as *const u8, room.written.lend(), self.m, self.n);
        #[rustfmt::skip]
        let number = unsafe {
            match doubles {
                None => knob_turned_words_bits(
                    bits, bits_len, m, n, before, before_len, after, after_len, thresholds, thresholds_len, count,
                ),
                Some(matrix) => knob_turned_words(
                    matrix.as_ptr(), matrix.len(), m, n, before, before_len, after, after_len, thresholds, thresholds_len, count,
                ),
            }
        };
        (number, room.word())
    }

    /// 3 or 4, of what both calls have.
    fn sizes(&self) -> u64 {
        if self.m > 256 || self.n > 4096 {
            3
        } else if self.bits.len() != self.m * stride(self.n) || self.before.len() != self.m || self.after.len() != self.m {
            4
        } else {
            0
        }
    }

    fn change_refusal(&self) -> u64 {
        match self.sizes() {
            0 if spare_set(&self.bits, self.m, self.n) => 15,
            number => number,
        }
    }

    /// Turned words also want a threshold for each row, and each finite.
    fn turned_refusal(&self) -> u64 {
        match self.sizes() {
            0 if self.thresholds.len() != self.n => 4,
            0 if spare_set(&self.bits, self.m, self.n) => 15,
            0 if self.thresholds.iter().any(|t| !t.is_finite()) => 8,
            number => number,
        }
    }

    fn name(&self) -> String {
        format!("{} columns, {} rows", self.m, self.n)
    }
}

/// A row's margin, by the rule of document 02.
fn margin(matrix: &[f64], n: usize, i: usize, weights: &[f64]) -> f64 {
    weights.iter().enumerate().fold(0.0, |sum, (j, w)| sum + matrix[j * n + i] * w)
}

/// The rows whose margin was above the threshold and is not, or is and was not.
fn turned_rows(c: &Call, matrix: &[f64]) -> u64 {
    let above = |i: usize, weights: &[f64]| margin(matrix, c.n, i, weights) > c.thresholds[i];
    (0..c.n).filter(|i| above(*i, &c.before) != above(*i, &c.after)).count() as u64
}

fn a_call(m: usize, n: usize, chance: &mut Chance) -> Call {
    let wild = chance.once_in(5);
    let bits = votes(m, n, chance);
    let before: Vec<f64> = (0..m).map(|_| chance.any(wild)).collect();
    // Some weights stay, so that some differences are 0.
    let after: Vec<f64> = before.iter().map(|w| if chance.once_in(3) { *w } else { chance.any(wild) }).collect();
    // Thresholds that a margin meets exactly, zeros of both signs, and others.
    let matrix = expanded(&bits, m, n);
    let threshold = |i: usize| {
        let met = match chance.below(6) {
            0 => margin(&matrix, n, i, &before),
            1 => margin(&matrix, n, i, &after),
            2 => 0.0,
            3 => -0.0,
            _ => chance.any(false),
        };
        if met.is_finite() {
            met
        } else {
            0.5
        }
    };
    let thresholds = (0..n).map(threshold).collect();
    Call { bits, m, n, before, after, thresholds }
}

fn spoiled(chance: &mut Chance) -> Call {
    let (m, n) = (chance.below(8), chance.below(20));
    let mut c = a_call(m, n, chance);
    for _ in 0..chance.between(1, 2) {
        let near = |len: usize, chance: &mut Chance| chance.pick(&[len + 1, len.saturating_sub(1), 0, 2 * len + 3]);
        match chance.below(9) {
            0 => c.m = chance.pick(&[257, usize::MAX, 1 << 63]),
            1 => c.n = chance.pick(&[4097, usize::MAX, usize::MAX - 6, 1 << 61]),
            2 => c.bits.resize(near(c.bits.len(), chance), 0),
            3 => c.before.resize(near(c.before.len(), chance), 0.5),
            4 => c.after.resize(near(c.after.len(), chance), 0.5),
            5 => c.thresholds.resize(near(c.thresholds.len(), chance), 0.5),
            6 | 7 => set_spares(&mut c.bits, m, n, chance),
            _ => {
                let at = chance.below(c.thresholds.len().max(1));
                if let Some(t) = c.thresholds.get_mut(at) {
                    *t = chance.pick(&[f64::NAN, f64::INFINITY, f64::NEG_INFINITY]);
                }
            }
        }
    }
    c
}

pub struct Changes {
    changes: Tally,
    words: Tally,
    doubles: Tally,
    inputs: Tally,
    refusals: Tally,
}

impl Changes {
    pub fn new() -> Changes {
        Changes {
            changes: Tally::new("bits, change"),
            words: Tally::new("bits, turned words"),
            doubles: Tally::new("bits, the same changes and turned words in doubles"),
            inputs: Tally::new("bits, change and turned words, inputs kept"),
            refusals: Tally::new("bits, change and turned words, refusals"),
        }
    }

    pub fn tallies(&self) -> [&Tally; 5] {
        [&self.changes, &self.words, &self.doubles, &self.inputs, &self.refusals]
    }

    fn accepted(&mut self, m: usize, n: usize, chance: &mut Chance) {
        let c = a_call(m, n, chance);
        let matrix = expanded(&c.bits, m, n);
        let change = original::max_margin_change(&matrices::columns(&matrix, m, n), &c.before, &c.after);
        let turned = turned_rows(&c, &matrix);
        for doubles in [None, Some(&matrix[..])] {
            let (mut first, mut second) = (Room::new(&c, chance), Room::new(&c, chance));
            let (one, other) = (c.change(doubles, &mut first), c.turned(doubles, &mut second));
            let (right, counted) = (one.0 == 0 && same(one.1, change), other == (0, turned));
            let name = || format!("{}: {one:?} and {other:?}, expected {change:e} and {turned}", c.name());
            if doubles.is_some() {
                self.doubles.note(right && counted, name);
            } else {
                self.changes.note(right, name);
                self.words.note(counted, name);
            }
            self.inputs.note(first.kept() && second.kept(), name);
        }
    }

    fn refused(&mut self, c: &Call, chance: &mut Chance) {
        let expected = (c.change_refusal(), c.turned_refusal());
        let (mut first, mut second) = (Room::new(c, chance), Room::new(c, chance));
        let (one, other) = (c.change(None, &mut first), c.turned(None, &mut second));
        let zeros = (one.0 == 0 || one.1.to_bits() == 0) && (other.0 == 0 || other.1 == 0);
        let right = (one.0, other.0) == expected && zeros && first.kept() && second.kept();
        self.refusals.note(right, || format!("{}: {one:?} and {other:?}, expected {expected:?}", c.name()));
    }

    pub fn all(&mut self, chance: &mut Chance) {
        let mut sizes: Vec<(usize, usize)> = (0..=12).flat_map(|m| (0..=70).map(move |n| (m, n))).collect();
        sizes.extend([(0, 4096), (256, 0), (1, 4096), (256, 1), (256, 4096), (3, 127), (3, 128), (3, 129), (255, 4095)]);
        (0..count(4_000)).for_each(|_| sizes.push((chance.below(20), chance.below(80))));
        (0..count(400)).for_each(|_| sizes.push((chance.below(100), chance.below(400))));
        (0..count(10)).for_each(|_| sizes.push((chance.between(100, 256), chance.between(1000, 4096))));
        for (m, n) in sizes {
            self.accepted(m, n, chance);
        }
        for _ in 0..count(5_000) {
            let c = spoiled(chance);
            self.refused(&c, chance);
        }
    }
}
