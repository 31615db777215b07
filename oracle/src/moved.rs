// needs: knob_moved knob_moved_again knob_max_margin_change
//! Which word moved: the list built anew and brought up to date, from lists that hold noise, a permutation, an old list or the right one,
//! against a second writing with the library's sort. The first entry's magnitude is the measured change. Refusals against a table.

#[path = "shared/chance.rs"]
mod chance;
#[path = "shared/lent.rs"]
mod lent;
#[path = "shared/margin_calls.rs"]
mod margin_calls;
#[path = "shared/matrices.rs"]
mod matrices;
#[path = "shared/moved_calls.rs"]
mod moved_calls;
#[path = "shared/plain_moved.rs"]
mod plain_moved;
#[path = "shared/tally.rs"]
mod tally;

use chance::{count, Chance};
use lent::Lent;
use tally::{end, Tally};

struct Call {
    matrix: Vec<f64>,
    m: usize,
    n: usize,
    before: Vec<f64>,
    after: Vec<f64>,
}

impl Call {
    /// The number. The doubles are lent by their bits.
    fn run(&self, again: bool, rows: &mut Lent<u32>, changes: &mut Lent<u64>) -> u64 {
        let call = if again { moved_calls::knob_moved_again } else { moved_calls::knob_moved };
        let (rows_len, changes_len) = (rows.len(), changes.len());
        unsafe {
            call(
                self.matrix.as_ptr(),
                self.matrix.len(),
                self.m,
                self.n,
                self.before.as_ptr(),
                self.before.len(),
                self.after.as_ptr(),
                self.after.len(),
                rows.lend(),
                rows_len,
                changes.lend().cast(),
                changes_len,
            )
        }
    }

    fn measured(&self) -> f64 {
        let mut change = 77.0;
        unsafe {
            margin_calls::knob_max_margin_change(
                self.matrix.as_ptr(),
                self.matrix.len(),
                self.m,
                self.n,
                self.before.as_ptr(),
                self.before.len(),
                self.after.as_ptr(),
                self.after.len(),
                &mut change,
            )
        };
        change
    }

    fn refusal(&self, rows: usize, changes: usize) -> u64 {
        if self.m > 256 || self.n > 4096 {
            3
        } else if self.matrix.len() != self.m * self.n
            || self.before.len() != self.m
            || self.after.len() != self.m
            || rows != self.n
            || changes != self.n
        {
            4
        } else if !plain_moved::within_one(&self.matrix) {
            7
        } else if !plain_moved::within_one(&self.before) || !plain_moved::within_one(&self.after) {
            8
        } else {
            0
        }
    }

    /// The rows and the bits of their changes, as they should be.
    fn expected(&self) -> (Vec<u32>, Vec<u64>) {
        let changes = plain_moved::changes_of(&self.matrix, self.n, &self.before, &self.after);
        let mut rows: Vec<u32> = (0..self.n as u32).collect();
        plain_moved::sort(&mut rows, &changes);
        let listed = rows.iter().map(|row| changes[*row as usize].to_bits()).collect();
        (rows, listed)
    }

    fn bits(&self) -> Vec<u64> {
        self.matrix.iter().chain(&self.before).chain(&self.after).map(|x| x.to_bits()).collect()
    }

    fn name(&self) -> String {
        format!("{} columns, {} rows", self.m, self.n)
    }
}

/// A weight in [-1, 1].
fn weight(chance: &mut Chance) -> f64 {
    match chance.below(8) {
        0 => 0.0 * chance.sign(),
        1 => chance.sign(),
        2 => chance.signed() * 1e-310,
        3 => 0.25 * chance.sign(),
        _ => chance.signed(),
    }
}

/// An entry of a kind that makes many exact ties, or few.
fn call(m: usize, n: usize, chance: &mut Chance) -> Call {
    let matrix = match chance.below(4) {
        0 => (0..m * n).map(|_| chance.sign()).collect(),
        1 => (0..m * n).map(|_| chance.pick(&[0.0, -0.0, 0.5, -0.5, 1.0])).collect(),
        _ => matrices::matrix(chance.below(matrices::KINDS), m, n, chance).iter().map(|x| x.clamp(-1.0, 1.0)).collect(),
    };
    let before: Vec<f64> = (0..m).map(|_| weight(chance)).collect();
    let stays = chance.pick(&[1, 2, 3, 100]);
    let after = before.iter().map(|w| if chance.once_in(stays) { *w } else { weight(chance) }).collect();
    Call { matrix, m, n, before, after }
}

/// What the index holds before: noise, one number, the rows in another order, or the list as it should be with some rows exchanged.
fn index(c: &Call, chance: &mut Chance) -> Lent<u32> {
    let n = c.n;
    let mut held: Vec<u32> = match chance.below(5) {
        0 => (0..n).map(|_| chance.word() as u32).collect(),
        1 => vec![chance.below(n + 2) as u32; n],
        2 => (0..n as u32).collect(),
        _ => c.expected().0,
    };
    for _ in 0..if n == 0 { 0 } else { chance.pick(&[0, 1, 2, 31, 32, 33, 200]) } {
        let (a, b) = (chance.below(n), chance.below(n));
        held.swap(a, b);
        if chance.once_in(400) {
            held[a] = held[b];
        }
    }
    let mut next = held.into_iter();
    let mut place = 0;
    Lent::new(n, || {
        place += 1;
        if (9..9 + n).contains(&place) { next.next().expect("an index") } else { chance.word() as u32 }
    })
}

fn spoiled(chance: &mut Chance) -> (Call, usize, usize) {
    let mut c = call(chance.below(8), chance.below(8), chance);
    let (mut rows, mut changes) = (c.n, c.n);
    for _ in 0..chance.between(1, 2) {
        let near = |len: usize, chance: &mut Chance| chance.pick(&[len + 1, len.saturating_sub(1), 0, 2 * len + 3]);
        let odd = |chance: &mut Chance| {
            chance.pick(&[f64::NAN, f64::INFINITY, f64::NEG_INFINITY, 1.0 + f64::EPSILON, -1.0 - f64::EPSILON, 2.0, 1e300])
        };
        match chance.below(9) {
            0 => c.m = chance.pick(&[257, usize::MAX, 1 << 63]),
            1 => c.n = chance.pick(&[4097, usize::MAX, 1 << 61]),
            2 => c.matrix.resize(near(c.matrix.len(), chance), 0.5),
            3 => c.before.resize(near(c.before.len(), chance), 0.5),
            4 => c.after.resize(near(c.after.len(), chance), 0.5),
            5 => rows = near(rows, chance),
            6 => changes = near(changes, chance),
            7 => {
                let at = chance.below(c.matrix.len().max(1));
                if let Some(x) = c.matrix.get_mut(at) {
                    *x = odd(chance);
                }
            }
            _ => {
                let list = if chance.once_in(2) { &mut c.before } else { &mut c.after };
                let at = chance.below(list.len().max(1));
                if let Some(x) = list.get_mut(at) {
                    *x = odd(chance);
                }
            }
        }
    }
    (c, rows, changes)
}

fn main() {
    let mut chance = Chance::new("moved", 7);
    let (mut anew, mut again) = (Tally::new("moved"), Tally::new("moved again"));
    let (mut first, mut inputs) = (Tally::new("moved, the first and the measured change"), Tally::new("moved, inputs kept"));
    let mut refusals = Tally::new("moved, refusals");
    let mut sizes: Vec<(usize, usize)> = (0..=8).flat_map(|m| (0..=12).map(move |n| (m, n))).collect();
    for n in [0, 1, 2, 63, 64, 65, 127, 128, 129, 2047, 2048, 2049, 4095, 4096] {
        (0..12).for_each(|_| sizes.push((chance.below(6), n)));
    }
    sizes.extend([(256, 0), (256, 1), (256, 4096)]);
    (0..count(9_000)).for_each(|_| sizes.push((chance.below(20), chance.below(120))));
    (0..count(600)).for_each(|_| sizes.push((chance.below(40), chance.between(100, 4096))));
    for (m, n) in sizes {
        let c = call(m, n, &mut chance);
        let given = c.bits();
        let (rows, changes) = c.expected();
        for (up, tally) in [(false, &mut anew), (true, &mut again)] {
            let mut index = index(&c, &mut chance);
            let mut list = Lent::new(n, || chance.word());
            let number = c.run(up, &mut index, &mut list);
            let right = number == 0 && index.content() == rows && list.content() == changes && index.fenced() && list.fenced();
            tally.note(right, || format!("{}: {number}", c.name()));
            let top = list.content().first().map_or(0.0, |bits| f64::from_bits(*bits).abs());
            first.doubles(top, c.measured(), || c.name());
        }
        inputs.note(c.bits() == given, || c.name());
    }
    for _ in 0..count(8_000) {
        let (c, rows, changes) = spoiled(&mut chance);
        let expected = c.refusal(rows, changes);
        let (mut index, mut list) = (Lent::new(rows, || chance.word() as u32), Lent::new(changes, || chance.word()));
        let number = c.run(chance.once_in(2), &mut index, &mut list);
        let right = number == expected && (expected == 0 || index.untouched() && list.untouched());
        refusals.note(right, || format!("{}: {number}, expected {expected}", c.name()));
    }
    end(&[&anew, &again, &first, &inputs, &refusals])
}
