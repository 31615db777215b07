//! Random matrices of many kinds, column after column.

use crate::chance::Chance;

/// The kinds whose entries lie in [-1, 1].
pub const MARGIN_KINDS: usize = 13;
/// All kinds, those of colourings too.
pub const KINDS: usize = 19;

/// The kind whose squares are on the edge of what a double can hold.
pub const VANISHING: usize = 7;

/// A matrix of a kind below `KINDS`.
pub fn matrix(kind: usize, m: usize, n: usize, chance: &mut Chance) -> Vec<f64> {
    let mut a = match kind {
        0 | 1 => each(m, n, || chance.sign()),
        2 => each(m, n, || chance.signed()),
        3 => each(m, n, || if chance.once_in(10) { chance.signed() } else { 0.0 * chance.sign() }),
        4 => each(m, n, || chance.pick(&[0.0, -0.0, 1.0, -1.0, 0.5, -0.5, 0.25, 0.75])),
        5 => {
            let scale = 10f64.powi(-(chance.below(301) as i32));
            each(m, n, || chance.signed() * scale)
        }
        6 => each(m, n, || chance.signed() * 10f64.powi(-(chance.below(301) as i32))),
        VANISHING if chance.once_in(2) => {
            let scale = 10f64.powi(-160 - chance.below(6) as i32);
            each(m, n, || chance.signed() * scale * if chance.once_in(4) { 100.0 } else { 1.0 })
        }
        VANISHING => {
            // Squares of which few are more than zero: a norm is far too small, and what is projected by it grows without end.
            let often = m.max(2) / chance.between(1, 2);
            each(m, n, || chance.sign() * if chance.once_in(often) { 2.3e-162 } else { 1.5e-162 })
        }
        8 => each(m, n, || f64::from_bits(chance.word() >> chance.between(12, 63)) * chance.sign()),
        9 => {
            let one = chance.signed();
            each(m, n, || one)
        }
        10 => each(m, n, || 0.0 * chance.sign()),
        11 => {
            let (columns, rows): (Vec<f64>, Vec<f64>) =
                ((0..m).map(|_| chance.signed()).collect(), (0..n).map(|_| chance.sign()).collect());
            columns.iter().flat_map(|c| rows.iter().map(move |r| c * r)).collect()
        }
        12 => {
            let rows: Vec<f64> = (0..n).map(|_| 10f64.powi(-(chance.below(40) as i32))).collect();
            (0..m * n).map(|k| chance.signed() * rows[k % n]).collect()
        }
        13 => each(m, n, || chance.signed() * 4294967296.0),
        14 => each(m, n, || chance.sign() * 4294967296.0),
        15 => each(m, n, || chance.signed() * 10f64.powi(chance.below(320) as i32 - 311).min(4294967296.0)),
        16 => each(m, n, || chance.sign() * chance.below(100) as f64),
        17 => {
            let rows: Vec<f64> = (0..n).map(|_| 10f64.powi(chance.below(20) as i32 - 10)).collect();
            (0..m * n).map(|k| (chance.signed() * rows[k % n]).clamp(-4294967296.0, 4294967296.0)).collect()
        }
        _ => each(m, n, || if chance.once_in(2) { 4294967296.0 * chance.sign() } else { chance.signed() * 1e-300 }),
    };
    // Now and then a column repeated, turned or emptied.
    if m > 1 && chance.once_in(3) {
        for _ in 0..chance.between(1, m) {
            let (from, to, factor) = (chance.below(m), chance.below(m), chance.pick(&[1.0, 1.0, -1.0, 0.0, -0.0]));
            (0..n).for_each(|i| a[to * n + i] = a[from * n + i] * factor);
        }
    }
    a
}

fn each(m: usize, n: usize, mut entry: impl FnMut() -> f64) -> Vec<f64> {
    (0..m * n).map(|_| entry()).collect()
}

/// The matrix as the original takes it.
pub fn columns(matrix: &[f64], m: usize, n: usize) -> Vec<Vec<f64>> {
    (0..m).map(|j| matrix[j * n..(j + 1) * n].to_vec()).collect()
}
