//! Votes of 1 and -1 as bits: one a margin, set for -1, row 0 lowest, a column starting on a byte, the bits behind its last row 0.

use crate::chance::Chance;

/// The bytes of a column of n rows.
pub fn stride(n: usize) -> usize {
    n / 8 + usize::from(n % 8 != 0)
}

/// Where the bit of row i and column j stands: its byte, and its place in it.
fn place(i: usize, j: usize, n: usize) -> (usize, usize) {
    (j * stride(n) + i / 8, i % 8)
}

pub fn packed(matrix: &[f64], m: usize, n: usize) -> Vec<u8> {
    let mut bits = vec![0; m * stride(n)];
    for (i, j) in (0..m).flat_map(|j| (0..n).map(move |i| (i, j))) {
        let (byte, bit) = place(i, j, n);
        bits[byte] |= u8::from(matrix[j * n + i] < 0.0) << bit;
    }
    bits
}

/// The doubles that bits stand for.
pub fn expanded(bits: &[u8], m: usize, n: usize) -> Vec<f64> {
    let entry = |(byte, bit): (usize, usize)| if bits[byte] >> bit & 1 == 1 { -1.0 } else { 1.0 };
    (0..m).flat_map(|j| (0..n).map(move |i| place(i, j, n))).map(entry).collect()
}

/// Whether a bit that stands for no row is set. There is none where the rows fill their bytes, whatever m is.
pub fn spare_set(bits: &[u8], m: usize, n: usize) -> bool {
    n % 8 != 0 && (0..m).any(|j| (n..8 * stride(n)).map(|i| place(i, j, n)).any(|(byte, bit)| bits[byte] >> bit & 1 == 1))
}

/// Sets one to three bits of those that stand for no row, where there is one.
pub fn set_spares(bits: &mut [u8], m: usize, n: usize, chance: &mut Chance) {
    for _ in 0..chance.between(1, 3) {
        if n % 8 != 0 && m > 0 {
            let (byte, bit) = place(chance.between(n, 8 * stride(n) - 1), chance.below(m), n);
            if let Some(byte) = bits.get_mut(byte) {
                *byte |= 1 << bit;
            }
        }
    }
}

/// Random votes of several kinds, column after column.
pub fn votes(m: usize, n: usize, chance: &mut Chance) -> Vec<u8> {
    let often = chance.pick(&[2, 2, 2, 3, 10, 1]);
    let (kind, turned) = (chance.below(6), chance.sign());
    let rows: Vec<f64> = (0..n).map(|_| chance.sign()).collect();
    let mut matrix: Vec<f64> = (0..m * n)
        .map(|k| match kind {
            0 => rows[k % n],
            1 => rows[k % n] * if k / n % 2 == 0 { 1.0 } else { -1.0 },
            2 if (k % n + k / n) % 3 == 0 => -1.0,
            2 => 1.0,
            _ if chance.once_in(often) => turned,
            _ => -turned,
        })
        .collect();
    // Now and then a column repeated or turned.
    if m > 1 && chance.once_in(3) {
        for _ in 0..chance.between(1, m) {
            let (from, to, factor) = (chance.below(m), chance.below(m), chance.sign());
            (0..n).for_each(|i| matrix[to * n + i] = matrix[from * n + i] * factor);
        }
    }
    packed(&matrix, m, n)
}
