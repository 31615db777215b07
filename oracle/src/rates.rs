// needs: knob_gaussian
//! What this machine can do at best, for docs/SPEED.md: the three operations that an entry of A g costs, acc + (u * s) * g, on four columns
//! that stay in the cache and over a matrix of 256 columns and 4096 rows; and the same matrix only read. Nanoseconds an entry.

use std::hint::black_box;
use std::time::Instant;

/// The best of twenty rounds, in nanoseconds for each of so many entries.
fn best(entries: usize, mut round: impl FnMut()) -> f64 {
    let once = |round: &mut dyn FnMut()| {
        let start = Instant::now();
        round();
        start.elapsed().as_secs_f64() * 1e9 / entries as f64
    };
    (0..20).map(|_| once(&mut round)).fold(f64::INFINITY, f64::min)
}

/// Adds four columns at a time, each times its scale and its g, in order.
fn sums(acc: &mut [f64], matrix: &[f64], n: usize, scale: f64, g: f64) {
    for four in matrix.chunks_exact(4 * n) {
        let (a, b) = four.split_at(2 * n);
        let ((a, b), (c, d)) = (a.split_at(n), b.split_at(n));
        for i in 0..n {
            let two = (acc[i] + (a[i] * scale) * g) + (b[i] * scale) * g;
            acc[i] = (two + (c[i] * scale) * g) + (d[i] * scale) * g;
        }
    }
}

fn main() {
    let (scale, g) = (black_box(0.75), black_box(0.5));
    let n = 4096;
    let matrix: Vec<f64> = (0..256 * n).map(|k| if k % 3 == 0 { 1.0 } else { -1.0 }).collect();
    let mut acc = vec![0.0; n];
    let small = 256;
    let cached = best(256 * 4 * small, || {
        for _ in 0..256 {
            sums(black_box(&mut acc[..small]), black_box(&matrix[..4 * small]), small, scale, g);
        }
    });
    let streamed = best(matrix.len(), || sums(black_box(&mut acc), black_box(&matrix), n, scale, g));
    let read = best(matrix.len(), || {
        let mut lanes = [0u64; 8];
        for eight in black_box(&matrix).chunks_exact(8) {
            for (lane, x) in lanes.iter_mut().zip(eight) {
                *lane ^= x.to_bits();
            }
        }
        black_box(lanes);
    });
    println!("three operations an entry, cached     {cached:.3} ns");
    println!("the same over 256x4096                {streamed:.3} ns");
    println!("256x4096 only read                    {read:.3} ns");
}
