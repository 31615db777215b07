// needs: knob_gaussian knob_discrepancy_coloring knob_sparsify
//! The benchmark: the original with its own draws from the platform's library, and the archive, in one run. Each time is the best of
//! several rounds, in which the two sides take turns. Where the archive has the calls on votes as bits, they are timed too, beside the
//! original on the expanded matrix.
//! Argument: the folder of archived ensembles.

#[cfg(call = "knob_sparsify_bits")]
#[path = "shared/bits_calls.rs"]
mod bits_calls;
#[path = "shared/chance.rs"]
mod chance;
#[path = "shared/coloring_call.rs"]
mod coloring_call;
#[path = "shared/draws.rs"]
mod draws;
#[path = "shared/faces.rs"]
mod faces;
#[path = "shared/matrices.rs"]
mod matrices;
#[cfg(call = "knob_sparsify_bits")]
#[path = "shared/packed.rs"]
mod packed;
/// The original with its own draws.
mod peer {
    include!(concat!(env!("ORACLE_WORK"), "/peer.rs"));
}
#[path = "shared/thinning_calls.rs"]
mod thinning_calls;
#[path = "shared/timing.rs"]
mod timing;

use chance::Chance;
use std::hint::black_box;
use timing::{best, job, scratch};

fn line(name: &str, (original, ours): (f64, f64)) {
    let unit = |t: f64| {
        if t < 1e-6 {
            format!("{:.1} ns", t * 1e9)
        } else if t < 1e-3 {
            format!("{:.1} us", t * 1e6)
        } else {
            format!("{:.2} ms", t * 1e3)
        }
    };
    println!("{name:<48} {:>12} {:>12} {:>8.2}", unit(original), unit(ours), original / ours);
}

fn gaussians() {
    const DRAWS: u64 = 1 << 14;
    let sum = |seed: u64, draw: &dyn Fn(&mut u64) -> f64| {
        let mut state = seed;
        black_box((0..DRAWS).fold(0.0, |sum, _| sum + draw(&mut state)));
    };
    let (original, ours) =
        best(|seed| sum(seed, &|state| peer::reach::gaussian(state)), |seed| sum(seed, &|state| unsafe { draws::knob_gaussian(state) }));
    line("one gaussian", (original / DRAWS as f64, ours / DRAWS as f64));
}

fn colorings(chance: &mut Chance) {
    for (m, n) in [(8, 16), (32, 64), (60, 500), (60, 2000), (170, 4096)] {
        let matrix = matrices::matrix(2, m, n, chance);
        let columns = matrices::columns(&matrix, m, n);
        let (mut output, (mut numbers, mut indices)) = (vec![0i8; m], scratch(m, n));
        let ours = |seed: u64| unsafe {
            let mut colored = coloring_call::Colored::noise();
            coloring_call::knob_discrepancy_coloring(
                &mut colored,
                matrix.as_ptr(),
                matrix.len(),
                m,
                n,
                seed,
                output.as_mut_ptr(),
                m,
                numbers.as_mut_ptr(),
                numbers.len(),
                indices.as_mut_ptr(),
                indices.len(),
            );
            assert_eq!(colored.number, 0, "a colouring is accepted");
        };
        let times = best(|seed| drop(black_box(peer::discrepancy_coloring(&columns, seed))), ours);
        line(&format!("colouring {m}x{n}"), times);
    }
}

fn jobs(chance: &mut Chance, folder: &str) {
    for (m, n) in [(8, 16), (32, 64), (60, 500), (60, 2000), (200, 1000), (256, 4096)] {
        let matrix: Vec<f64> = (0..m * n).map(|_| chance.sign()).collect();
        let weights: Vec<f64> = (0..m).map(|_| chance.unit() + 0.5).collect();
        line(&format!("target 4 of {m}x{n}"), job(&matrix, m, n, &weights));
    }
    for face in faces::faces(folder) {
        line(&format!("target 4 of {}", face.name), job(&face.margins, face.m, face.n, &face.weights));
    }
}

/// The sizes of the double form once more, with votes as bits.
#[cfg(call = "knob_sparsify_bits")]
fn bits(chance: &mut Chance, folder: &str) {
    for (m, n) in [(8, 16), (32, 64), (60, 500), (60, 2000), (256, 4096)] {
        let matrix: Vec<f64> = (0..m * n).map(|_| chance.sign()).collect();
        let weights: Vec<f64> = (0..m).map(|_| chance.unit() + 0.5).collect();
        line(&format!("target 4 of {m}x{n}, bits"), job_on_bits(&matrix, m, n, &weights));
    }
    for face in faces::faces(folder) {
        if face.margins.iter().all(|margin| margin.abs() == 1.0) {
            line(&format!("target 4 of {}, bits", face.name), job_on_bits(&face.margins, face.m, face.n, &face.weights));
        }
    }
}

/// The times of a job with target 4: the original on a matrix of 1 and -1, and ours on its bits.
#[cfg(call = "knob_sparsify_bits")]
fn job_on_bits(matrix: &[f64], m: usize, n: usize, weights: &[f64]) -> (f64, f64) {
    let (columns, bits) = (matrices::columns(matrix, m, n), packed::packed(matrix, m, n));
    let (mut output, (mut numbers, mut indices)) = (vec![0.0; m], scratch(m, n));
    let mut answer = thinning_calls::Answer::noise();
    let ours = |seed: u64| unsafe {
        bits_calls::knob_sparsify_bits(
            &mut answer,
            bits.as_ptr(),
            bits.len(),
            m,
            n,
            weights.as_ptr(),
            m,
            seed,
            1,
            4,
            output.as_mut_ptr(),
            m,
            numbers.as_mut_ptr(),
            numbers.len(),
            indices.as_mut_ptr(),
            indices.len(),
        );
        assert_eq!(answer.number, 0, "a job is accepted");
    };
    best(|seed| drop(black_box(peer::sparsify(&columns, weights, 4, seed))), ours)
}

fn main() {
    let folder = std::env::args().nth(1).expect("the folder of archived ensembles");
    let mut chance = Chance::new("bench", 5);
    println!("{:<48} {:>12} {:>12} {:>8}", "best times", "original", "ours", "ratio");
    gaussians();
    colorings(&mut chance);
    jobs(&mut chance, &folder);
    #[cfg(call = "knob_sparsify_bits")]
    bits(&mut chance, &folder);
}
