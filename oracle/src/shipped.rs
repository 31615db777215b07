// needs: knob_gaussian knob_discrepancy_coloring knob_sparsify
//! The original as it ships, with the platform's logarithm and cosine, beside the archive: how many thinnings and colourings come out
//! otherwise. Nothing can be wrong here: the draws are not the same, so that this is a measurement and not a comparison. A thinning
//! differs where a weight has other bits, a colouring where a colour is another. Weights lie in [0.5, 1.5).

#[path = "shared/chance.rs"]
mod chance;
#[path = "shared/coloring_call.rs"]
mod coloring_call;
#[path = "shared/draws.rs"]
mod draws;
#[path = "shared/matrices.rs"]
mod matrices;
/// The original with its own draws.
mod peer {
    include!(concat!(env!("ORACLE_WORK"), "/peer.rs"));
}
#[path = "shared/thinning_calls.rs"]
mod thinning_calls;
#[path = "shared/timing.rs"]
mod timing;

use chance::{count, Chance};
use timing::scratch;

/// How many nonzeros a thinning may leave.
const TARGET: usize = 4;

/// What the entries of a matrix are.
#[derive(Clone, Copy)]
enum Entries {
    Signs,
    Anywhere,
}

impl Entries {
    fn of(self, m: usize, n: usize, chance: &mut Chance) -> Vec<f64> {
        let entry = |chance: &mut Chance| match self {
            Entries::Signs => chance.sign(),
            Entries::Anywhere => chance.signed(),
        };
        (0..m * n).map(|_| entry(chance)).collect()
    }

    fn name(self) -> &'static str {
        match self {
            Entries::Signs => "entries 1 and -1",
            Entries::Anywhere => "entries in [-1, 1)",
        }
    }
}

fn gaussians(how_many: usize, chance: &mut Chance) {
    let differ = (0..how_many)
        .filter(|_| {
            let seed = chance.word();
            let (mut ours, mut theirs) = (seed, seed);
            unsafe { draws::knob_gaussian(&mut ours) }.to_bits() != peer::reach::gaussian(&mut theirs).to_bits()
        })
        .count();
    println!("Gaussians: {differ} of {how_many} have other bits");
}

fn thinnings(how_many: usize, m: usize, n: usize, kind: Entries, chance: &mut Chance) {
    let differ = (0..how_many)
        .filter(|_| {
            let matrix = kind.of(m, n, chance);
            let weights: Vec<f64> = (0..m).map(|_| chance.unit() + 0.5).collect();
            let seed = chance.word();
            let (mut output, (mut numbers, mut indices)) = (vec![0.0; m], scratch(m, n));
            let mut answer = thinning_calls::Answer::noise();
            unsafe {
                thinning_calls::knob_sparsify(
                    &mut answer,
                    matrix.as_ptr(),
                    matrix.len(),
                    m,
                    n,
                    weights.as_ptr(),
                    m,
                    seed,
                    1,
                    TARGET,
                    output.as_mut_ptr(),
                    m,
                    numbers.as_mut_ptr(),
                    numbers.len(),
                    indices.as_mut_ptr(),
                    indices.len(),
                );
            }
            assert_eq!(answer.number, 0, "a job is accepted");
            let shipped = peer::sparsify(&matrices::columns(&matrix, m, n), &weights, TARGET, seed);
            output.iter().zip(&shipped).any(|(ours, theirs)| ours.to_bits() != theirs.to_bits())
        })
        .count();
    println!("thinnings of {m}x{n} to target {TARGET}, {}: {differ} of {how_many} come out otherwise", kind.name());
}

fn colorings(how_many: usize, m: usize, n: usize, kind: Entries, chance: &mut Chance) {
    let differ = (0..how_many)
        .filter(|_| {
            let matrix = kind.of(m, n, chance);
            let seed = chance.word();
            let (mut output, (mut numbers, mut indices)) = (vec![0i8; m], scratch(m, n));
            let mut colored = coloring_call::Colored::noise();
            unsafe {
                coloring_call::knob_discrepancy_coloring(
                    &mut colored,
                    matrix.as_ptr(),
                    matrix.len(),
                    m,
                    n,
                    seed,
                    output.as_mut_ptr(),
                    m,
                    numbers.as_mut_ptr(),
                    numbers.len(),
                    indices.as_mut_ptr(),
                    indices.len(),
                )
            };
            assert_eq!(colored.number, 0, "a colouring is accepted");
            output != peer::discrepancy_coloring(&matrices::columns(&matrix, m, n), seed)
        })
        .count();
    println!("colourings of {m}x{n}, {}: {differ} of {how_many} come out otherwise", kind.name());
}

fn main() {
    let mut chance = Chance::new("shipped", 8);
    gaussians(count(1_000_000), &mut chance);
    for kind in [Entries::Signs, Entries::Anywhere] {
        thinnings(count(2000), 32, 64, kind, &mut chance);
        thinnings(count(200), 120, 1000, kind, &mut chance);
        colorings(count(200), 120, 1000, kind, &mut chance);
    }
}
