// needs: knob_gaussian knob_sparsify
//! How the time of a job grows with the columns and with the rows: the original with its own draws and the archive, in one run, on
//! random matrices of ones and minus ones, to target 4. A line has the columns, the rows, and the two times in seconds; `plot` draws them.

#[path = "shared/chance.rs"]
mod chance;
#[path = "shared/matrices.rs"]
mod matrices;
/// The original with its own draws.
mod peer {
    include!(concat!(env!("ORACLE_WORK"), "/peer.rs"));
}
#[path = "shared/thinning_calls.rs"]
mod thinning_calls;
#[path = "shared/timing.rs"]
mod timing;

use chance::Chance;

fn main() {
    let mut chance = Chance::new("growth", 7);
    let wider = [8, 16, 32, 64, 128, 256].map(|m| (m, 1024));
    let longer = [16, 64, 256, 1024, 4096].map(|n| (64, n));
    for (m, n) in wider.into_iter().chain(longer) {
        let matrix: Vec<f64> = (0..m * n).map(|_| chance.sign()).collect();
        let weights: Vec<f64> = (0..m).map(|_| chance.unit() + 0.5).collect();
        let (original, ours) = timing::job(&matrix, m, n, &weights);
        println!("{m}\t{n}\t{original:e}\t{ours:e}");
    }
}
