//! Thins the ensemble of the example sheet with the safe calls: two columns, two rows, weights 1 and 3, within an allowance of 0.5.

use knobthistle::{thin, Edition, Job, Refusal, Rule};

fn main() -> Result<(), Refusal> {
    let columns = vec![vec![1.0, 1.0], vec![1.0, -1.0]];
    let weights = [1.0, 3.0];
    let job = Job { seed: 0, edition: Edition::First, rule: Rule::Within { allowance: 0.5, cap: None } };
    let thinned = thin(&columns, &weights, job)?;
    println!("stage {}, {} left, no margin moved by more than {}", thinned.stage, thinned.nonzeros, thinned.change);
    println!("directions drawn: {}, sweeps made: {}", thinned.directions, thinned.sweeps);
    for (j, w) in thinned.weights.iter().enumerate() {
        println!("weight {j}: {w}");
    }
    Ok(())
}
