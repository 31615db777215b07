// needs: knob_uniform knob_gaussian knob_gaussian_2
//! The archive of jobs that the gate replays: what the original answers for each line of archive.tsv (columns, rows, kind of entries, kind
//! of weights, seed, and `target` or `within` with its numbers), beside the stored output of the program. Arguments: the list, and that output.
//! With --write in front the output is written anew.

#[path = "shared/draws.rs"]
mod draws;
#[path = "shared/jobs.rs"]
mod jobs;
#[path = "shared/lent.rs"]
mod lent;
#[path = "shared/chance.rs"]
mod chance;
#[path = "shared/original.rs"]
mod original;
#[path = "shared/tally.rs"]
mod tally;
#[path = "shared/watch.rs"]
mod watch;

use jobs::{by_stages, refusal, Ensemble, Rule};

/// An entry of a kind, as the program makes it.
fn entry(kind: u64, u: f64) -> f64 {
    match kind {
        0 => if u < 0.5 { 1.0 } else { -1.0 },
        1 => 2.0 * u - 1.0,
        2 => if u < 0.05 { 1.0 } else if u < 0.1 { -1.0 } else { 0.0 },
        3 => 1.0,
        _ => if u < 0.25 { 0.25 } else if u < 0.5 { -0.75 } else { 1.0 },
    }
}

/// A weight of a kind, as the program makes it.
fn weight(kind: u64, u: f64) -> f64 {
    match kind {
        0 => 1.0,
        1 => u,
        2 => u - 0.4,
        3 => if u < 0.5 { 4.0 } else { f64::from_bits(1) },
        4 => u * u * u * u * u * u,
        _ => if u < 0.5 { 0.0 } else { u },
    }
}

/// The program's line for a job, by the original, or by the table of refusals.
fn line(job: &str) -> String {
    let field: Vec<&str> = job.split('\t').collect();
    let number = |k: usize| field[k].parse::<u64>().expect("a number");
    let (m, n, seed) = (number(0) as usize, number(1) as usize, number(4));
    let mut state = seed;
    let mut uniform = || unsafe { draws::knob_uniform(&mut state) };
    let matrix: Vec<f64> = (0..m * n).map(|_| entry(number(2), uniform())).collect();
    let weights: Vec<f64> = (0..m).map(|_| weight(number(3), uniform())).collect();
    let rule = match field[5] {
        "target" => Rule::Target(number(6) as usize),
        _ => {
            let allowance = f64::from_bits(u64::from_str_radix(field[6], 16).expect("bits"));
            Rule::Within(allowance, field[7].parse().ok())
        }
    };
    let columns: Vec<Vec<f64>> = matrix.chunks(n).map(<[f64]>::to_vec).collect();
    let e = Ensemble { matrix, m, n, weights, seed, edition: 1 };
    let refused = refusal(&e, rule, m, usize::MAX, usize::MAX);
    if refused != 0 {
        return text(refused, 0, &[], 0, 0.0, [0, 0], &vec![0.0; m]);
    }
    let said = by_stages(&columns, &e, rule);
    assert!(said.agrees, "the original's own call gives other weights");
    text(0, said.stage, &said.path, said.nonzeros, said.change, [said.directions, said.sweeps], &said.weights)
}

/// An answer, its directions and sweeps, its path of nine places and its weights.
fn text(number: u64, stage: u64, path: &[(u64, f64)], nonzeros: u64, change: f64, totals: [u64; 2], weights: &[f64]) -> String {
    let place = |i: usize| path.get(i).copied().unwrap_or((0, 0.0));
    let mut text = format!("{number}\t{stage}\t{nonzeros}\t{:016x}\t{}\t{}", change.to_bits(), totals[0], totals[1]);
    (0..9).for_each(|i| text += &format!("\t{}", place(i).0));
    (0..9).for_each(|i| text += &format!("\t{:016x}", place(i).1.to_bits()));
    weights.iter().for_each(|w| text += &format!("\t{:016x}", w.to_bits()));
    text
}

fn main() {
    let mut arguments: Vec<String> = std::env::args().skip(1).collect();
    let write = arguments[0] == "--write";
    if write {
        arguments.remove(0);
    }
    let list = std::fs::read_to_string(&arguments[0]).expect("the list of jobs");
    let lines: Vec<String> = list.lines().map(line).collect();
    if write {
        std::fs::write(&arguments[1], lines.join("\n") + "\n").expect("the output");
    }
    let stored = std::fs::read_to_string(&arguments[1]).expect("the stored output");
    let stored: Vec<&str> = stored.lines().collect();
    let differ = (0..lines.len().max(stored.len())).filter(|&k| lines.get(k).map(String::as_str) != stored.get(k).copied()).count();
    println!("archived jobs: {} compared, {differ} differ", lines.len());
    std::process::exit(i32::from(differ > 0));
}
