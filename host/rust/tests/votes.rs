//! Thinning from labels and votes: answers against those of `thin` on margins that are formed here, and every refusal that can be reached.

use knobthistle::{thin, thin_votes, Edition, Job, Kept, Refusal, Rule, MAX_COLUMNS, MAX_ROWS};

/// Entries from -1 to 1.
fn confidences(m: usize, n: usize) -> Vec<Vec<f64>> {
    (0..m).map(|j| (0..n).map(|i| ((j * 37 + i * i * 11 + j * i) % 9) as f64 / 4.0 - 1.0).collect()).collect()
}

/// Weights of both signs.
fn weights(m: usize) -> Vec<f64> {
    (0..m).map(|j| if j % 5 == 2 { -1.0 } else { 1.0 } * (1 + j * j % 11) as f64).collect()
}

fn labels(n: usize) -> Vec<i8> {
    (0..n).map(|i| if i * i % 3 == 1 { -1 } else { 1 }).collect()
}

/// What `thin` says of the margins, packed.
fn plain(confidences: &[Vec<f64>], labels: &[i8], weights: &[f64], job: Job) -> Result<Kept, Refusal> {
    let margin = |(label, confidence): (&i8, &f64)| f64::from(*label) * confidence;
    let margins: Vec<Vec<f64>> = confidences.iter().map(|column| labels.iter().zip(column).map(margin).collect()).collect();
    let thinned = thin(&margins, weights, job)?;
    let places = || thinned.weights.iter().enumerate().filter(|(_, weight)| **weight != 0.0);
    assert_eq!(places().count(), thinned.nonzeros);
    Ok(Kept {
        columns: places().map(|(place, _)| place as u32).collect(),
        weights: places().map(|(_, weight)| *weight).collect(),
        stage: thinned.stage,
        change: thinned.change,
        directions: thinned.directions,
        sweeps: thinned.sweeps,
        path: thinned.path.clone(),
    })
}

/// The first has one of the jobs of calls.rs, by every rule and edition.
#[test]
fn margins_formed_here() {
    for (m, n) in [(24, 5), (40, 7), (1, 1), (2, 9), (MAX_COLUMNS, 3)] {
        let (confidences, labels, weights) = (confidences(m, n), labels(n), weights(m));
        for edition in [Edition::First, Edition::Second] {
            for rule in [
                Rule::Target(7),
                Rule::Within { allowance: 0.3, cap: None },
                Rule::Within { allowance: 0.03125, cap: Some(12) },
                Rule::Target(usize::MAX),
            ] {
                for seed in [3, 0xACFA9D4D29BC9012, 0x7F2BA34D7BA521E7] {
                    let job = Job { seed, edition, rule };
                    let kept = thin_votes(&confidences, &labels, &weights, job);
                    assert_eq!(kept, plain(&confidences, &labels, &weights, job), "{m} columns, {n} rows, {job:?}");
                }
            }
        }
    }
}

#[test]
fn refusals() {
    let job = Job { seed: 1, edition: Edition::Second, rule: Rule::Target(1) };
    let two = || vec![vec![0.5, -0.5], vec![1.0, 0.25]];
    let refused = |confidences: &[Vec<f64>], labels: &[i8], weights: &[f64], refusal: Refusal| {
        assert_eq!(thin_votes(confidences, labels, weights, job), Err(refusal), "{labels:?}");
    };
    assert!(thin_votes(&two(), &[1, -1], &[1.0, 3.0], job).is_ok());
    for label in [0, 2, -2, i8::MIN, i8::MAX] {
        refused(&two(), &[1, label], &[1.0, 3.0], Refusal::Label);
        refused(&two(), &[label, -1], &[1.0, 3.0], Refusal::Label);
        // After the sizes, and before the confidences and the weights.
        refused(&two(), &[label], &[1.0, 3.0], Refusal::Length);
        refused(&[vec![], vec![]], &[label], &[1.0, 3.0], Refusal::Length);
        refused(&[vec![2.0, f64::NAN], vec![1.0, 0.25]], &[label, 1], &[f64::NAN, 0.0], Refusal::Label);
    }
    refused(&[vec![0.5, 2.0], vec![1.0, 0.25]], &[1, -1], &[f64::NAN, 0.0], Refusal::Entry);
    refused(&two(), &[1, -1], &[f64::NAN, 0.0], Refusal::Weight);
    refused(&two(), &[1, -1], &[0.0, -0.0], Refusal::Sum);
    for labels in [&[][..], &[1], &[1, 1, 1]] {
        refused(&two(), labels, &[1.0, 3.0], Refusal::Length);
    }
    refused(&two(), &[1, 1], &[1.0], Refusal::Length);
    refused(&[vec![0.5, 0.5], vec![0.5]], &[1, 1], &[1.0, 3.0], Refusal::Length);
    refused(&[], &[], &[], Refusal::Empty);
    refused(&[], &[1, -1], &[], Refusal::Empty);
    refused(&[vec![], vec![]], &[], &[1.0, 3.0], Refusal::Empty);
    refused(&vec![vec![0.5]; MAX_COLUMNS + 1], &[1], &[1.0; MAX_COLUMNS + 1], Refusal::Size);
    refused(&[vec![0.5; MAX_ROWS + 1]], &[1; MAX_ROWS + 1], &[1.0], Refusal::Size);
    refused(&[vec![0.5; MAX_ROWS + 1]], &[0], &[1.0], Refusal::Size);
    for (rule, refusal) in [
        (Rule::Target(0), Refusal::Zero),
        (Rule::Within { allowance: 0.5, cap: Some(0) }, Refusal::Zero),
        (Rule::Within { allowance: -1.0, cap: None }, Refusal::Allowance),
        (Rule::Within { allowance: f64::INFINITY, cap: Some(3) }, Refusal::InfiniteAllowance),
    ] {
        assert_eq!(thin_votes(&two(), &[0, 0, 0], &[1.0], Job { rule, ..job }), Err(refusal));
    }
}
