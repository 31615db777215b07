//! Why a job is refused, in the words of the file that it came from. The number is the library's; this only looks for the place.

use knobthistle::{Refusal, MAX_COLUMNS, MAX_ROWS};

use crate::arguments::Request;
use crate::decimals::exact;
use crate::ensemble::Ensemble;
use crate::table::named;

pub fn why(refusal: Refusal, ensemble: &Ensemble, thresholds: &[f64], request: &Request) -> String {
    let (file, n) = (named(&ensemble.file), ensemble.n);
    match refusal {
        Refusal::Size => format!("{file} has {} hypotheses and {n} words; there may be {MAX_COLUMNS} and {MAX_ROWS}", ensemble.m),
        Refusal::Empty => format!("{file} has no {}", if ensemble.m == 0 { "hypothesis" } else { "word" }),
        Refusal::Entry => match ensemble.verdicts.iter().position(|verdict| !(-1.0..=1.0).contains(verdict)) {
            Some(k) => {
                format!(
                    "{file}, {}: the verdict {} lies outside [-1, 1]",
                    ensemble.place_of_verdict(k / n, k % n),
                    exact(ensemble.verdicts[k])
                )
            }
            None => refusal.to_string(),
        },
        Refusal::Weight => match ensemble.weights.iter().position(|weight| !weight.is_finite()) {
            Some(j) => format!("{file}, {}: the weight {} is not finite", ensemble.place_of_weight(j), exact(ensemble.weights[j])),
            None => match (thresholds.iter().position(|threshold| !threshold.is_finite()), &request.thresholds) {
                (Some(i), Some(file)) => format!("{}: the threshold of word {i} is not finite", named(file)),
                _ => refusal.to_string(),
            },
        },
        Refusal::Sum => format!("{file}: {refusal}"),
        _ => refusal.to_string(),
    }
}
