//! The answer as a table for people.

use knobthistle::Rule;

use crate::arguments::Request;
use crate::decimals::{exact, from_above};
use crate::ensemble::Ensemble;
use crate::outcome::Outcome;
use crate::table::named;

pub fn written(ensemble: &Ensemble, outcome: &Outcome, request: &Request) -> String {
    let mut text = format!("{}: {} hypotheses, {} words; {}\n\n", named(&ensemble.file), ensemble.m, ensemble.n, rule(request.job.rule));
    let mut stages = vec![["stage", "hypotheses", "worst change", "turned words", ""].map(str::to_owned).to_vec()];
    for (k, stage) in outcome.stages.iter().enumerate() {
        let mark = if k == outcome.thinned.stage { "<- taken" } else { "" };
        stages.push(vec![k.to_string(), stage.nonzeros.to_string(), from_above(stage.change), stage.turned.to_string(), mark.to_owned()]);
    }
    text += &columns(&stages, 4);
    if let Rule::Within { allowance, cap: Some(_) } = request.job.rule {
        if outcome.thinned.change > allowance {
            text += &format!(
                "\nThe cap is kept and the allowance is not: the worst change is {}, above {}.\n",
                exact(outcome.thinned.change),
                exact(allowance)
            );
        }
    }
    text += "\nkept, from 0:\n";
    let named = !ensemble.hypotheses.is_empty();
    let mut kept = vec![if named { vec!["hypothesis", "weight", "name"] } else { vec!["hypothesis", "weight"] }];
    let rows: Vec<(String, String, &str)> =
        kept_weights(outcome).map(|(j, w)| (j.to_string(), exact(w), ensemble.hypothesis(j).unwrap_or(""))).collect();
    kept.extend(rows.iter().map(|(j, w, name)| if named { vec![j.as_str(), w.as_str(), name] } else { vec![j.as_str(), w.as_str()] }));
    text += &columns(&kept, 1);
    if let (Some(moved), Some(most)) = (&outcome.moved, request.moved) {
        text += "\nmoved most, from 0:\n";
        let named = !ensemble.words.is_empty();
        let mut rows =
            vec![if named { vec!["word", "change", "name"] } else { vec!["word", "change"] }.into_iter().map(str::to_owned).collect()];
        for (row, change) in moved.rows.iter().zip(&moved.changes).take(most) {
            let mut line = vec![row.to_string(), exact(*change)];
            line.extend(ensemble.word(*row as usize).map(str::to_owned));
            rows.push(line);
        }
        text += &columns(&rows, 1);
    }
    text
}

/// The hypotheses that are left, with their weights.
pub fn kept_weights(outcome: &Outcome) -> impl Iterator<Item = (usize, f64)> + '_ {
    outcome.thinned.weights.iter().copied().enumerate().filter(|(_, weight)| *weight != 0.0)
}

/// What was asked for, in a few words.
pub fn rule(rule: Rule) -> String {
    match rule {
        Rule::Target(target) => format!("target {target}"),
        Rule::Within { allowance, cap: None } => format!("within {}", exact(allowance)),
        Rule::Within { allowance, cap: Some(cap) } => format!("within {}, cap {cap}", exact(allowance)),
    }
}

/// Lines of fields under each other, the first so many to the right and the others to the left.
pub fn columns<T: AsRef<str>>(lines: &[Vec<T>], to_the_right: usize) -> String {
    let wide = |k: usize| lines.iter().filter_map(|line| line.get(k)).map(|field| field.as_ref().chars().count()).max().unwrap_or(0);
    let widths: Vec<usize> = (0..lines.first().map_or(0, Vec::len)).map(wide).collect();
    let mut text = String::new();
    for line in lines {
        let fields = line.iter().zip(&widths).enumerate().map(|(k, (field, width))| {
            if k < to_the_right {
                format!("{:>width$}", field.as_ref())
            } else {
                format!("{:<width$}", field.as_ref())
            }
        });
        let line = fields.collect::<Vec<_>>().join("  ");
        text += line.trim_end();
        text += "\n";
    }
    text
}
