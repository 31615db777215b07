//! The answer as JSON: every double in the shortest decimal that reads back as itself.

use knobthistle::Refusal;

use crate::arguments::Request;
use crate::decimals::exact;
use crate::ensemble::Ensemble;
use crate::outcome::Outcome;
use crate::text::kept_weights;

pub fn written(ensemble: &Ensemble, outcome: &Outcome, request: &Request) -> String {
    let thinned = &outcome.thinned;
    let path = outcome.stages.iter().enumerate().map(|(k, stage)| {
        let change = exact(stage.change);
        format!("{{\"stage\": {k}, \"nonzeros\": {}, \"change\": {change}, \"turned\": {}}}", stage.nonzeros, stage.turned)
    });
    let kept = kept_weights(outcome)
        .map(|(j, weight)| format!("{{\"hypothesis\": {j}, \"name\": {}, \"weight\": {}}}", quoted(ensemble.hypothesis(j)), exact(weight)));
    let mut text = format!(
        "{{\"number\": 0, \"stage\": {}, \"nonzeros\": {}, \"change\": {}, \"directions\": {}, \"sweeps\": {},\n \"path\": {},\n \"kept\": {}",
        thinned.stage,
        thinned.nonzeros,
        exact(thinned.change),
        thinned.directions,
        thinned.sweeps,
        list(path),
        list(kept)
    );
    if let (Some(moved), Some(most)) = (&outcome.moved, request.moved) {
        let words = moved.rows.iter().zip(&moved.changes).take(most);
        let words = words.map(|(row, change)| {
            format!("{{\"word\": {row}, \"name\": {}, \"change\": {}}}", quoted(ensemble.word(*row as usize)), exact(*change))
        });
        text += &format!(",\n \"moved\": {}", list(words));
    }
    text + "}\n"
}

/// A refused answer has its number and nothing else.
pub fn refused(refusal: Refusal) -> String {
    format!(
        "{{\"number\": {}, \"stage\": 0, \"nonzeros\": 0, \"change\": 0, \"directions\": 0, \"sweeps\": 0, \"path\": [], \"kept\": []}}\n",
        refusal.number()
    )
}

fn list(items: impl Iterator<Item = String>) -> String {
    let items: Vec<String> = items.collect();
    if items.is_empty() {
        return "[]".to_owned();
    }
    format!("[\n  {}]", items.join(",\n  "))
}

fn quoted(name: Option<&str>) -> String {
    let Some(name) = name else { return "null".to_owned() };
    let mut text = String::from("\"");
    for letter in name.chars() {
        match letter {
            '"' | '\\' => text.extend(['\\', letter]),
            _ if letter.is_control() => text += &format!("\\u{:04x}", u32::from(letter)),
            _ => text.push(letter),
        }
    }
    text + "\""
}
