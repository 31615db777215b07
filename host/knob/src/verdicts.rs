//! The verdicts as they are lent to the library: one bit each where all of them are 1 or -1, and else doubles. The answers are the same.

use knobthistle::{flat, thin, turned_words, Job, Moved, Refusal, Thinned, Votes};

use crate::ensemble::Ensemble;

pub enum Form {
    Bits(Votes),
    Doubles,
}

pub struct Verdicts<'a> {
    ensemble: &'a Ensemble,
    form: Form,
}

impl<'a> Verdicts<'a> {
    pub fn of(ensemble: &'a Ensemble) -> Verdicts<'a> {
        Verdicts { ensemble, form: votes(ensemble).map_or(Form::Doubles, Form::Bits) }
    }

    pub fn thin(&self, job: Job) -> Result<Thinned, Refusal> {
        let e = self.ensemble;
        match &self.form {
            Form::Bits(votes) => thin(votes, &e.weights, job),
            Form::Doubles => flat::thin(&e.verdicts, e.m, e.n, &e.weights, job),
        }
    }

    pub fn turned_words(&self, before: &[f64], after: &[f64], thresholds: &[f64]) -> Result<usize, Refusal> {
        let e = self.ensemble;
        match &self.form {
            Form::Bits(votes) => turned_words(votes, before, after, thresholds),
            Form::Doubles => flat::turned_words(&e.verdicts, e.m, e.n, before, after, thresholds),
        }
    }

    pub fn moved(&self, before: &[f64], after: &[f64]) -> Result<Moved, Refusal> {
        let e = self.ensemble;
        flat::moved(&e.verdicts, e.m, e.n, before, after)
    }
}

/// The votes of an ensemble whose verdicts are all 1 or -1. One without verdicts has none, since it has no column by which to tell the words.
fn votes(ensemble: &Ensemble) -> Option<Votes> {
    if ensemble.verdicts.is_empty() {
        return None;
    }
    let columns: Vec<&[f64]> = ensemble.verdicts.chunks(ensemble.n).collect();
    Votes::from_signs(&columns).ok()
}

#[cfg(test)]
mod tests {
    use super::*;
    use crate::arguments::{self, Command, Request};
    use crate::{ensemble, json, outcome, picture, text};
    use std::fs;

    /// An ensemble of votes, of which one verdict may be another number.
    fn file(name: &str, other: Option<f64>) -> String {
        let mut all = String::from("name,weight");
        (0..19).for_each(|i| all += &format!(",word {i}"));
        for j in 0..24 {
            all += &format!("\nhypothesis {j},{}", 1 + j * j % 11);
            for i in 0..19 {
                let vote = if (j * 37 + i * i * 11 + j * i) % 9 < 4 { -1.0 } else { 1.0 };
                all += &format!(",{}", if (j, i) == (23, 18) { other.unwrap_or(vote) } else { vote });
            }
        }
        let place = std::env::temp_dir().join(format!("knob-verdicts-{name}-{}.csv", std::process::id()));
        fs::write(&place, all + "\n").unwrap();
        place.to_str().unwrap().to_owned()
    }

    fn request(file: &str, rule: &[&str]) -> Request {
        let mut words = vec!["thin", "--moved", "9", "--svg", "path.svg", "--seed", "5"];
        words.extend(rule);
        words.push(file);
        let words: Vec<String> = words.into_iter().map(str::to_owned).collect();
        match arguments::read(&words) {
            Ok(Command::Thin(request)) => request,
            _ => panic!("these are words of a job"),
        }
    }

    /// What is written of an answer: the table, the JSON and the picture.
    fn shown(verdicts: &Verdicts, ensemble: &Ensemble, request: &Request) -> [String; 3] {
        let outcome = outcome::of(verdicts, &vec![0.01; ensemble.n], request).unwrap();
        [
            text::written(ensemble, &outcome, request),
            json::written(ensemble, &outcome, request),
            picture::drawn(ensemble, &outcome, request),
        ]
    }

    #[test]
    fn the_same_output_from_both_forms() {
        let file = file("both", None);
        for rule in [&["--target", "4"][..], &["--within", "0.3"], &["--within", "0.05", "--cap", "3"]] {
            let request = request(&file, rule);
            let ensemble = ensemble::read(&request).unwrap_or_else(|trouble| panic!("{}", trouble.why()));
            let bits = Verdicts::of(&ensemble);
            assert!(matches!(bits.form, Form::Bits(_)));
            let doubles = Verdicts { ensemble: &ensemble, form: Form::Doubles };
            assert_eq!(shown(&bits, &ensemble, &request), shown(&doubles, &ensemble, &request), "{rule:?}");
        }
        fs::remove_file(file).unwrap();
    }

    #[test]
    fn other_verdicts_stay_doubles() {
        for other in [0.0, 0.5, -0.999, 1.5] {
            let file = file("other", Some(other));
            let request = request(&file, &["--target", "4"]);
            let ensemble = ensemble::read(&request).unwrap_or_else(|trouble| panic!("{}", trouble.why()));
            assert!(matches!(Verdicts::of(&ensemble).form, Form::Doubles), "{other}");
            fs::remove_file(file).unwrap();
        }
    }
}
