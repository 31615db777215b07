//! The library's answer to a job, and what is shown beside it: every stage with its turned words, and the words that moved.

use knobthistle::{Job, Moved, Refusal, Rule, Thinned};

use crate::arguments::Request;
use crate::verdicts::Verdicts;

pub struct Outcome {
    pub thinned: Thinned,
    pub stages: Vec<Stage>,
    /// The stage after the one taken, for the picture: hypotheses left and worst change.
    pub next: Option<(usize, f64)>,
    /// Which word moved, where it is asked for.
    pub moved: Option<Moved>,
}

pub struct Stage {
    pub nonzeros: usize,
    pub change: f64,
    pub turned: usize,
}

/// A job with this target on the same ensemble and draws. The hypotheses left fall from stage to stage, so that the target of a stage's own
/// count gives that stage, and a target one lower the next.
fn with_target(verdicts: &Verdicts, job: Job, target: usize) -> Result<Thinned, Refusal> {
    verdicts.thin(Job { rule: Rule::Target(target), ..job })
}

pub fn of(verdicts: &Verdicts, thresholds: &[f64], request: &Request) -> Result<Outcome, Refusal> {
    let thinned = verdicts.thin(request.job)?;
    let start = with_target(verdicts, request.job, thinned.path[0].0)?.weights;
    // The weights of a stage between the first and the one taken are had by a job of their own. These do not wait for each other.
    let between: Vec<Result<Thinned, Refusal>> = std::thread::scope(|scope| {
        let jobs = thinned.path.iter().take(thinned.stage).skip(1);
        let running: Vec<_> = jobs.map(|stage| scope.spawn(|| with_target(verdicts, request.job, stage.0))).collect();
        running.into_iter().filter_map(|job| job.join().ok()).collect()
    });
    let mut weights = vec![start.clone()];
    for stage in between {
        weights.push(stage?.weights);
    }
    weights.push(thinned.weights.clone());
    let mut stages = Vec::new();
    for ((nonzeros, change), weights) in thinned.path.iter().zip(&weights) {
        stages.push(Stage { nonzeros: *nonzeros, change: *change, turned: verdicts.turned_words(&start, weights, thresholds)? });
    }
    let next = if request.svg.is_some() && thinned.nonzeros > 1 {
        with_target(verdicts, request.job, thinned.nonzeros - 1)?.path.last().copied()
    } else {
        None
    };
    let moved = match request.moved {
        Some(_) => Some(verdicts.moved(&start, &thinned.weights)?),
        None => None,
    };
    Ok(Outcome { thinned, stages, next, moved })
}
