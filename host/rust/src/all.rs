//! Several ensembles over one matrix, in one call.

use crate::archive::{knob_thin_all, knob_thin_all_bits, Answer, Answers, MAX_ITEMS};
use crate::forms::Form;
use crate::lent::Scratch;
use crate::thinning::{answered, Job, Thinned};
use crate::{Margins, Refusal};
use std::thread;

/// An item of [`thin_all`]: an ensemble's weights, and its job.
#[derive(Clone, Copy, Debug)]
pub struct Item<'a> {
    /// A weight for each column.
    pub weights: &'a [f64],
    /// Its seed, its edition and its rule.
    pub job: Job,
}

/// Thins each item as [`thin`](crate::thin) does, all over the same columns, at most [`MAX_ITEMS`] of them. The margins are columns of
/// doubles or, where they are all 1 or -1, [`Votes`](crate::Votes), one bit each, for the same answers. They are tested once a thread, and
/// not once an item. The answers stand in the items' order; one that is refused touches no other. With more than one of `threads` the
/// items are spread over as many, each with scratch of its own, and the answers are the same.
///
/// The call as a whole is refused by 3, also for more than [`MAX_ITEMS`] items, 4, also where an item has not one weight for each
/// column, 5, also with no items, and 7, or for [`Votes`](crate::Votes) 15 in its place.
///
/// ```
/// use knobthistle::{thin, thin_all, Edition, Item, Job, Refusal, Rule, Votes};
///
/// let columns = vec![vec![1.0, 1.0], vec![1.0, -1.0]];
/// let job = Job { seed: 0, edition: Edition::First, rule: Rule::Within { allowance: 0.5, cap: None } };
/// let items = [Item { weights: &[1.0, 3.0], job }, Item { weights: &[0.0, 0.0], job }, Item { weights: &[3.0, 1.0], job }];
/// let answers = thin_all(&columns, &items, 2).unwrap();
/// assert_eq!(answers[0], thin(&columns, items[0].weights, job));
/// assert_eq!(answers[1], Err(Refusal::Sum));
/// assert_eq!(answers[2].as_ref().unwrap().weights, [1.0, 0.0]);
///
/// let votes = Votes::from_bools(&[[true, true], [true, false]]);
/// assert_eq!(thin_all(&votes, &items, 2).unwrap(), answers);
/// ```
pub fn thin_all<M: Margins + ?Sized>(columns: &M, items: &[Item], threads: usize) -> Result<Vec<Result<Thinned, Refusal>>, Refusal> {
    let margins = columns.lend();
    let share = items.len().div_ceil(threads.max(1));
    // What is refused for its items is refused whole, and so is not spread.
    if share == items.len() || !fit(&margins, items) {
        return one_call(&margins, items);
    }
    let parts: Vec<_> = thread::scope(|scope| {
        let workers: Vec<_> = items.chunks(share).map(|part| scope.spawn(|| one_call(&margins, part))).collect();
        workers.into_iter().map(|worker| worker.join().expect("no call panics")).collect()
    });
    let mut answers = Vec::with_capacity(items.len());
    for part in parts {
        answers.extend(part?);
    }
    Ok(answers)
}

/// Not too many, and each with one weight for each column.
fn fit(margins: &Form, items: &[Item]) -> bool {
    items.len() <= MAX_ITEMS && items.iter().all(|item| item.weights.len() == margins.columns())
}

/// One call of the archive. Items that do not fit are not copied: it is lent weights of another length than it has to have, and says
/// itself which number is the lowest.
fn one_call(margins: &Form, items: &[Item]) -> Result<Vec<Result<Thinned, Refusal>>, Refusal> {
    let (m, n, many) = (margins.columns(), margins.rows(), items.len());
    let weights: Vec<f64> = if fit(margins, items) {
        items.iter().flat_map(|item| item.weights).copied().collect()
    } else {
        vec![0.0; if m.wrapping_mul(many) == 1 { 2 } else { 1 }]
    };
    let seeds: Vec<u64> = items.iter().map(|item| item.job.seed).collect();
    let editions: Vec<u32> = items.iter().map(|item| item.job.edition as u32).collect();
    let rules: Vec<(u32, f64, usize)> = items.iter().map(|item| item.job.rule.named()).collect();
    let numbers_of: Vec<u32> = rules.iter().map(|rule| rule.0).collect();
    let allowances: Vec<f64> = rules.iter().map(|rule| rule.1).collect();
    let limits: Vec<u64> = rules.iter().map(|rule| rule.2 as u64).collect();
    let mut output = vec![0.0; weights.len()];
    let mut scratch = Scratch::new(m, n);
    let mut answers = Answers { number: 0, items: [Answer::default(); MAX_ITEMS] };
    // SAFETY: for the reasons that `thin_matrix` gives.
    unsafe {
        match margins {
            Form::Doubles(matrix) => knob_thin_all(
                &mut answers,
                matrix.entries.as_ptr(),
                matrix.entries.len(),
                m,
                n,
                many,
                weights.as_ptr(),
                weights.len(),
                seeds.as_ptr(),
                seeds.len(),
                editions.as_ptr(),
                editions.len(),
                numbers_of.as_ptr(),
                numbers_of.len(),
                allowances.as_ptr(),
                allowances.len(),
                limits.as_ptr(),
                limits.len(),
                output.as_mut_ptr(),
                output.len(),
                scratch.numbers.as_mut_ptr(),
                scratch.numbers.len(),
                scratch.indices.as_mut_ptr(),
                scratch.indices.len(),
            ),
            Form::Bits(votes) => knob_thin_all_bits(
                &mut answers,
                votes.bits().as_ptr(),
                votes.bits().len(),
                m,
                n,
                many,
                weights.as_ptr(),
                weights.len(),
                seeds.as_ptr(),
                seeds.len(),
                editions.as_ptr(),
                editions.len(),
                numbers_of.as_ptr(),
                numbers_of.len(),
                allowances.as_ptr(),
                allowances.len(),
                limits.as_ptr(),
                limits.len(),
                output.as_mut_ptr(),
                output.len(),
                scratch.numbers.as_mut_ptr(),
                scratch.numbers.len(),
                scratch.indices.as_mut_ptr(),
                scratch.indices.len(),
            ),
        }
    };
    Refusal::check(answers.number)?;
    Ok((0..many).map(|k| answered(answers.items[k], output[k * m..(k + 1) * m].to_vec())).collect())
}
