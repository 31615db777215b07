//! Knobthistle for hosts in Rust: thins the weights of a boosted ensemble so that every margin stays near what it was.
//!
//! The work is done by the proved archive `libknobthistle.a`. This crate lends it what it wants and is the only unsafe code between it
//! and a host. Equal arguments give equal bits, on every machine.
//!
//! A matrix is given by its columns: `columns[j][i]` is the margin of hypothesis `j` on example `i`, in [-1, 1]. There are at most
//! [`MAX_COLUMNS`] columns and [`MAX_ROWS`] rows. Where every margin is 1 or -1, [`Votes`] has them as one bit each, for the same answers.
//! What cannot be done is refused, never a panic: see [`Refusal`].
//!
//! ```
//! use knobthistle::{max_margin_change, sparsify, thin, turned_words, Edition, Job, Refusal, Rule, Votes};
//!
//! # fn main() -> Result<(), Refusal> {
//! // Two hypotheses on two examples; they disagree on the second.
//! let columns = vec![vec![1.0, 1.0], vec![1.0, -1.0]];
//! let weights = [1.0, 3.0];
//!
//! // As sparse as it gets while no margin changes by more than a half.
//! let job = Job { seed: 0, edition: Edition::First, rule: Rule::Within { allowance: 0.5, cap: None } };
//! let thinned = thin(&columns, &weights, job)?;
//! assert_eq!(thinned.weights, [0.0, 1.0]);
//! assert_eq!((thinned.stage, thinned.nonzeros, thinned.change), (1, 1, 0.5));
//! // Its path, and how many directions it drew.
//! assert_eq!((&thinned.path, thinned.directions), (&vec![(2, 0.0), (1, 0.5)], 1));
//!
//! // The change is measured from the weights divided by the sum of their magnitudes.
//! assert_eq!(max_margin_change(&columns, &[0.25, 0.75], &thinned.weights)?, 0.5);
//! // No word's margin comes from above its threshold to not above it, or goes the other way.
//! assert_eq!(turned_words(&columns, &weights, &thinned.weights, &[0.0, 0.0])?, 0);
//!
//! // The same hypotheses by their votes, one bit each: a yes is 1, a no -1.
//! let votes = Votes::from_bools(&[[true, true], [true, false]]);
//! assert_eq!(thin(&votes, &weights, job)?, thinned);
//!
//! // To at most one hypothesis; and a job that no one can do.
//! assert_eq!(sparsify(&columns, &weights, 1, 0)?, [0.0, 1.0]);
//! assert_eq!(sparsify(&columns, &weights, 0, 0), Err(Refusal::Zero));
//! # Ok(())
//! # }
//! ```
//!
//! # Names
//!
//! [`sparsify`], [`sparsify_within`], [`max_margin_change`] and [`discrepancy_coloring`] have the names, arguments and, given the same
//! draws, the values of the module `sparsification` of miniboosts; where that panics they give a [`Refusal`]. Their values stay plain
//! weights, not records, so that code written for that module goes on working behind a `?`. [`thin`] gives the whole answer: weights,
//! stage, nonzeros, change, how much was drawn and swept, and the path, and [`thin_all`] does so for up to [`MAX_ITEMS`] weight vectors over
//! the same columns; [`thin_votes`] takes labels and confidences, and gives the columns that are kept. [`thin`], [`thin_all`], [`color`],
//! [`max_margin_change`] and [`turned_words`] take columns of doubles or [`Votes`]. Where the panics are wanted too, the module
//! [`sparsification`] has the very signatures, and a host changes its `use` line alone.
//!
//! The draws are not the same: that module takes the platform's logarithm and cosine, this library one rule for every machine. Beside
//! that module as it ships, of thinnings to 4 weights with entries 1 and -1, 34 of 20,000 with 32 columns and 64 rows came out otherwise
//! and 10 of 2,000 with 120 columns and 1,000 rows; with entries anywhere in [-1, 1) none of as many; of colourings of 120 columns and
//! 1,000 rows 371 and 376 of 2,000. [`max_margin_change`] draws nothing and is the same always.
//!
//! # Building
//!
//! In a release the archive stands beside this crate. In the repository `host/archive` proves the library and writes the archive where
//! this crate looks for it. An archive in another place is named by the environment variable `KNOBTHISTLE_ARCHIVE`: its path or its
//! folder, from the root or from this crate's folder. It must be one for the machine, x86-64 or Arm.

#![warn(missing_docs)]

mod all;
mod answering;
mod archive;
mod bits;
mod coloring;
mod draws;
pub mod flat;
mod forms;
mod lent;
mod margins;
mod moving;
mod refusal;
mod salvaging;
mod sheets;
pub mod sparsification;
mod thinning;
mod votes;
mod voting;

pub use all::{thin_all, Item};
pub use answering::{moved_sheet, thin_sheet};
pub use archive::MAX_ITEMS;
pub use coloring::{color, discrepancy_coloring, Coloring};
pub use draws::{cos_draw, log_draw, sqrt, SplitMix64};
pub use forms::Margins;
pub use lent::{MAX_COLUMNS, MAX_ROWS};
pub use margins::{max_margin_change, turned_words};
pub use moving::{moved, Moved};
pub use refusal::Refusal;
pub use salvaging::salvage;
pub use sheets::{read_sheet, write_sheet, Sheet};
pub use thinning::{sparsify, sparsify_within, thin, Edition, Job, Rule, Thinned};
pub use votes::{NotAVote, Votes};
pub use voting::{thin_votes, Kept};

/// The version of the archive: of its three figures, 1000000 times the first, 1000 times the second, and the third. It is this crate's.
///
/// ```
/// let figure = |text: &str| text.parse::<u64>().unwrap();
/// let (major, minor, patch) = (env!("CARGO_PKG_VERSION_MAJOR"), env!("CARGO_PKG_VERSION_MINOR"), env!("CARGO_PKG_VERSION_PATCH"));
/// assert_eq!(knobthistle::version(), (figure(major) * 1000 + figure(minor)) * 1000 + figure(patch));
/// ```
pub fn version() -> u64 {
    // SAFETY: the call takes nothing and gives a number.
    unsafe { archive::knob_version() }
}

/// The example of the repository's README, built and run as a test.
#[cfg(all(doctest, in_repository))]
#[doc = include_str!("../../../README.md")]
struct Readme;
