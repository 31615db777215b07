//! The draws: one exact rule for each edition, with the same bits on every machine.

use crate::archive::{
    knob_cos_draw, knob_cos_draw_2, knob_gaussian, knob_gaussian_2, knob_log_draw, knob_log_draw_2, knob_sqrt, knob_uniform, knob_uniform_2,
};
use crate::Edition;

/// The generator SplitMix64. Its state is one number, any number; each output moves it on.
///
/// ```
/// use knobthistle::{Edition, SplitMix64};
///
/// let mut generator = SplitMix64 { state: 0x61C8_8646_80B5_83EB };
/// assert_eq!(generator.uniform(Edition::First), 2f64.powi(-54)); // the output is 0
/// assert_eq!(generator.state, 0);
/// ```
#[derive(Clone, Copy, Debug, PartialEq, Eq, Hash)]
pub struct SplitMix64 {
    /// What the next output is made from.
    pub state: u64,
}

impl SplitMix64 {
    /// A uniform number from the next output: above 0, and at most 1 by the first edition, below 1 by the second.
    pub fn uniform(&mut self, edition: Edition) -> f64 {
        // SAFETY: the state is borrowed from nowhere else, and the archive keeps no pointer.
        unsafe {
            match edition {
                Edition::First => knob_uniform(&mut self.state),
                Edition::Second => knob_uniform_2(&mut self.state),
            }
        }
    }

    /// A Gaussian number of mean 0 and variance 1 from the next two outputs. Never a NaN and never infinite.
    pub fn gaussian(&mut self, edition: Edition) -> f64 {
        // SAFETY: as above.
        unsafe {
            match edition {
                Edition::First => knob_gaussian(&mut self.state),
                Edition::Second => knob_gaussian_2(&mut self.state),
            }
        }
    }
}

/// IEEE 754's square root, correctly rounded.
pub fn sqrt(x: f64) -> f64 {
    // SAFETY: the call takes and gives plain numbers.
    unsafe { knob_sqrt(x) }
}

/// The natural logarithm of the uniform number that this output of the generator gives.
pub fn log_draw(word: u64, edition: Edition) -> f64 {
    // SAFETY: the calls take and give plain numbers.
    unsafe {
        match edition {
            Edition::First => knob_log_draw(word),
            Edition::Second => knob_log_draw_2(word),
        }
    }
}

/// The cosine of TAU times the uniform number that this output of the generator gives.
pub fn cos_draw(word: u64, edition: Edition) -> f64 {
    // SAFETY: the calls take and give plain numbers.
    unsafe {
        match edition {
            Edition::First => knob_cos_draw(word),
            Edition::Second => knob_cos_draw_2(word),
        }
    }
}
