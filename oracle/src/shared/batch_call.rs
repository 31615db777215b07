//! The archive's calls for several items. The answer is written through the first parameter, as that of a single job is.

use crate::thinning_calls::Answer;

/// The most items that one call takes.
pub const MOST: usize = 64;

/// The archive's answer to such a call.
#[repr(C)]
pub struct Answers {
    pub number: u64,
    pub items: [Answer; MOST],
}

impl Answers {
    /// Noise, so that a field that is not written shows.
    pub fn noise() -> Answers {
        Answers { number: 77, items: [Answer::noise(); MOST] }
    }
}

extern "C" {
    pub fn knob_thin_all(
        answer: *mut Answers,
        matrix: *const f64,
        matrix_len: usize,
        m: usize,
        n: usize,
        items: usize,
        weights: *const f64,
        weights_len: usize,
        seeds: *const u64,
        seeds_len: usize,
        editions: *const u32,
        editions_len: usize,
        rules: *const u32,
        rules_len: usize,
        allowances: *const f64,
        allowances_len: usize,
        limits: *const u64,
        limits_len: usize,
        output: *mut f64,
        output_len: usize,
        numbers: *mut f64,
        numbers_len: usize,
        indices: *mut u32,
        indices_len: usize,
    ) -> *mut Answers;

    pub fn knob_thin_all_bits(
        answer: *mut Answers,
        bits: *const u8,
        bits_len: usize,
        m: usize,
        n: usize,
        items: usize,
        weights: *const f64,
        weights_len: usize,
        seeds: *const u64,
        seeds_len: usize,
        editions: *const u32,
        editions_len: usize,
        rules: *const u32,
        rules_len: usize,
        allowances: *const f64,
        allowances_len: usize,
        limits: *const u64,
        limits_len: usize,
        output: *mut f64,
        output_len: usize,
        numbers: *mut f64,
        numbers_len: usize,
        indices: *mut u32,
        indices_len: usize,
    ) -> *mut Answers;
}
