//! The calls of the archive on votes as bits. An answer that is a record is written through the first parameter, as in the calls on doubles.

use crate::coloring_call::Colored;
use crate::thinning_calls::Answer;

extern "C" {
    pub fn knob_sparsify_bits(
        answer: *mut Answer,
        bits: *const u8,
        bits_len: usize,
        m: usize,
        n: usize,
        weights: *const f64,
        weights_len: usize,
        seed: u64,
        edition: u32,
        target: usize,
        output: *mut f64,
        output_len: usize,
        numbers: *mut f64,
        numbers_len: usize,
        indices: *mut u32,
        indices_len: usize,
    ) -> *mut Answer;

    pub fn knob_sparsify_within_bits(
        answer: *mut Answer,
        bits: *const u8,
        bits_len: usize,
        m: usize,
        n: usize,
        weights: *const f64,
        weights_len: usize,
        seed: u64,
        edition: u32,
        allowance: f64,
        capped: u32,
        cap: usize,
        output: *mut f64,
        output_len: usize,
        numbers: *mut f64,
        numbers_len: usize,
        indices: *mut u32,
        indices_len: usize,
    ) -> *mut Answer;

    pub fn knob_thin_bits(
        answer: *mut Answer,
        bits: *const u8,
        bits_len: usize,
        m: usize,
        n: usize,
        weights: *const f64,
        weights_len: usize,
        seed: u64,
        edition: u32,
        rule: u32,
        allowance: f64,
        limit: usize,
        output: *mut f64,
        output_len: usize,
        numbers: *mut f64,
        numbers_len: usize,
        indices: *mut u32,
        indices_len: usize,
    ) -> *mut Answer;

    pub fn knob_discrepancy_coloring_bits(
        answer: *mut Colored,
        bits: *const u8,
        bits_len: usize,
        m: usize,
        n: usize,
        seed: u64,
        output: *mut i8,
        output_len: usize,
        numbers: *mut f64,
        numbers_len: usize,
        indices: *mut u32,
        indices_len: usize,
    ) -> *mut Colored;

    pub fn knob_max_margin_change_bits(
        bits: *const u8,
        bits_len: usize,
        m: usize,
        n: usize,
        before: *const f64,
        before_len: usize,
        after: *const f64,
        after_len: usize,
        change: *mut f64,
    ) -> u64;

    pub fn knob_turned_words_bits(
        bits: *const u8,
        bits_len: usize,
        m: usize,
        n: usize,
        before: *const f64,
        before_len: usize,
        after: *const f64,
        after_len: usize,
        thresholds: *const f64,
        thresholds_len: usize,
        count: *mut u64,
    ) -> u64;
}
