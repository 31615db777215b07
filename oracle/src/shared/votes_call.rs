//! The archive's call on labels and confidences. The answer is written through the first parameter, as that of a single job is.

use crate::thinning_calls::Answer;

extern "C" {
    pub fn knob_thin_votes(
        answer: *mut Answer,
        confidences: *const f64,
        confidences_len: usize,
        labels: *const i8,
        labels_len: usize,
        m: usize,
        n: usize,
        weights: *const f64,
        weights_len: usize,
        seed: u64,
        edition: u32,
        rule: u32,
        allowance: f64,
        limit: usize,
        columns: *mut u32,
        columns_len: usize,
        kept: *mut f64,
        kept_len: usize,
        numbers: *mut f64,
        numbers_len: usize,
        indices: *mut u32,
        indices_len: usize,
    ) -> *mut Answer;
}
