//! The calls of the archive on the margins of two weight vectors. The number is returned, the value written through the last parameter.

extern "C" {
    pub fn knob_max_margin_change(
        matrix: *const f64,
        matrix_len: usize,
        m: usize,
        n: usize,
        before: *const f64,
        before_len: usize,
        after: *const f64,
        after_len: usize,
        change: *mut f64,
    ) -> u64;

    pub fn knob_turned_words(
        matrix: *const f64,
        matrix_len: usize,
        m: usize,
        n: usize,
        before: *const f64,
        before_len: usize,
        after: *const f64,
        after_len: usize,
        thresholds: *const f64,
        thresholds_len: usize,
        count: *mut u64,
    ) -> u64;
}
