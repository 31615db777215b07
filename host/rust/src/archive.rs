//! The calls of the archive, as include/knobthistle.h has them.
//!
//! A thinning's answer is written through the first parameter, whose address is also the result. That is how C returns a record of
//! this size on x86-64, and how oracle/host-archive has it on Arm, where C does otherwise.

/// The archive's answer to a job.
#[repr(C)]
#[derive(Clone, Copy, Default)]
pub struct Answer {
    pub number: u64,
    pub stage: u64,
    pub nonzeros: u64,
    pub change: f64,
    pub directions: u64,
    pub sweeps: u64,
    pub path_nonzeros: [u64; 9],
    pub path_change: [f64; 9],
}

/// The most items that one call takes.
pub const MAX_ITEMS: usize = 64;

/// The archive's answer to a call for several items.
#[repr(C)]
pub struct Answers {
    pub number: u64,
    pub items: [Answer; MAX_ITEMS],
}

/// The answer to a colouring.
#[derive(Default)]
#[repr(C)]
pub struct Colored {
    pub number: u64,
    pub directions: u64,
    pub sweeps: u64,
}

extern "C" {
    pub fn knob_version() -> u64;
    pub fn knob_uniform(state: *mut u64) -> f64;
    pub fn knob_gaussian(state: *mut u64) -> f64;
    pub fn knob_sqrt(x: f64) -> f64;
    pub fn knob_log_draw(word: u64) -> f64;
    pub fn knob_cos_draw(word: u64) -> f64;
    pub fn knob_uniform_2(state: *mut u64) -> f64;
    pub fn knob_gaussian_2(state: *mut u64) -> f64;
    pub fn knob_log_draw_2(word: u64) -> f64;
    pub fn knob_cos_draw_2(word: u64) -> f64;

    pub fn knob_sparsify(
        answer: *mut Answer,
        matrix: *const f64,
        matrix_length: usize,
        m: usize,
        n: usize,
        weights: *const f64,
        weights_length: usize,
        seed: u64,
        edition: u32,
        target: usize,
        output: *mut f64,
        output_length: usize,
        numbers: *mut f64,
        numbers_length: usize,
        indices: *mut u32,
        indices_length: usize,
    ) -> *mut Answer;

    pub fn knob_sparsify_within(
        answer: *mut Answer,
        matrix: *const f64,
        matrix_length: usize,
        m: usize,
        n: usize,
        weights: *const f64,
        weights_length: usize,
        seed: u64,
        edition: u32,
        allowance: f64,
        capped: u32,
        cap: usize,
        output: *mut f64,
        output_length: usize,
        numbers: *mut f64,
        numbers_length: usize,
        indices: *mut u32,
        indices_length: usize,
    ) -> *mut Answer;

    pub fn knob_thin_all(
        answer: *mut Answers,
        matrix: *const f64,
        matrix_length: usize,
        m: usize,
        n: usize,
        items: usize,
        weights: *const f64,
        weights_length: usize,
        seeds: *const u64,
        seeds_length: usize,
        editions: *const u32,
        editions_length: usize,
        rules: *const u32,
        rules_length: usize,
        allowances: *const f64,
        allowances_length: usize,
        limits: *const u64,
        limits_length: usize,
        output: *mut f64,
        output_length: usize,
        numbers: *mut f64,
        numbers_length: usize,
        indices: *mut u32,
        indices_length: usize,
    ) -> *mut Answers;

    pub fn knob_thin_votes(
        answer: *mut Answer,
        confidences: *const f64,
        confidences_length: usize,
        labels: *const i8,
        labels_length: usize,
        m: usize,
        n: usize,
        weights: *const f64,
        weights_length: usize,
        seed: u64,
        edition: u32,
        rule: u32,
        allowance: f64,
        limit: usize,
        columns: *mut u32,
        columns_length: usize,
        kept: *mut f64,
        kept_length: usize,
        numbers: *mut f64,
        numbers_length: usize,
        indices: *mut u32,
        indices_length: usize,
    ) -> *mut Answer;

    pub fn knob_discrepancy_coloring(
        answer: *mut Colored,
        matrix: *const f64,
        matrix_length: usize,
        m: usize,
        n: usize,
        seed: u64,
        output: *mut i8,
        output_length: usize,
        numbers: *mut f64,
        numbers_length: usize,
        indices: *mut u32,
        indices_length: usize,
    ) -> *mut Colored;

    pub fn knob_max_margin_change(
        matrix: *const f64,
        matrix_length: usize,
        m: usize,
        n: usize,
        before: *const f64,
        before_length: usize,
        after: *const f64,
        after_length: usize,
        change: *mut f64,
    ) -> u64;

    pub fn knob_turned_words(
        matrix: *const f64,
        matrix_length: usize,
        m: usize,
        n: usize,
        before: *const f64,
        before_length: usize,
        after: *const f64,
        after_length: usize,
        thresholds: *const f64,
        thresholds_length: usize,
        count: *mut u64,
    ) -> u64;

    pub fn knob_thin_bits(
        answer: *mut Answer,
        bits: *const u8,
        bits_length: usize,
        m: usize,
        n: usize,
        weights: *const f64,
        weights_length: usize,
        seed: u64,
        edition: u32,
        rule: u32,
        allowance: f64,
        limit: usize,
        output: *mut f64,
        output_length: usize,
        numbers: *mut f64,
        numbers_length: usize,
        indices: *mut u32,
        indices_length: usize,
    ) -> *mut Answer;

    // The crate asks knob_thin_bits for both rules; these are for a host that takes this file alone.
    #[allow(dead_code)]
    pub fn knob_sparsify_bits(
        answer: *mut Answer,
        bits: *const u8,
        bits_length: usize,
        m: usize,
        n: usize,
        weights: *const f64,
        weights_length: usize,
        seed: u64,
        edition: u32,
        target: usize,
        output: *mut f64,
        output_length: usize,
        numbers: *mut f64,
        numbers_length: usize,
        indices: *mut u32,
        indices_length: usize,
    ) -> *mut Answer;

    #[allow(dead_code)]
    pub fn knob_sparsify_within_bits(
        answer: *mut Answer,
        bits: *const u8,
        bits_length: usize,
        m: usize,
        n: usize,
        weights: *const f64,
        weights_length: usize,
        seed: u64,
        edition: u32,
        allowance: f64,
        capped: u32,
        cap: usize,
        output: *mut f64,
        output_length: usize,
        numbers: *mut f64,
        numbers_length: usize,
        indices: *mut u32,
        indices_length: usize,
    ) -> *mut Answer;

    pub fn knob_thin_all_bits(
        answer: *mut Answers,
        bits: *const u8,
        bits_length: usize,
        m: usize,
        n: usize,
        items: usize,
        weights: *const f64,
        weights_length: usize,
        seeds: *const u64,
        seeds_length: usize,
        editions: *const u32,
        editions_length: usize,
        rules: *const u32,
        rules_length: usize,
        allowances: *const f64,
        allowances_length: usize,
        limits: *const u64,
        limits_length: usize,
        output: *mut f64,
        output_length: usize,
        numbers: *mut f64,
        numbers_length: usize,
        indices: *mut u32,
        indices_length: usize,
    ) -> *mut Answers;

    pub fn knob_discrepancy_coloring_bits(
        answer: *mut Colored,
        bits: *const u8,
        bits_length: usize,
        m: usize,
        n: usize,
        seed: u64,
        output: *mut i8,
        output_length: usize,
        numbers: *mut f64,
        numbers_length: usize,
        indices: *mut u32,
        indices_length: usize,
    ) -> *mut Colored;

    pub fn knob_max_margin_change_bits(
        bits: *const u8,
        bits_length: usize,
        m: usize,
        n: usize,
        before: *const f64,
        before_length: usize,
        after: *const f64,
        after_length: usize,
        change: *mut f64,
    ) -> u64;

    pub fn knob_turned_words_bits(
        bits: *const u8,
        bits_length: usize,
        m: usize,
        n: usize,
        before: *const f64,
        before_length: usize,
        after: *const f64,
        after_length: usize,
        thresholds: *const f64,
        thresholds_length: usize,
        count: *mut u64,
    ) -> u64;

    pub fn knob_moved(
        matrix: *const f64,
        matrix_length: usize,
        m: usize,
        n: usize,
        before: *const f64,
        before_length: usize,
        after: *const f64,
        after_length: usize,
        rows: *mut u32,
        rows_length: usize,
        changes: *mut f64,
        changes_length: usize,
    ) -> u64;

    pub fn knob_moved_again(
        matrix: *const f64,
        matrix_length: usize,
        m: usize,
        n: usize,
        before: *const f64,
        before_length: usize,
        after: *const f64,
        after_length: usize,
        rows: *mut u32,
        rows_length: usize,
        changes: *mut f64,
        changes_length: usize,
    ) -> u64;

    pub fn knob_write_sheet(
        matrix: *const u64,
        matrix_length: usize,
        m: usize,
        n: usize,
        weights: *const u64,
        weights_length: usize,
        seed: u64,
        edition: u32,
        rule: u32,
        allowance: u64,
        limit: u64,
        text: *mut u8,
        text_length: usize,
        length: *mut usize,
    ) -> u64;

    pub fn knob_read_sheet(
        text: *const u8,
        text_length: usize,
        matrix: *mut u64,
        matrix_length: usize,
        weights: *mut u64,
        weights_length: usize,
        first: *mut u64,
        first_length: usize,
    ) -> u64;

    pub fn knob_salvage(text: *const u8, text_length: usize, answer: *mut u8, answer_length: usize) -> usize;

    pub fn knob_thin_sheet(text: *const u8, text_length: usize, answer: *mut u8, answer_length: usize) -> usize;

    pub fn knob_moved_sheet(text: *const u8, text_length: usize, answer: *mut u8, answer_length: usize) -> usize;
}
