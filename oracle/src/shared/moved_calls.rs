//! The calls of the archive that list which word moved. The number is returned.

extern "C" {
    pub fn knob_moved(
        matrix: *const f64,
        matrix_len: usize,
        m: usize,
        n: usize,
        before: *const f64,
        before_len: usize,
        after: *const f64,
        after_len: usize,
        rows: *mut u32,
        rows_len: usize,
        changes: *mut f64,
        changes_len: usize,
    ) -> u64;

    pub fn knob_moved_again(
        matrix: *const f64,
        matrix_len: usize,
        m: usize,
        n: usize,
        before: *const f64,
        before_len: usize,
        after: *const f64,
        after_len: usize,
        rows: *mut u32,
        rows_len: usize,
        changes: *mut f64,
        changes_len: usize,
    ) -> u64;
}
