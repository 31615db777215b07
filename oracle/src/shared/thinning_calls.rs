//! The thinning calls of the archive. The answer is written through the first parameter, whose address is also the result: that is
//! how a record of this size is returned on x86-64, and how `host-archive` has it on Arm.

/// The archive's answer to a job.
#[repr(C)]
#[derive(Clone, Copy, Debug)]
pub struct Answer {
    pub number: u64,
    pub stage: u64,
    pub nonzeros: u64,
    pub change: f64,
    pub directions: u64,
    pub sweeps: u64,
    pub path_nonzeros: [u64; 9],
    pub path_change: [f64; 9],
}

impl Answer {
    /// The path is this one, and zeros stand after it.
    pub fn has_path(&self, path: &[(u64, f64)]) -> bool {
        let at = |k: usize| path.get(k).copied().unwrap_or((0, 0.0));
        (0..9).all(|k| self.path_nonzeros[k] == at(k).0 && self.path_change[k].to_bits() == at(k).1.to_bits())
    }

    /// Noise, so that a field that is not written shows.
    pub fn noise() -> Answer {
        let (path_nonzeros, path_change) = ([77; 9], [77.0; 9]);
        Answer { number: 77, stage: 77, nonzeros: 77, change: 77.0, directions: 77, sweeps: 77, path_nonzeros, path_change }
    }
}

extern "C" {
    pub fn knob_sparsify(
        answer: *mut Answer,
        matrix: *const f64,
        matrix_len: usize,
        m: usize,
        n: usize,
        weights: *const f64,
        weights_len: usize,
        seed: u64,
        edition: u32,
        target: usize,
        output: *mut f64,
        output_len: usize,
        numbers: *mut f64,
        numbers_len: usize,
        indices: *mut u32,
        indices_len: usize,
    ) -> *mut Answer;

    pub fn knob_sparsify_within(
        answer: *mut Answer,
        matrix: *const f64,
        matrix_len: usize,
        m: usize,
        n: usize,
        weights: *const f64,
        weights_len: usize,
        seed: u64,
        edition: u32,
        allowance: f64,
        capped: u32,
        cap: usize,
        output: *mut f64,
        output_len: usize,
        numbers: *mut f64,
        numbers_len: usize,
        indices: *mut u32,
        indices_len: usize,
    ) -> *mut Answer;
}
