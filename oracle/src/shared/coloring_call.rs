//! The colouring call of the archive. The answer is written through the first parameter, whose address is returned: that is how a record
//! of this size is returned on x86-64, and how `host-archive` has it on Arm.

/// The number, and how many directions were drawn and how many sweeps made.
#[derive(Clone, Copy, Debug)]
#[repr(C)]
pub struct Colored {
    pub number: u64,
    pub directions: u64,
    pub sweeps: u64,
}

impl Colored {
    /// Noise, so that a field that is not written shows.
    pub fn noise() -> Colored {
        Colored { number: 77, directions: 77, sweeps: 77 }
    }
}

extern "C" {
    pub fn knob_discrepancy_coloring(
        answer: *mut Colored,
        matrix: *const f64,
        matrix_len: usize,
        m: usize,
        n: usize,
        seed: u64,
        output: *mut i8,
        output_len: usize,
        numbers: *mut f64,
        numbers_len: usize,
        indices: *mut u32,
        indices_len: usize,
    ) -> *mut Colored;
}
