//! The draw calls of the archive, and the edition by which the original draws.

use std::cell::Cell;

extern "C" {
    pub fn knob_uniform(state: *mut u64) -> f64;
    pub fn knob_uniform_2(state: *mut u64) -> f64;
    pub fn knob_gaussian(state: *mut u64) -> f64;
    pub fn knob_gaussian_2(state: *mut u64) -> f64;
    pub fn knob_sqrt(x: f64) -> f64;
    pub fn knob_log_draw(word: u64) -> f64;
    pub fn knob_log_draw_2(word: u64) -> f64;
    pub fn knob_cos_draw(word: u64) -> f64;
    pub fn knob_cos_draw_2(word: u64) -> f64;
}

thread_local! {
    static EDITION: Cell<u32> = Cell::new(1);
}

/// From here on the original draws by this edition.
pub fn by_edition(edition: u32) {
    EDITION.set(edition);
}

/// What the original draws.
pub fn gaussian(state: &mut u64) -> f64 {
    unsafe {
        match EDITION.get() {
            1 => knob_gaussian(state),
            _ => knob_gaussian_2(state),
        }
    }
}
