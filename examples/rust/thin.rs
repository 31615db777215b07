//! Thins the ensemble of the example sheet: two columns, two rows, weights 1 and 3, within an allowance of 0.5.

// The declarations of the crate host/rust: the record, and the calls, which write their answer through an address and return that
// address. On x86-64 this is how C returns such a record.
#[allow(dead_code)]
#[path = "../../host/rust/src/archive.rs"]
mod archive;

use archive::{knob_sparsify_within, Answer};

fn main() {
    let (m, n) = (2, 2);
    let matrix = [1.0, 1.0, 1.0, -1.0]; // column after column
    let weights = [1.0, 3.0];
    let mut output = [0.0; 2];
    let mut numbers = vec![0.0; m * (n + 1) + m * m + 16 * m + 8 * (n + 1)];
    let mut indices = vec![0; 8 * (m + n + 1)];
    let mut a = Answer::default();
    unsafe {
        knob_sparsify_within(
            &mut a,
            matrix.as_ptr(),
            matrix.len(),
            m,
            n,
            weights.as_ptr(),
            weights.len(),
            0,
            1,
            0.5,
            0,
            0,
            output.as_mut_ptr(),
            output.len(),
            numbers.as_mut_ptr(),
            numbers.len(),
            indices.as_mut_ptr(),
            indices.len(),
        );
    }
    if a.number != 0 {
        println!("refused {}", a.number);
        std::process::exit(1);
    }
    println!("stage {}, {} left, no margin moved by more than {}", a.stage, a.nonzeros, a.change);
    println!("directions drawn: {}, sweeps made: {}", a.directions, a.sweeps);
    for (j, w) in output.iter().enumerate() {
        println!("weight {j}: {w}");
    }
}
