//! SplitMix64 written a second time, on 128 bits, and backwards: from an output to the state before it.

pub const GAMMA: u64 = 0x9E37_79B9_7F4A_7C15;
const FIRST: u64 = 0xBF58_476D_1CE4_E5B9;
const SECOND: u64 = 0x94D0_49BB_1331_11EB;

/// The generator on 128 bits: the state after, and the output.
pub fn step(state: u64) -> (u64, u64) {
    let modulo = |x: u128| x % (1 << 64);
    let next = modulo(u128::from(state) + u128::from(GAMMA));
    let a = modulo((next ^ (next / (1 << 30))) * u128::from(FIRST));
    let b = modulo((a ^ (a / (1 << 27))) * u128::from(SECOND));
    (next as u64, (b ^ (b / (1 << 31))) as u64)
}

/// The state from which the next output is this one.
pub fn state_before(output: u64) -> u64 {
    let unshift = |z: u64, by: u32| (0..64 / by).fold(z, |x, _| z ^ (x >> by));
    // Newton's rule for an odd number's inverse modulo 2^64 doubles the right digits each time.
    let inverse = |x: u64| (0..6).fold(x, |i, _| i.wrapping_mul(2u64.wrapping_sub(x.wrapping_mul(i))));
    let a = unshift(output, 31).wrapping_mul(inverse(SECOND));
    let b = unshift(a, 27).wrapping_mul(inverse(FIRST));
    unshift(b, 30).wrapping_sub(GAMMA)
}
