//! The draws that the crate hands on: C10 and C11, both editions, and a Gaussian by its parts.

use knobthistle::{cos_draw, log_draw, sqrt, Edition, SplitMix64};

const BOTH: [Edition; 2] = [Edition::First, Edition::Second];

/// The generator's published rule, written a second time.
fn output(state: &mut u64) -> u64 {
    *state = state.wrapping_add(0x9E37_79B9_7F4A_7C15);
    let z = (*state ^ (*state >> 30)).wrapping_mul(0xBF58_476D_1CE4_E5B9);
    let z = (z ^ (z >> 27)).wrapping_mul(0x94D0_49BB_1331_11EB);
    z ^ (z >> 31)
}

#[test]
fn c10() {
    for (edition, first) in BOTH.into_iter().zip([2f64.powi(-54), 2f64.powi(-53)]) {
        let mut generator = SplitMix64 { state: 0x61C8_8646_80B5_83EB };
        assert_eq!(generator.uniform(edition), first);
        assert_eq!(generator.state, 0);
    }
}

#[test]
fn uniform_and_gaussian_by_their_parts() {
    let mut state = 5;
    for _ in 0..10_000 {
        let (mut one, mut two) = (SplitMix64 { state }, SplitMix64 { state });
        let (first, second) = (output(&mut state), output(&mut state));
        for edition in BOTH {
            let mut generator = one;
            let uniform = match edition {
                Edition::First => ((first >> 11) as f64 + 0.5) / 2f64.powi(53),
                Edition::Second => ((first >> 12) as f64 + 0.5) / 2f64.powi(52),
            };
            assert_eq!(generator.uniform(edition).to_bits(), uniform.to_bits());
            assert!((log_draw(first, edition) - uniform.ln()).abs() < 1e-11);
            let mut generator = two;
            let gaussian = sqrt(-2.0 * log_draw(first, edition)) * cos_draw(second, edition);
            assert_eq!(generator.gaussian(edition).to_bits(), gaussian.to_bits());
            assert_eq!(generator.state, state);
        }
        one.uniform(Edition::Second);
        two.gaussian(Edition::First);
        assert_eq!(two.state, state);
        assert_ne!(one.state, state);
    }
    assert_eq!(sqrt(2.0), 2f64.sqrt());
    assert!(sqrt(-1.0).is_nan());
}
