//! The oracle's own chance, from a seed that is printed, and the factor on its counts.
//! It is xorshift64*, not SplitMix64, so that what is tested does not choose its own tests.

/// A seed whose first output is all ones: the first uniform is 1, its logarithm 0, and so the first Gaussian a zero.
pub const ZERO_FIRST: u64 = 0x3162_8AF6_7B21_31AB;

#[path = "splitmix.rs"]
pub mod splitmix;

use splitmix::{state_before, GAMMA};

/// A seed whose Gaussian of this number, from 0, is a zero, so that a direction with nothing beside it is broken off.
pub fn zero_at(gaussian: u64) -> u64 {
    ZERO_FIRST.wrapping_sub((2 * gaussian).wrapping_mul(GAMMA))
}

pub struct Chance(u64);

impl Chance {
    /// Each part has a seed of its own.
    pub fn new(part: &str, seed: u64) -> Chance {
        println!("{part}: seed {seed}, counts times {}", factor());
        Chance(seed.wrapping_mul(2).wrapping_add(1))
    }

    pub fn word(&mut self) -> u64 {
        self.0 ^= self.0 >> 12;
        self.0 ^= self.0 << 25;
        self.0 ^= self.0 >> 27;
        self.0.wrapping_mul(0x2545_F491_4F6C_DD1D)
    }

    /// A whole number below `end`.
    pub fn below(&mut self, end: usize) -> usize {
        ((u128::from(self.word()) * end as u128) >> 64) as usize
    }

    /// A whole number of at least `low` and at most `high`.
    pub fn between(&mut self, low: usize, high: usize) -> usize {
        low + self.below(high - low + 1)
    }

    /// True once in `times`.
    pub fn once_in(&mut self, times: usize) -> bool {
        self.below(times) == 0
    }

    pub fn sign(&mut self) -> f64 {
        if self.word() >> 63 == 0 {
            1.0
        } else {
            -1.0
        }
    }

    /// A double in [0, 1).
    pub fn unit(&mut self) -> f64 {
        (self.word() >> 11) as f64 / 9007199254740992.0
    }

    /// A double in [-1, 1).
    pub fn signed(&mut self) -> f64 {
        2.0 * self.unit() - 1.0
    }

    pub fn pick<T: Copy>(&mut self, from: &[T]) -> T {
        from[self.below(from.len())]
    }

    /// A double of any kind: where it may be wild, now and then not a finite one.
    pub fn any(&mut self, wild: bool) -> f64 {
        match self.below(if wild { 12 } else { 9 }) {
            0 => 0.0 * self.sign(),
            1 => self.sign(),
            2 => self.signed() * 1e-310,
            3 => self.signed() * 10f64.powi(self.below(40) as i32 - 20),
            9 => self.pick(&[f64::NAN, -f64::NAN, f64::INFINITY, f64::NEG_INFINITY]),
            10 => f64::from_bits(self.word()),
            11 => f64::MAX * self.sign(),
            _ => self.signed(),
        }
    }

    /// A seed for a job: now and then one at the edge, or one whose first output is all zeros or all ones, or one with a small draw.
    pub fn seed(&mut self) -> u64 {
        match self.below(8) {
            0 => self.pick(&[0, 1, u64::MAX, 1 << 63, 0x61C8_8646_80B5_83EB, ZERO_FIRST]),
            1 => self.small(),
            _ => self.word(),
        }
    }

    /// A seed of whose first outputs one is small that goes into a logarithm: the uniforms of the two editions are as far apart there as
    /// they can be. On almost every other seed both give the same colours.
    pub fn small(&mut self) -> u64 {
        let output = self.word() >> self.between(50, 63);
        let draws_before = self.below(6) as u64;
        state_before(output).wrapping_sub(GAMMA.wrapping_mul(2 * draws_before))
    }
}

/// The number that ORACLE_FACTOR gives, or 1.
pub fn factor() -> f64 {
    std::env::var("ORACLE_FACTOR").ok().map_or(1.0, |text| text.parse().expect("ORACLE_FACTOR is a number"))
}

/// A count times the factor, at least 1.
pub fn count(base: usize) -> usize {
    ((base as f64 * factor()) as usize).max(1)
}
