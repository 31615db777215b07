// needs: knob_uniform knob_uniform_2 knob_gaussian knob_gaussian_2 knob_sqrt knob_log_draw knob_log_draw_2 knob_cos_draw knob_cos_draw_2
//! The draw: square root against the machine's; and of each edition generator and uniform against a second writing of them, the Gaussian
//! against its parts, and the fixed vectors. It also writes logarithms and cosines to a file, for `exact` to hold to document 01's bounds.
//! Arguments, for edition 1 and then for 2: the file of vectors to read, the file of logarithms and cosines to write.

#[path = "shared/chance.rs"]
mod chance;
#[path = "shared/draws.rs"]
mod draws;
#[path = "shared/tally.rs"]
mod tally;

use chance::splitmix::{state_before, step, GAMMA};
use chance::{count, Chance};
use draws::*;
use std::fmt::Write;
use tally::{end, Tally};

/// An edition of the draw: how many bits of an output its uniform takes, and its calls.
struct Edition {
    bits: u64,
    uniform: unsafe extern "C" fn(*mut u64) -> f64,
    gaussian: unsafe extern "C" fn(*mut u64) -> f64,
    log: unsafe extern "C" fn(u64) -> f64,
    cos: unsafe extern "C" fn(u64) -> f64,
    /// What its comparisons are called.
    names: [&'static str; 5],
}

const EDITIONS: [Edition; 2] = [
    Edition {
        bits: 53,
        uniform: knob_uniform,
        gaussian: knob_gaussian,
        log: knob_log_draw,
        cos: knob_cos_draw,
        names: ["uniform", "state after a uniform", "gaussian", "state after a gaussian", "vectors"],
    },
    Edition {
        bits: 52,
        uniform: knob_uniform_2,
        gaussian: knob_gaussian_2,
        log: knob_log_draw_2,
        cos: knob_cos_draw_2,
        names: [
            "uniform of edition 2",
            "state after a uniform of edition 2",
            "gaussian of edition 2",
            "state after a gaussian of edition 2",
            "vectors of edition 2",
        ],
    },
];

/// The uniform of an output, by its digits: (2N + 1)/2^(bits + 1), rounded to 53 digits, ties to even.
fn uniform_of(output: u64, bits: u64) -> f64 {
    let odd = 2 * (output >> (64 - bits)) + 1;
    let digits = if odd >= 1 << 53 { (odd >> 1) + ((odd >> 1) & 1) << 1 } else { odd };
    let length = 64 - u64::from(digits.leading_zeros());
    let fraction = if length > 53 { digits >> (length - 53) } else { digits << (53 - length) };
    f64::from_bits(((1023 + length - 1 - (bits + 1)) << 52) + (fraction - (1 << 52)))
}

/// Outputs where something can go wrong: the ends, powers of two and their neighbours, eighths of the turn, and low digits set.
fn edge_words() -> Vec<u64> {
    let top = (1u64 << 53) - 1;
    let mut numbers = vec![0, top];
    for shift in 0..53 {
        for near in 0..4u64 {
            numbers.extend([(1 << shift) + near, (1u64 << shift).saturating_sub(near), top - (1 << shift) + 1 - near.min(1)]);
        }
    }
    for eighth in 0..8u64 {
        for near in 0..64u64 {
            numbers.extend([(eighth << 50) + near, (eighth << 50).wrapping_sub(near) & top]);
        }
    }
    numbers.iter().flat_map(|n| [(n & top) << 11, (n & top) << 11 | 0x7FF]).collect()
}

fn square_roots(chance: &mut Chance) -> Tally {
    let mut tally = Tally::new("sqrt");
    let mut test = |bits: u64| {
        let x = f64::from_bits(bits);
        tally.doubles(unsafe { knob_sqrt(x) }, x.sqrt(), || format!("sqrt {bits:016X}"));
    };
    let around = |bits: u64, test: &mut dyn FnMut(u64)| (0..7).for_each(|k| test(bits.wrapping_add(k).wrapping_sub(3)));
    for bits in [0.0, f64::INFINITY, f64::NAN, f64::MIN_POSITIVE, f64::MAX, 1.0, 2.0, 4.0].map(f64::to_bits) {
        around(bits, &mut test);
        around(bits | 1 << 63, &mut test);
    }
    for power in 0..2046u64 {
        around(power << 52, &mut test);
    }
    for power in 0..52 {
        around(1 << power, &mut test);
    }
    for quarters in 0..100_000 {
        test((f64::from(quarters) / 4.0).to_bits());
    }
    for _ in 0..count(400_000) {
        test(chance.word());
    }
    for _ in 0..count(200_000) {
        test(chance.word() >> 1); // not negative
    }
    for _ in 0..count(100_000) {
        let width = chance.between(12, 63);
        test(chance.word() >> width & ((1 << 52) - 1)); // subnormal
    }
    for _ in 0..count(10_000) {
        test(chance.word() | 0x7FF0_0000_0000_0000); // a NaN, or an infinity
        test(chance.word() | 1 << 63);
    }
    for _ in 0..count(20_000) {
        let scale = f64::from_bits((1023 - 400 + 2 * chance.below(400) as u64) << 52);
        let exact = (chance.word() >> chance.between(38, 63)) as f64;
        around((exact * exact * scale).to_bits(), &mut test); // a square
        let root = (chance.word() >> 11 | 1 << 52) as f64;
        around((root * root * scale).to_bits(), &mut test); // a root of 53 digits, squared and rounded
        let root = u128::from(chance.word() >> 11 | 1 << 52) * 2 + 1;
        around(((root * root) as f64 * scale).to_bits(), &mut test); // half way between two roots, squared and rounded
    }
    tally
}

fn uniforms(edition: &Edition, chance: &mut Chance, edges: &[u64]) -> [Tally; 2] {
    let (mut values, mut states) = (Tally::new(edition.names[0]), Tally::new(edition.names[1]));
    let mut test = |state: u64| {
        let mut moved = state;
        let ours = unsafe { (edition.uniform)(&mut moved) };
        let (next, output) = step(state);
        values.doubles(ours, uniform_of(output, edition.bits), || format!("uniform from {state:016X}"));
        states.note(moved == next, || format!("{state:016X} moved to {moved:016X}, expected {next:016X}"));
    };
    for near in 0..1000 {
        test(near);
        test(u64::MAX - near);
        test((1 << 63) + near);
        test(GAMMA.wrapping_neg().wrapping_add(near).wrapping_sub(500));
    }
    edges.iter().for_each(|output| test(state_before(*output)));
    for _ in 0..count(100_000) {
        test(chance.word());
    }
    [values, states]
}

fn gaussians(edition: &Edition, chance: &mut Chance, edges: &[u64]) -> [Tally; 2] {
    let (mut values, mut states) = (Tally::new(edition.names[2]), Tally::new(edition.names[3]));
    let mut test = |state: u64| {
        let mut moved = state;
        let ours = unsafe { (edition.gaussian)(&mut moved) };
        let (between, first) = step(state);
        let (next, second) = step(between);
        let expected = (-2.0 * unsafe { (edition.log)(first) }).sqrt() * unsafe { (edition.cos)(second) };
        values.doubles(ours, expected, || format!("gaussian from {state:016X}"));
        states.note(moved == next, || format!("{state:016X} moved to {moved:016X}, expected {next:016X}"));
    };
    for output in edges {
        test(state_before(*output)); // the first output at an edge
        test(state_before(*output).wrapping_sub(GAMMA)); // the second
    }
    for _ in 0..count(1_000_000) {
        test(chance.word());
    }
    [values, states]
}

/// The lines of `vectors`: state, two outputs, their uniforms, logarithm, cosine, Gaussian, state after.
fn vectors(edition: &Edition, path: &str) -> Tally {
    let mut tally = Tally::new(edition.names[4]);
    let text = std::fs::read_to_string(path).expect("the file of vectors");
    for line in text.lines() {
        let fields: Vec<u64> = line.split('\t').map(|f| u64::from_str_radix(f, 16).expect("hex digits")).collect();
        let (mut by_uniform, mut by_gaussian) = (fields[0], fields[0]);
        let ours = unsafe {
            [
                (edition.uniform)(&mut by_uniform).to_bits(),
                (edition.uniform)(&mut by_uniform).to_bits(),
                (edition.log)(fields[1]).to_bits(),
                (edition.cos)(fields[2]).to_bits(),
                (edition.gaussian)(&mut by_gaussian).to_bits(),
                by_gaussian,
            ]
        };
        tally.note(ours == fields[3..] && by_uniform == fields[8], || line.to_string());
    }
    tally
}

/// Writes an output, its logarithm and its cosine to a line each.
fn write_draws(edition: &Edition, chance: &mut Chance, edges: &[u64], path: &str) {
    let mut words = edges.to_vec();
    while words.len() < count(24_000) {
        let word = chance.word();
        words.extend([word, word >> chance.between(1, 52), !(word >> chance.between(1, 52))]);
    }
    let mut text = String::new();
    for word in words {
        let (log, cos) = unsafe { ((edition.log)(word), (edition.cos)(word)) };
        writeln!(text, "{word:016X} {:016X} {:016X}", log.to_bits(), cos.to_bits()).expect("a line");
    }
    std::fs::write(path, text).expect("the file of logarithms and cosines");
}

fn main() {
    let words: Vec<String> = std::env::args().collect();
    let mut chance = Chance::new("draw", 1);
    let edges = edge_words();
    let mut all = vec![square_roots(&mut chance)];
    for (edition, files) in EDITIONS.iter().zip(words[1..].chunks(2)) {
        write_draws(edition, &mut chance, &edges, &files[1]);
        all.extend(uniforms(edition, &mut chance, &edges));
        all.extend(gaussians(edition, &mut chance, &edges));
        all.push(vectors(edition, &files[0]));
    }
    end(&all.iter().collect::<Vec<_>>())
}
