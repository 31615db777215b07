//! Doubles as people read and write them.

/// The double that a text says: a decimal, or a word for what is not finite, which the library then refuses. None where it says no number.
pub fn read(text: &str) -> Option<f64> {
    // Rust reads decimals, `inf` and `nan` in every case of letters, and nothing else.
    text.parse().ok()
}

/// The decimal that a text begins with, and how many bytes it takes, where it is a plain one: a minus or no sign, and at most 19 digits, of
/// which a point may stand before, among or behind. None also where its rounding is not certain, as for one in a few hundred, or where the
/// text ends too soon behind a point.
#[inline(always)]
pub fn leading(text: &[u8]) -> Option<(f64, usize)> {
    let negative = text.first() == Some(&b'-');
    let start = usize::from(negative);
    let (mut at, mut digits) = (start, 0u64);
    while let Some(digit @ b'0'..=b'9') = text.get(at) {
        digits = digits.wrapping_mul(10).wrapping_add(u64::from(digit - b'0'));
        at += 1;
    }
    let (mut count, mut places) = (at - start, 0);
    if text.get(at) == Some(&b'.') {
        (digits, places) = further_digits(digits, &text[at + 1..])?;
        at += 1 + places;
        count += places;
    }
    if count == 0 || count >= POWERS.len() {
        return None;
    }
    let size = quotient(digits, places)?;
    Some((if negative { -size } else { size }, at))
}

/// The number whose digits are these and then those that the text begins with, and how many the latter are. It is wrong beyond 19 digits.
fn further_digits(mut digits: u64, text: &[u8]) -> Option<(u64, usize)> {
    let mut count = 0;
    loop {
        let eight = u64::from_le_bytes(*text[count..].first_chunk()?) ^ 0x3030_3030_3030_3030;
        // The highest bit of each byte that is above 9. A carry spoils only what stands behind such a byte.
        let others = (eight.wrapping_add(0x7676_7676_7676_7676) | eight) & 0x8080_8080_8080_8080;
        if others != 0 {
            let many = others.trailing_zeros() / 8;
            // Zeros before the digits, in the place of what stands behind them.
            let few = eight << 8 << (56 - 8 * many);
            let many = many as usize;
            return Some((digits.wrapping_mul(POWERS[many]).wrapping_add(of_eight_digits(few)), count + many));
        }
        digits = digits.wrapping_mul(POWERS[8]).wrapping_add(of_eight_digits(eight));
        count += 8;
    }
}

/// The number of eight digits, the first in the lowest byte: they become pairs, fours and the eight.
fn of_eight_digits(digits: u64) -> u64 {
    let pairs = digits.wrapping_mul(1 + (10 << 8)) >> 8 & 0x00FF_00FF_00FF_00FF;
    let fours = pairs.wrapping_mul(1 + (100 << 16)) >> 16 & 0x0000_FFFF_0000_FFFF;
    fours.wrapping_mul(1 + (10_000 << 32)) >> 32
}

/// The powers of ten that a word holds.
const POWERS: [u64; 20] = {
    let mut powers = [1; 20];
    let mut k = 1;
    while k < 20 {
        powers[k] = powers[k - 1] * 10;
        k += 1;
    }
    powers
};

/// For each power of ten of b bits, 2^(b + 62) over it, rounded down: at most 2^63.
const INVERSES: [u64; 20] = {
    let mut inverses = [0; 20];
    let mut k = 0;
    while k < 20 {
        inverses[k] = ((1 << (126 - POWERS[k].leading_zeros())) / POWERS[k] as u128) as u64;
        k += 1;
    }
    inverses
};

/// The double nearest to digits / 10^places. None where it is not certain which is that.
fn quotient(digits: u64, places: usize) -> Option<f64> {
    if digits == 0 || places == 0 {
        return Some(digits as f64);
    }
    let shift = digits.leading_zeros();
    let product = u128::from(digits << shift) * u128::from(INVERSES[places]);
    // The inverse lacks less than 1, so that the product lacks less than 2^64, and these two have the quotient between them, but for a
    // power of two. Rounding keeps the order: where both become one double, so does the quotient.
    let below = (product >> 64) as u64;
    let (least, most) = (below as f64, (below + 2) as f64);
    let power_of_two = f64::from_bits(u64::from(961 + POWERS[places].leading_zeros() - shift) << 52);
    (least == most).then_some(least * power_of_two)
}

/// The shortest decimal that reads back as this double.
pub fn exact(x: f64) -> String {
    let text = format!("{x:?}");
    match text.strip_suffix(".0") {
        Some(whole) => whole.to_owned(),
        None => text,
    }
}

/// A decimal of at most four digits that is not below x, so that no change looks smaller than it is; x is not negative.
pub fn from_above(x: f64) -> String {
    let whole = exact(x);
    if whole.len() <= 6 {
        return whole;
    }
    let rounded = format!("{x:.3e}");
    let Some((digits, exponent)) = rounded.split_once('e') else { return whole };
    let (Ok(digits), Ok(exponent)) = (digits.replace('.', "").parse::<u64>(), exponent.parse::<i32>()) else { return whole };
    let value = |digits: u64| format!("{digits}e{}", exponent - 3).parse().unwrap_or(x);
    let digits = if value(digits) < x { digits + 1 } else { digits };
    exact(value(digits))
}

#[cfg(test)]
mod tests {
    use super::*;

    #[test]
    fn shortest() {
        for (x, text) in [(0.1, "0.1"), (1.0, "1"), (-0.0, "-0"), (1e300, "1e300"), (0.1 + 0.2, "0.30000000000000004"), (-2.5, "-2.5")] {
            assert_eq!(exact(x), text);
            assert_eq!(text.parse::<f64>().unwrap().to_bits(), x.to_bits());
        }
    }

    #[test]
    fn never_below() {
        for (x, text) in
            [(0.0, "0"), (0.5, "0.5"), (0.04830000000001, "0.04831"), (0.3333333333333333, "0.3334"), (0.99999, "1"), (0.05, "0.05")]
        {
            assert_eq!(from_above(x), text);
            assert!(text.parse::<f64>().unwrap() >= x);
        }
    }

    #[test]
    fn numbers() {
        assert_eq!(read("-1"), Some(-1.0));
        assert_eq!(read("1e-3"), Some(0.001));
        assert!(read("NaN").is_some_and(f64::is_nan));
        for text in ["", " ", "0,5", "O.5", "1.0x", "--1", "0x10", "1_0", "½"] {
            assert_eq!(read(text), None, "{text}");
        }
    }

    /// Whether a text that another field follows is read at once; if so, it says what Rust reads.
    fn at_once(text: &str) -> bool {
        match leading(format!("{text},-0.12345678").as_bytes()) {
            Some((number, length)) if length == text.len() => {
                assert_eq!(text.parse().map(f64::to_bits), Ok(number.to_bits()), "{text}");
                true
            }
            // What stands behind the digits is then no end of a field.
            Some((_, length)) => {
                assert!(length < text.len(), "{text}");
                false
            }
            None => false,
        }
    }

    #[test]
    fn plain_decimals() {
        let plain = "1|-1|0|-0|-0.0|0.5|.5|-.5|5.|0.1|1234567.125|12345678.12345678|0.000000000000000001|00000000000000.5|\
                     9007199254740993|9999999999999999999|0.1234567890123456|-0.30000000000000004";
        for text in plain.split('|') {
            assert!(at_once(text), "{text}");
        }
        let others = "|-|.|-.|+1|--1|- 1| 1|1 |1e5|1E-5|1e22|1e23|0.1e1|inf|-inf|nan|NaN|1.2.3|1_0|0x10|½|0.½|0.5:|0.5/|\
                      18446744073709551616|0.1000000000000000055511151231257827|9007199254740993.0";
        for text in others.split('|') {
            assert!(!at_once(text), "{text}");
        }
    }

    #[test]
    fn random_decimals() {
        let mut state = 5u64;
        let mut chance = move |below: u64| {
            state ^= state << 13;
            state ^= state >> 7;
            state ^= state << 17;
            state % below
        };
        let mut read = [0; 3];
        for _ in 0..100_000 {
            let count = 1 + chance(19) as usize;
            let digits = format!("{:0count$}", chance(POWERS[count]));
            let (whole, places) = digits.split_at(chance(count as u64 + 1) as usize);
            read[0] += usize::from(at_once(&format!("{}{whole}.{places}", if chance(2) == 0 { "-" } else { "" })));
            // As short as it can be.
            read[1] += usize::from(at_once(&format!("{}", chance(1 << 53) as f64 / (1u64 << 53) as f64)));
            // Beside the middle between two doubles.
            let middle = (u128::from((1 << 53) + 2 * chance(1 << 52) + 1) * u128::from(POWERS[18])) >> 54;
            read[2] += usize::from(at_once(&format!("0.{:018}", middle + u128::from(chance(2)))));
        }
        assert!(read[0] > 98_000 && read[1] > 98_000 && read[2] > 10_000, "{read:?}");
    }
}
