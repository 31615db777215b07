// needs: knob_read_sheet knob_salvage
//! Damaged sheets: what the archive's call saves of them, byte for byte, against a plain writing of the same; sheets that lost or gained
//! bytes, fields and lines, good ones, and texts that never were sheets. What is saved must be a sheet that the archive's reader takes. The
//! buffer lies between guards; one that is too short must stay as it was, and so must all that lies beyond what is written.

#[path = "shared/chance.rs"]
mod chance;
#[path = "shared/guarded.rs"]
mod guarded;
#[path = "shared/tally.rs"]
mod tally;

use chance::{count, Chance};
use guarded::Guarded;
use tally::{end, Tally};

extern "C" {
    fn knob_salvage(text: *const u8, text_length: usize, answer: *mut u8, answer_length: usize) -> usize;

    fn knob_read_sheet(
        text: *const u8,
        text_length: usize,
        matrix: *mut u64,
        matrix_length: usize,
        weights: *mut u64,
        weights_length: usize,
        first: *mut u64,
        first_length: usize,
    ) -> u64;
}

/// A count of a sheet: decimal, no leading zero but `0` itself, at most 4294967295.
fn a_count(field: &str) -> Option<u64> {
    let value: u64 = field.parse().ok()?;
    (value <= 4294967295 && value.to_string() == field).then_some(value)
}

/// Sixteen upper-case hex digits.
fn are_bits(field: &str) -> bool {
    field.len() == 16 && field.bytes().all(|byte| b"0123456789ABCDEF".contains(&byte))
}

/// The counts of columns and rows of a good first line.
fn sizes(line: &[u8]) -> Option<(u64, usize)> {
    let fields: Vec<&str> = std::str::from_utf8(line).ok()?.split('\t').collect();
    let rule = match &fields[..] {
        ["thin", _, _, _, "target", target, rest @ ..] => a_count(target).is_some() && (rest.is_empty() || rest == ["2"]),
        ["thin", _, _, _, "within", allowance, cap, rest @ ..] => {
            are_bits(allowance) && (*cap == "-" || a_count(cap).is_some()) && (rest.is_empty() || rest == ["2"])
        }
        _ => false,
    };
    let (m, n) = (a_count(fields.get(1)?)?, a_count(fields.get(2)?)?);
    (rule && are_bits(fields[3]) && m <= 32 && n <= 64).then_some((m, n as usize))
}

fn is_column(line: &[u8], n: usize) -> bool {
    let fields: Vec<&str> = std::str::from_utf8(line).unwrap_or("").split('\t').collect();
    fields.len() == n + 2 && fields[0] == "col" && fields[1..].iter().all(|field| are_bits(field))
}

/// The good sheet, or what is written in its place, and the `lost` lines behind it.
fn plain(text: &[u8]) -> (Vec<u8>, Vec<u8>) {
    let mut lines: Vec<&[u8]> = text.split(|byte| *byte == b'\n').collect();
    // What follows the last newline is a line only if there is any of it, and then a wrong one.
    let piece = lines.pop().unwrap_or(b"");
    let Some((m, n)) = lines.first().and_then(|line| sizes(line)) else { return (b"bad\t1\n".to_vec(), Vec::new()) };
    let (mut kept, mut columns, mut lost) = (0, Vec::new(), String::new());
    for (j, line) in lines.iter().enumerate().skip(1) {
        if j as u64 <= m && is_column(line, n) {
            kept += 1;
            columns.extend([line, &b"\n"[..]].concat());
        } else {
            lost += &format!("lost\t{}\n", j + 1);
        }
    }
    if !piece.is_empty() {
        lost += &format!("lost\t{}\n", lines.len() + 1);
    }
    if m > 0 && kept == 0 {
        return (b"bad\t2\n".to_vec(), Vec::new());
    }
    let rest = lines[0].splitn(3, |byte| *byte == b'\t').last().expect("a field behind the count");
    let mut sheet = format!("thin\t{kept}\t").into_bytes();
    sheet.extend([rest, &b"\n"[..], &columns].concat());
    (sheet, lost.into_bytes())
}

/// A sheet of the form.
fn a_sheet(chance: &mut Chance) -> Vec<u8> {
    let m = if chance.once_in(12) { chance.pick(&[0, 1, 31, 32]) } else { chance.below(6) };
    let n = if chance.once_in(12) { chance.pick(&[0, 1, 63, 64]) } else { chance.below(6) };
    let rule = match chance.below(3) {
        0 => format!("target\t{}", chance.word() >> (32 + chance.below(32))),
        1 => format!("within\t{:016X}\t-", chance.word()),
        _ => format!("within\t{:016X}\t{}", chance.word(), chance.pick(&[0, 1, 4294967295u64])),
    };
    let edition = chance.pick(&["", "\t2"]);
    let mut text = format!("thin\t{m}\t{n}\t{:016X}\t{rule}{edition}\n", chance.word());
    for _ in 0..m {
        text += "col";
        for _ in 0..n + 1 {
            text += &format!("\t{:016X}", chance.word());
        }
        text += "\n";
    }
    text.into_bytes()
}

/// One damage, such as a bad cable does, or a worse one.
fn damage(text: &mut Vec<u8>, chance: &mut Chance) {
    let at = chance.below(text.len() + 1);
    let most = if chance.once_in(4) { 60 } else { 3 };
    let end = (at + 1 + chance.below(most)).min(text.len());
    match chance.below(9) {
        0..=3 => drop(text.drain(at.min(end)..end)),
        4 if at < text.len() => text[at] = chance.word() as u8,
        5 if at < text.len() => text[at] = chance.pick(b"\t\n0129AFacol-"),
        6 => text.insert(at, chance.pick(b"\t\n0129AF")),
        7 => {
            let line = if chance.once_in(2) { &b"col\t0000000000000000\n"[..] } else { b"\n" };
            text.extend(std::iter::repeat_n(line, chance.below(40)).flatten());
        }
        // A line that is longer than any good one.
        8 if chance.once_in(8) => drop(text.splice(at..at, std::iter::repeat_n(chance.pick(b"0\tA"), chance.between(1000, 1200)))),
        _ => text.truncate(at),
    }
}

/// Saves in a buffer of this length: the length said, and the buffer.
fn salvage(text: &[u8], room: usize, chance: &mut Chance) -> (usize, Guarded<u8>) {
    let mut answer = Guarded::new(room, || chance.word() as u8);
    let (start, length) = answer.lent();
    // Sound: each pointer goes with the length of its list, and the two do not overlap.
    (unsafe { knob_salvage(text.as_ptr(), text.len(), start, length) }, answer)
}

/// The first wrong line of a text, or 0, by the archive's reader.
fn wrong_line(text: &[u8]) -> u64 {
    let (mut matrix, mut weights, mut first) = ([0; 2048], [0; 32], [0; 7]);
    // Sound for the same reason.
    unsafe {
        let lists = (matrix.as_mut_ptr(), weights.as_mut_ptr(), first.as_mut_ptr());
        knob_read_sheet(text.as_ptr(), text.len(), lists.0, 2048, lists.1, 32, lists.2, 7)
    }
}

fn main() {
    let mut chance = Chance::new("salvage", 12);
    let mut saved = Tally::new("damaged sheets");
    let mut taken = Tally::new("saved sheets that are taken");
    let mut none = Tally::new("sheets of which nothing is saved");
    let mut same = Tally::new("good sheets");
    let mut short = Tally::new("buffers too short");
    for _ in 0..count(100_000) {
        let good = a_sheet(&mut chance);
        let mut text = good.clone();
        for _ in 0..chance.pick(&[0, 1, 1, 1, 2, 3, 8]) {
            damage(&mut text, &mut chance);
        }
        let (sheet, lost) = plain(&text);
        let expected = [&sheet[..], &lost].concat();
        let shown = || format!("{:?}", String::from_utf8_lossy(&text));
        let room = expected.len() + chance.pick(&[0, 1, 500]);
        let (said, answer) = salvage(&text, room, &mut chance);
        saved.note(said == expected.len() && answer.holds(&expected), shown);
        if sheet.starts_with(b"thin") {
            taken.note(wrong_line(&sheet) == 0, shown);
        } else {
            none.note((wrong_line(&text) == 1) == (sheet == b"bad\t1\n"), shown);
        }
        let room = expected.len() - 1 - chance.below(expected.len());
        let (said, answer) = salvage(&text, room, &mut chance);
        short.note(said == 0 && answer.holds(&[]), shown);
        let (said, answer) = salvage(&good, good.len(), &mut chance);
        same.note(said == good.len() && answer.holds(&good), || format!("{:?}", String::from_utf8_lossy(&good)));
    }
    end(&[&saved, &taken, &none, &same, &short])
}
