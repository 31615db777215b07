// needs: knob_gaussian knob_gaussian_2 knob_sparsify knob_sparsify_within knob_thin_sheet knob_moved_sheet
//! Sheets: the answers of the archive's call on sheets, byte for byte, against answers written by hand, against a second reader and
//! writer of the form with the original's answer, and against the archive's own thinning calls; good sheets, refused ones, and sheets
//! with each kind of fault in some line. Buffers that are too short must stay as they were, and so must all that lies beyond an answer.

#[path = "shared/chance.rs"]
mod chance;
#[path = "shared/domain.rs"]
mod domain;
#[path = "shared/draws.rs"]
mod draws;
#[path = "shared/jobs.rs"]
mod jobs;
#[path = "shared/lent.rs"]
mod lent;
#[path = "shared/matrices.rs"]
mod matrices;
#[path = "shared/original.rs"]
mod original;
#[path = "shared/tally.rs"]
mod tally;
#[path = "shared/thinning_calls.rs"]
mod thinning_calls;
#[path = "shared/watch.rs"]
mod watch;

use chance::{count, Chance};
use domain::{Domain, Expected};
use jobs::{by_stages, refusal, Ensemble, Rule};
use lent::{scratch_sizes, Lent};
use tally::{end, Tally};
use thinning_calls::{knob_sparsify, knob_sparsify_within, Answer};

extern "C" {
    fn knob_thin_sheet(text: *const u8, text_len: usize, answer: *mut u8, answer_len: usize) -> usize;
    fn knob_moved_sheet(text: *const u8, text_len: usize, answer: *mut u8, answer_len: usize) -> usize;
}

/// The bytes that every answer fits in, and every one with its words.
const ENOUGH: usize = 1342;
const ENOUGH_WITH_WORDS: usize = 4094;

/// A count: decimal, no leading zero but `0` itself, at most 4294967295.
fn a_count(field: &[u8]) -> Option<usize> {
    let digits = !field.is_empty() && field.len() <= 10 && field.iter().all(u8::is_ascii_digit);
    if !digits || (field[0] == b'0' && field.len() > 1) {
        return None;
    }
    let value = field.iter().fold(0, |value, digit| value * 10 + usize::from(digit - b'0'));
    (value <= 4294967295).then_some(value)
}

/// Sixteen upper-case hex digits.
fn bits(field: &[u8]) -> Option<u64> {
    if field.len() != 16 {
        return None;
    }
    field.iter().try_fold(0, |value, digit| match digit {
        b'0'..=b'9' => Some(value * 16 + u64::from(digit - b'0')),
        b'A'..=b'F' => Some(value * 16 + u64::from(digit - b'A') + 10),
        _ => None,
    })
}

fn first_line(line: &[u8]) -> Option<(usize, usize, u64, Rule, u32)> {
    let fields: Vec<&[u8]> = line.split(|byte| *byte == b'\t').collect();
    if fields.len() < 5 || fields[0] != b"thin" {
        return None;
    }
    let (m, n, seed) = (a_count(fields[1])?, a_count(fields[2])?, bits(fields[3])?);
    let (rule, last) = match (fields[4], &fields[5..]) {
        (b"target", [target, last @ ..]) => (Rule::Target(a_count(target)?), last),
        (b"within", [allowance, b"-", last @ ..]) => (Rule::Within(f64::from_bits(bits(allowance)?), None), last),
        (b"within", [allowance, cap, last @ ..]) => (Rule::Within(f64::from_bits(bits(allowance)?), Some(a_count(cap)?)), last),
        _ => return None,
    };
    let edition = match last {
        [] => 1,
        [b"2"] => 2,
        _ => return None,
    };
    (m <= 32 && n <= 64).then_some((m, n, seed, rule, edition))
}

/// The doubles of a line of a column: its weight and its entries.
fn column(line: &[u8], n: usize) -> Option<Vec<f64>> {
    let fields: Vec<&[u8]> = line.split(|byte| *byte == b'\t').collect();
    if fields.len() != n + 2 || fields[0] != b"col" {
        return None;
    }
    fields[1..].iter().map(|field| bits(field).map(f64::from_bits)).collect()
}

/// The job of a sheet, or the number of its first wrong line.
fn read(sheet: &[u8]) -> Result<(Ensemble, Rule), usize> {
    // What follows the last newline is a line without an end, and wrong if there is any of it.
    let mut lines: Vec<&[u8]> = sheet.split(|byte| *byte == b'\n').collect();
    let rest = lines.pop().unwrap_or(b"");
    let (m, n, seed, rule, edition) = lines.first().and_then(|line| first_line(line)).ok_or(1usize)?;
    let mut e = Ensemble { matrix: Vec::new(), m, n, weights: Vec::new(), seed, edition };
    for number in 2..m + 2 {
        let numbers = lines.get(number - 1).and_then(|line| column(line, n)).ok_or(number)?;
        e.weights.push(numbers[0]);
        e.matrix.extend(&numbers[1..]);
    }
    if lines.len() > m + 1 || !rest.is_empty() {
        return Err(m + 2);
    }
    Ok((e, rule))
}

/// The text of an accepted job's answer.
fn accepted(stage: u64, nonzeros: u64, change: f64, weights: &[f64]) -> String {
    let mut text = format!("ok\t{stage}\t{nonzeros}\t{:016X}\n", change.to_bits());
    for (j, w) in weights.iter().enumerate() {
        text += &format!("w\t{j}\t{:016X}\n", w.to_bits());
    }
    text
}

/// The lines of the words that moved from the normalized weights to those of an answer's text.
fn words(e: &Ensemble, answer: &str) -> String {
    let after: Vec<f64> = answer.lines().skip(1).filter_map(|line| bits(line.rsplit('\t').next()?.as_bytes())).map(f64::from_bits).collect();
    let total = e.weights.iter().fold(0.0, |sum, w| sum + w.abs());
    let change = |i: usize| (0..e.m).fold(0.0, |sum, j| sum + e.matrix[j * e.n + i] * (e.weights[j] / total - after[j]));
    let mut rows: Vec<(usize, f64)> = (0..e.n).map(|i| (i, change(i))).collect();
    rows.sort_by(|x, y| y.1.abs().total_cmp(&x.1.abs()));
    rows.iter().map(|(i, change)| format!("word\t{i}\t{:016X}\n", change.to_bits())).collect()
}

/// The answer to a job by the original.
fn by_original(e: &Ensemble, rule: Rule, domain: &mut Domain) -> String {
    let number = refusal(e, rule, e.m, usize::MAX, usize::MAX);
    if number != 0 {
        return format!("refused\t{number}\n");
    }
    let columns = matrices::columns(&e.matrix, e.m, e.n);
    let (Expected::Original(said) | Expected::Document(said)) = domain.expect(|| by_stages(&columns, e, rule));
    accepted(said.stage, said.nonzeros, said.change, &said.weights)
}

/// The answer to a job by the archive's thinning calls.
fn by_calls(e: &Ensemble, rule: Rule) -> String {
    let (numbers, indices) = scratch_sizes(e.m, e.n);
    let (mut numbers, mut indices) = (vec![7.0; numbers as usize], vec![7; indices as usize]);
    let mut output = vec![7.0; e.m];
    let mut a = Answer::noise();
    unsafe {
        match rule {
            Rule::Target(target) => knob_sparsify(
                &mut a,
                e.matrix.as_ptr(),
                e.matrix.len(),
                e.m,
                e.n,
                e.weights.as_ptr(),
                e.weights.len(),
                e.seed,
                e.edition,
                target,
                output.as_mut_ptr(),
                output.len(),
                numbers.as_mut_ptr(),
                numbers.len(),
                indices.as_mut_ptr(),
                indices.len(),
            ),
            Rule::Within(allowance, cap) => knob_sparsify_within(
                &mut a,
                e.matrix.as_ptr(),
                e.matrix.len(),
                e.m,
                e.n,
                e.weights.as_ptr(),
                e.weights.len(),
                e.seed,
                e.edition,
                allowance,
                u32::from(cap.is_some()),
                cap.unwrap_or(0),
                output.as_mut_ptr(),
                output.len(),
                numbers.as_mut_ptr(),
                numbers.len(),
                indices.as_mut_ptr(),
                indices.len(),
            ),
        }
    };
    match a.number {
        0 => accepted(a.stage, a.nonzeros, a.change, &output),
        number => format!("refused\t{number}\n"),
    }
}

/// What stands in memory before and behind a sheet: bytes that would open it, end it or go on with it, if they were read.
const BEFORE: &[u8] = b"thin\t";
const BEHIND: &[u8] = b"\n0000000000000000\tcol\t3FF0000000000000\t3FF0000000000000\n";

/// A sheet as it is lent: between bytes that are none of its own.
struct Sheet {
    all: Vec<u8>,
    len: usize,
}

impl Sheet {
    fn new(text: &[u8]) -> Sheet {
        Sheet { all: [BEFORE, text, BEHIND].concat(), len: text.len() }
    }

    fn text(&self) -> &[u8] {
        &self.all[BEFORE.len()..][..self.len]
    }
}

/// Lends a sheet and a buffer of so many bytes of noise: what was said, and the buffer.
fn call(sheet: &Sheet, room: usize, chance: &mut Chance) -> (usize, Lent<u8>) {
    let mut answer = Lent::new(room, || chance.word() as u8);
    let said = unsafe { knob_thin_sheet(sheet.text().as_ptr(), sheet.len, answer.lend(), room) };
    (said, answer)
}

/// The same of the call that answers with the words.
fn call_moved(sheet: &Sheet, room: usize, chance: &mut Chance) -> (usize, Lent<u8>) {
    let mut answer = Lent::new(room, || chance.word() as u8);
    let said = unsafe { knob_moved_sheet(sheet.text().as_ptr(), sheet.len, answer.lend(), room) };
    (said, answer)
}

struct Comparison {
    domain: Domain,
    moved: Tally,
    by_hand: Tally,
    good: Tally,
    refused: Tally,
    bad: Tally,
    calls: Tally,
    short: Tally,
    beyond: Tally,
    sheets: Tally,
    faults: Tally,
}

impl Comparison {
    /// Compares the answer to a sheet with all that is known of it. True where the sheet is off the form.
    fn test(&mut self, text: &[u8], chance: &mut Chance) -> bool {
        let shown = || format!("{:?}", String::from_utf8_lossy(&text[..text.len().min(300)]));
        let read = read(text);
        let expected = match &read {
            Ok((e, rule)) => by_original(e, *rule, &mut self.domain),
            Err(line) => format!("bad\t{line}\n"),
        };
        let tally = match expected.as_bytes()[0] {
            b'o' => &mut self.good,
            b'r' => &mut self.refused,
            _ => &mut self.bad,
        };
        let long = expected.len();
        let sheet = Sheet::new(text);
        let room = match chance.below(4) {
            0 => long,
            1 => ENOUGH + chance.below(2000),
            2 => chance.between(long, ENOUGH),
            _ => ENOUGH,
        };
        let (said, answer) = call(&sheet, room, chance);
        let right = said == long && &answer.content()[..long] == expected.as_bytes();
        tally.note(right, || {
            let written = String::from_utf8_lossy(&answer.content()[..said.min(room)]).into_owned();
            format!("wrote {written:?}, expected {expected:?}, for {}", shown())
        });
        self.beyond.note(answer.kept_from(long), || format!("room {room}, for {}", shown()));

        // A buffer that the answer does not fit in.
        let room = match chance.below(3) {
            0 => 0,
            1 => long - 1,
            _ => chance.below(long),
        };
        let (said, answer) = call(&sheet, room, chance);
        self.short.note(said == 0 && answer.untouched(), || format!("said {said} with room {room}, for {}", shown()));
        self.sheets.note(sheet.all == Sheet::new(text).all, &shown);

        if let Ok((e, rule)) = &read {
            let called = by_calls(e, *rule);
            self.calls.note(called == expected, || format!("the calls say {called:?}, the sheet {expected:?}, for {}", shown()));
        }

        // One in eight with its words, in a buffer that is long enough and in one that is a byte too short.
        if chance.below(8) == 0 {
            let mut expected = expected;
            if let (Ok((e, _)), true) = (&read, expected.starts_with("ok")) {
                expected += &words(e, &expected);
            }
            let long = expected.len();
            let room = chance.between(long, ENOUGH_WITH_WORDS);
            let (said, answer) = call_moved(&sheet, room, chance);
            let right = said == long && &answer.content()[..long] == expected.as_bytes() && answer.kept_from(long);
            let (said, answer) = call_moved(&sheet, long - 1, chance);
            self.moved.note(right && said == 0 && answer.untouched(), || format!("expected {expected:?}, for {}", shown()));
        }
        read.is_err()
    }
}

/// Sheets with the answers that document 01 gives them, written by hand: they hold the reader of this file too.
const BY_HAND: &[(&str, &str)] = &[
    ("", "bad\t1\n"),
    ("\n", "bad\t1\n"),
    ("thin\n", "bad\t1\n"),
    ("thin\t0\t0\t0000000000000000\ttarget\t1", "bad\t1\n"),
    ("thin\t0\t0\t0000000000000000\ttarget\t1\n", "refused\t5\n"),
    ("thin\t0\t0\t0000000000000000\ttarget\t0\n", "refused\t2\n"),
    ("thin\t0\t0\t0000000000000000\ttarget\t00\n", "bad\t1\n"),
    ("thin\t0\t0\t0000000000000000\ttarget\t4294967295\n", "refused\t5\n"),
    ("thin\t0\t0\t0000000000000000\ttarget\t4294967296\n", "bad\t1\n"),
    ("thin\t0\t0\t0000000000000000\ttarget\t1\n\n", "bad\t2\n"),
    ("thin\t0\t0\t0000000000000000\ttarget\t1\t2\n", "refused\t5\n"),
    ("thin\t0\t0\t0000000000000000\ttarget\t1\t1\n", "bad\t1\n"),
    ("thin\t0\t0\t0000000000000000\ttarget\t1\t3\n", "bad\t1\n"),
    ("thin\t0\t0\t0000000000000000\ttarget\t1\t02\n", "bad\t1\n"),
    ("thin\t0\t0\t0000000000000000\ttarget\t1\t\n", "bad\t1\n"),
    ("thin\t0\t0\t0000000000000000\ttarget\t1\t2", "bad\t1\n"),
    ("thin\t0\t0\t0000000000000000\ttarget\t1\t2\t2\n", "bad\t1\n"),
    ("thin\t0\t0\t0000000000000000\ttarget\t2\n", "refused\t5\n"),
    ("thin\t0\t0\t0000000000000000\twithin\t0000000000000000\t2\n", "refused\t5\n"),
    ("thin\t0\t0\t0000000000000000\twithin\t0000000000000000\t2\t2\n", "refused\t5\n"),
    ("thin\t0\t0\t0000000000000000\twithin\t0000000000000000\t-\t1\n", "bad\t1\n"),
    ("thin\t0\t0\t0000000000000000\ttarget\t1\nx", "bad\t2\n"),
    ("thin\t0\t64\t0000000000000000\ttarget\t1\n", "refused\t5\n"),
    ("thin\t0\t65\t0000000000000000\ttarget\t1\n", "bad\t1\n"),
    ("thin\t33\t0\t0000000000000000\ttarget\t1\n", "bad\t1\n"),
    ("thin\t32\t0\t0000000000000000\ttarget\t1\n", "bad\t2\n"),
    ("thin\t1\t0\t0000000000000000\ttarget\t1\ncol\t3FF0000000000000\n", "refused\t5\n"),
    ("thin\t1\t0\t0000000000000000\twithin\t7FF8000000000000\t0\ncol\t3FF0000000000000\n", "refused\t1\n"),
    ("thin\t1\t0\t0000000000000000\twithin\t8000000000000000\t0\ncol\t3FF0000000000000\n", "refused\t2\n"),
    ("thin\t1\t1\t0000000000000000\ttarget\t1\ncol\t3FF0000000000000\t3FF0000000000001\n", "refused\t7\n"),
    ("thin\t1\t1\t0000000000000000\ttarget\t1\ncol\tFFF0000000000001\t3FF0000000000000\n", "refused\t8\n"),
    ("thin\t1\t1\t0000000000000000\ttarget\t1\ncol\t8000000000000000\t3FF0000000000000\n", "refused\t9\n"),
    (
        "thin\t1\t1\t0000000000000000\ttarget\t1\ncol\tC008000000000000\t8000000000000000\n",
        "ok\t0\t1\t0000000000000000\nw\t0\tBFF0000000000000\n",
    ),
    (
        "thin\t2\t2\t0000000000000000\twithin\t3FE0000000000000\t-\ncol\t3FF0000000000000\t3FF0000000000000\t3FF0000000000000\n\
         col\t4008000000000000\t3FF0000000000000\tBFF0000000000000\n",
        "ok\t1\t1\t3FE0000000000000\nw\t0\t0000000000000000\nw\t1\t3FF0000000000000\n",
    ),
    (
        "thin\t2\t2\t0000000000000000\twithin\t3FE0000000000000\t-\t2\ncol\t3FF0000000000000\t3FF0000000000000\t3FF0000000000000\n\
         col\t4008000000000000\t3FF0000000000000\tBFF0000000000000\n",
        "ok\t1\t1\t3FE0000000000000\nw\t0\t0000000000000000\nw\t1\t3FF0000000000000\n",
    ),
    (
        "thin\t2\t2\t0000000000000000\twithin\t3FE0000000000000\t-\ncol\t3FF0000000000000\t3FF0000000000000\t3FF0000000000000\n\
         col\t4008000000000000\t3FF0000000000000\tBFf0000000000000\n",
        "bad\t3\n",
    ),
    (
        "thin\t2\t2\t0000000000000000\twithin\t3FDFFFFFFFFFFFFF\t-\ncol\t3FF0000000000000\t3FF0000000000000\t3FF0000000000000\n\
         col\t4008000000000000\t3FF0000000000000\tBFF0000000000000\n",
        "ok\t0\t2\t0000000000000000\nw\t0\t3FD0000000000000\nw\t1\t3FE8000000000000\n",
    ),
];

/// A double that is none, or none that a job may have: any bit pattern of a NaN, an infinity, or just too much.
fn odd(chance: &mut Chance) -> f64 {
    let nan = 0x7FF0_0000_0000_0000 | chance.word() >> 12 | 1;
    f64::from_bits(chance.pick(&[
        nan,
        nan | 1 << 63,
        0x7FF0_0000_0000_0000,
        0xFFF0_0000_0000_0000,
        0x3FF0_0000_0000_0001,
        0x7FEF_FFFF_FFFF_FFFF,
    ]))
}

/// The text of a random job.
fn a_sheet(chance: &mut Chance) -> Vec<u8> {
    let (m, n) = match chance.below(6) {
        0 => (chance.between(0, 32), chance.between(0, 64)),
        1 => (chance.pick(&[0, 1, 2, 31, 32]), chance.pick(&[0, 1, 2, 63, 64])),
        _ => (chance.between(1, 12), chance.between(1, 12)),
    };
    let matrix = matrices::matrix(chance.below(matrices::MARGIN_KINDS), m, n, chance);
    let rule = match chance.below(4) {
        0 => format!("target\t{}", chance.between(0, m + 1)),
        1 => format!("target\t{}", chance.pick(&["1", "2", "0", "4294967295"])),
        2 => format!("within\t{:016X}\t-", (chance.unit() * 0.7).to_bits()),
        _ => {
            let allowance = if chance.once_in(4) { odd(chance) } else { chance.pick(&[0.0, -0.0, 0.25, f64::INFINITY, -1.0, 2.0]) };
            format!("within\t{:016X}\t{}", allowance.to_bits(), chance.pick(&["-", "0", "1", "3", "7", "4294967295"]))
        }
    };
    let edition = chance.pick(&["", "\t2"]);
    let mut text = format!("thin\t{m}\t{n}\t{:016X}\t{rule}{edition}\n", chance.seed());
    for j in 0..m {
        let weight = match chance.below(12) {
            0 => chance.pick(&[0.0, -0.0, 5e-324, 1e300]),
            1 if chance.once_in(20) => odd(chance),
            _ => chance.signed(),
        };
        text += &format!("col\t{:016X}", weight.to_bits());
        for i in 0..n {
            let entry = match chance.below(3000) {
                0 => odd(chance),
                1..=30 => -0.0,
                _ => matrix[j * n + i],
            };
            text += &format!("\t{:016X}", entry.to_bits());
        }
        text += "\n";
    }
    text.into_bytes()
}

/// Changes a random line that has a newline, the newline left out; the first line more often than another.
fn in_a_line(sheet: &mut Vec<u8>, chance: &mut Chance, change: impl FnOnce(&mut Vec<u8>, &mut Chance)) {
    let mut lines: Vec<Vec<u8>> = sheet.split(|byte| *byte == b'\n').map(<[u8]>::to_vec).collect();
    let at = if chance.once_in(3) { 0 } else { chance.below((lines.len() - 1).max(1)) };
    change(&mut lines[at], chance);
    *sheet = lines.join(&b'\n');
}

/// Changes a random field of a random line, or the one of this number of the first.
fn in_a_field(sheet: &mut Vec<u8>, which: Option<usize>, chance: &mut Chance, change: impl FnOnce(&mut Vec<u8>, &mut Chance)) {
    let fields_of = |line: &mut Vec<u8>, chance: &mut Chance| {
        let mut fields: Vec<Vec<u8>> = line.split(|byte| *byte == b'\t').map(<[u8]>::to_vec).collect();
        let at = which.unwrap_or(chance.below(fields.len())).min(fields.len() - 1);
        change(&mut fields[at], chance);
        *line = fields.join(&b'\t');
    };
    if which.is_none() {
        return in_a_line(sheet, chance, fields_of);
    }
    let end = sheet.iter().position(|byte| *byte == b'\n').unwrap_or(sheet.len());
    let mut line = sheet[..end].to_vec();
    fields_of(&mut line, chance);
    sheet.splice(..end, line);
}

/// The kinds of fault that `spoil` makes.
const FAULTS: usize = 32;

/// A sheet with a fault, as a cable, an editor or a typist makes them. Not every one of them is off the form.
fn spoil(sheet: &mut Vec<u8>, kind: usize, chance: &mut Chance) {
    // The places of counts in the first line: columns, rows, target, cap.
    let counted = Some(chance.pick(&[1, 2, 5, 6]));
    let place = chance.below(sheet.len() + 1);
    match kind {
        0 => sheet.make_ascii_lowercase(),
        1 => in_a_field(sheet, None, chance, |field, _| field.make_ascii_lowercase()),
        2 => in_a_field(sheet, counted, chance, |field, _| field.insert(0, b'0')),
        3 => in_a_field(sheet, None, chance, |field, chance| field.insert(chance.below(field.len() + 1), b'\t')),
        4 => in_a_line(sheet, chance, |line, _| line.push(b'\r')),
        5 => *sheet = sheet.iter().flat_map(|byte| if *byte == b'\n' { vec![b'\r', b'\n'] } else { vec![*byte] }).collect(),
        6 => drop(sheet.pop()),
        7 => {
            // A newline is lost.
            let ends: Vec<usize> = (0..sheet.len()).filter(|at| sheet[*at] == b'\n').collect();
            if !ends.is_empty() {
                sheet.remove(chance.pick(&ends));
            }
        }
        8 => in_a_line(sheet, chance, |line, chance| {
            line.extend_from_slice(chance.pick(&[b"\t".as_slice(), b"\t1", b"\t2", b"\t-", b"\t3FF0000000000000"]))
        }),
        9 => in_a_line(sheet, chance, |line, _| line.truncate(line.iter().rposition(|byte| *byte == b'\t').unwrap_or(0))),
        10 => sheet.extend_from_slice(chance.pick(&[b"col\t0000000000000000\n".as_slice(), b"thin\n", b"x", b" ", b"\0", b"\t"])),
        11 => sheet.extend_from_slice(chance.pick(&[b"\n".as_slice(), b"\n\n", b"\r\n"])),
        12 => in_a_field(sheet, Some(1), chance, |field, chance| *field = chance.pick(&["33", "34", "100", "4294967295"]).into()),
        13 => in_a_field(sheet, Some(2), chance, |field, chance| *field = chance.pick(&["65", "66", "100", "4294967295"]).into()),
        14 => in_a_field(sheet, counted, chance, |field, chance| {
            *field = chance.pick(&["4294967296", "4294967297", "9999999999", "18446744073709551617", "99999999999999999999999"]).into()
        }),
        15 => in_a_field(sheet, counted, chance, |field, chance| {
            *field = chance.pick(&["", "-1", "+1", "1 ", " 1", "1.0", "3a", "0x1", "--"]).into()
        }),
        16 => in_a_field(sheet, counted, chance, |field, chance| *field = chance.pick(&["0", "1", "2", "31", "32", "63", "64"]).into()),
        17 => sheet.insert(place, 0),
        18 if place < sheet.len() => sheet[place] = 0,
        19 => sheet.truncate(place),
        20 => {
            let long = vec![chance.pick(b"0\tx\n\0F"); 100_000];
            sheet.splice(place..place, long);
        }
        21 => sheet.resize(100_000, chance.pick(b"0\tx\n\0")),
        22 => in_a_field(sheet, None, chance, |field, chance| {
            let at = chance.below(field.len() + 1);
            field.splice(at..at, vec![b'0'; chance.pick(&[1, 16, 1000])]);
        }),
        23 => in_a_field(sheet, None, chance, |field, _| field.truncate(field.len().saturating_sub(1))),
        24 => in_a_field(sheet, None, chance, |field, chance| {
            if !field.is_empty() {
                let at = chance.below(field.len());
                field[at] = chance.pick(b"Gg@/:` afx\x80\xFF");
            }
        }),
        25 => in_a_field(sheet, chance.pick(&[Some(0), Some(4)]), chance, |field, chance| {
            *field = chance.pick(&["thin", "Thin", "thin ", "thi", "col", "target", "within", "targets", "Target", "withi", ""]).into()
        }),
        26 => {
            // Two lines change places, or one is lost or stands twice.
            let mut lines: Vec<Vec<u8>> = sheet.split_inclusive(|byte| *byte == b'\n').map(<[u8]>::to_vec).collect();
            if !lines.is_empty() {
                let (i, j) = (chance.below(lines.len()), chance.below(lines.len()));
                match chance.below(3) {
                    0 => lines.swap(i, j),
                    1 => drop(lines.remove(i)),
                    _ => lines.insert(i, lines[j].clone()),
                }
            }
            *sheet = lines.concat();
        }
        27 => drop(sheet.splice(..0, chance.pick(&[b"\n".as_slice(), b"\xEF\xBB\xBF", b" ", b"\t", b"\0"]).iter().copied())),
        28 => *sheet = sheet.repeat(chance.between(2, 20)),
        29 if place < sheet.len() => sheet[place] = chance.word() as u8,
        30 | 31 => {
            // What parts two fields or lines is another byte, or lost; in the first line or in any.
            let end = if kind == 30 { sheet.iter().position(|byte| *byte == b'\n').map_or(0, |at| at + 1) } else { sheet.len() };
            let all: Vec<usize> = (0..end).filter(|at| b"\t\n".contains(&sheet[*at])).collect();
            if !all.is_empty() {
                let (at, byte) = (chance.pick(&all), chance.pick(b" \t\n\r\0,;0A-"));
                sheet.splice(at..at + 1, (!chance.once_in(4)).then_some(byte));
            }
        }
        _ => {}
    }
}

/// Every text that is this sheet with one byte changed to any other, taken out or put in, or its end cut off.
fn near(sheet: &[u8], mut test: impl FnMut(&[u8])) {
    for at in 0..=sheet.len() {
        test(&sheet[..at]);
        for byte in 0..=255 {
            if at < sheet.len() {
                test(&[&sheet[..at], &[byte], &sheet[at + 1..]].concat());
            }
            if b"\t\n\r\0 019AFaf-".contains(&byte) {
                test(&[&sheet[..at], &[byte], &sheet[at..]].concat());
            }
        }
        if at < sheet.len() {
            test(&[&sheet[..at], &sheet[at + 1..]].concat());
        }
    }
}

/// The sheets whose every neighbour is tried.
const CENTRES: [&str; 4] = [
    "thin\t2\t2\t0000000000000000\twithin\t3FE0000000000000\t-\ncol\t3FF0000000000000\t3FF0000000000000\t3FF0000000000000\n\
     col\t4008000000000000\t3FF0000000000000\tBFF0000000000000\n",
    "thin\t1\t1\t0123456789ABCDEF\twithin\t0000000000000000\t10\ncol\t3FF0000000000000\t3FEFEDCBA9876543\n",
    "thin\t1\t0\t0123456789ABCDEF\ttarget\t4294967295\ncol\t3FF0000000000000\n",
    "thin\t1\t1\t0123456789ABCDEF\ttarget\t7\t2\ncol\t3FF0000000000000\t3FEFEDCBA9876543\n",
];

fn main() {
    let mut chance = Chance::new("sheets", 6);
    let mut all = Comparison {
        domain: Domain::new(),
        moved: Tally::new("sheets, with the words that moved"),
        by_hand: Tally::new("sheets, answers by hand"),
        good: Tally::new("sheets, accepted"),
        refused: Tally::new("sheets, refused"),
        bad: Tally::new("sheets, bad"),
        calls: Tally::new("sheets and the thinning calls"),
        short: Tally::new("sheets, buffers too short"),
        beyond: Tally::new("sheets, bytes beyond the answer kept"),
        sheets: Tally::new("sheets, text kept"),
        faults: Tally::new("sheets, kinds of fault that were met"),
    };
    for (text, answer) in BY_HAND {
        let (said, written) = call(&Sheet::new(text.as_bytes()), ENOUGH, &mut chance);
        all.by_hand.note(&written.content()[..said.min(ENOUGH)] == answer.as_bytes(), || format!("{text:?}"));
        all.test(text.as_bytes(), &mut chance);
    }
    for sheet in CENTRES {
        near(sheet.as_bytes(), |text| {
            all.test(text, &mut chance);
        });
    }
    for _ in 0..count(8000) {
        let sheet = a_sheet(&mut chance);
        all.test(&sheet, &mut chance);
    }
    for kind in 0..FAULTS {
        let mut met = false;
        for _ in 0..count(250) {
            let mut sheet = a_sheet(&mut chance);
            spoil(&mut sheet, kind, &mut chance);
            met |= all.test(&sheet, &mut chance);
        }
        all.faults.note(met, || format!("kind {kind}"));
    }
    for _ in 0..count(6000) {
        let mut sheet = a_sheet(&mut chance);
        for _ in 0..chance.between(1, 3) {
            let kind = chance.below(FAULTS);
            spoil(&mut sheet, kind, &mut chance);
        }
        sheet.truncate(200_000);
        all.test(&sheet, &mut chance);
    }
    all.domain.tell();
    end(&[&all.by_hand, &all.good, &all.refused, &all.bad, &all.calls, &all.short, &all.beyond, &all.sheets, &all.faults, &all.moved])
}
