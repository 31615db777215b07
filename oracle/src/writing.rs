// needs: knob_thin_sheet knob_write_sheet knob_read_sheet
//! Sheets written and read back: the text of the archive's writer, byte for byte, against a plain one, every refusal of it, and what its
//! reader gives of good and of spoiled sheets, bit for bit. Every list lies between guards, and what a call does not write must stay.

#[path = "shared/chance.rs"]
mod chance;
#[path = "shared/guarded.rs"]
mod guarded;
#[path = "shared/tally.rs"]
mod tally;

use chance::{count, Chance};
use guarded::Guarded;
use tally::{end, Tally};

extern "C" {
    fn knob_thin_sheet(text: *const u8, text_length: usize, answer: *mut u8, answer_length: usize) -> usize;

    fn knob_write_sheet(
        matrix: *const u64,
        matrix_length: usize,
        m: usize,
        n: usize,
        weights: *const u64,
        weights_length: usize,
        seed: u64,
        edition: u32,
        rule: u32,
        allowance: u64,
        limit: u64,
        text: *mut u8,
        text_length: usize,
        length: *mut usize,
    ) -> u64;

    fn knob_read_sheet(
        text: *const u8,
        text_length: usize,
        matrix: *mut u64,
        matrix_length: usize,
        weights: *mut u64,
        weights_length: usize,
        first: *mut u64,
        first_length: usize,
    ) -> u64;
}

#[derive(Clone, Debug)]
struct Call {
    matrix: Vec<u64>,
    m: usize,
    n: usize,
    weights: Vec<u64>,
    seed: u64,
    edition: u32,
    rule: u32,
    allowance: u64,
    limit: u64,
}

/// The bits of a double: any, a NaN of some pattern, a zero of either sign, an infinity.
fn bits(chance: &mut Chance) -> u64 {
    match chance.below(6) {
        0 => chance.pick(&[0, 1 << 63, 0x7FF0 << 48, 0xFFF0 << 48]),
        1 => 0x7FF0_0000_0000_0001 | (chance.word() & 0x800F_FFFF_FFFF_FFFF),
        _ => chance.word(),
    }
}

fn a_call(chance: &mut Chance) -> Call {
    let m = if chance.once_in(20) { chance.pick(&[0, 31, 32, 33]) } else { chance.below(9) };
    let n = if chance.once_in(20) { chance.pick(&[0, 63, 64, 65]) } else { chance.below(9) };
    let edges = [0, 1, 9, 10, 4294967295, 4294967296, u64::MAX];
    let mut lengths = [m * n, m];
    if chance.once_in(20) {
        let which = chance.below(2);
        lengths[which] = (lengths[which] + chance.pick(&[1, 2])).saturating_sub(chance.pick(&[0, 2]));
    }
    Call {
        matrix: (0..lengths[0]).map(|_| bits(chance)).collect(),
        m,
        n,
        weights: (0..lengths[1]).map(|_| bits(chance)).collect(),
        seed: chance.seed(),
        edition: if chance.once_in(20) { chance.pick(&[0, 3, u32::MAX]) } else { chance.pick(&[1, 2]) },
        rule: if chance.once_in(20) { chance.pick(&[3, u32::MAX]) } else { chance.pick(&[0, 1, 2]) },
        allowance: bits(chance),
        limit: if chance.once_in(3) { chance.pick(&edges) } else { chance.word() >> (32 + chance.below(32)) },
    }
}

/// The text, or the number that it is refused by whatever the buffer is.
fn plain(c: &Call) -> Result<Vec<u8>, u64> {
    if c.rule > 2 {
        return Err(2);
    }
    if c.m > 32 || c.n > 64 || (c.rule != 1 && c.limit > 4294967295) {
        return Err(3);
    }
    if c.matrix.len() != c.m * c.n || c.weights.len() != c.m {
        return Err(4);
    }
    if c.edition != 1 && c.edition != 2 {
        return Err(13);
    }
    let rule = match c.rule {
        0 => format!("target\t{}", c.limit),
        1 => format!("within\t{:016X}\t-", c.allowance),
        _ => format!("within\t{:016X}\t{}", c.allowance, c.limit),
    };
    let edition = if c.edition == 2 { "\t2" } else { "" };
    let mut text = format!("thin\t{}\t{}\t{:016X}\t{rule}{edition}\n", c.m, c.n, c.seed);
    for j in 0..c.m {
        text += &format!("col\t{:016X}", c.weights[j]);
        for entry in &c.matrix[j * c.n..(j + 1) * c.n] {
            text += &format!("\t{entry:016X}");
        }
        text += "\n";
    }
    Ok(text.into_bytes())
}

/// Writes in a buffer of this length: the number, the length said, and the buffer.
fn write(c: &Call, room: usize, chance: &mut Chance) -> (u64, usize, Guarded<u8>) {
    let mut text = Guarded::new(room, || chance.word() as u8);
    let (start, length) = text.lent();
    let mut said = usize::MAX;
    // Sound: each pointer goes with the length of its list, and no two lists overlap.
    let number = unsafe {
        knob_write_sheet(
            c.matrix.as_ptr(),
            c.matrix.len(),
            c.m,
            c.n,
            c.weights.as_ptr(),
            c.weights.len(),
            c.seed,
            c.edition,
            c.rule,
            c.allowance,
            c.limit,
            start,
            length,
            &mut said,
        )
    };
    (number, said, text)
}

/// Reads into lists of these lengths: the number, and the lists.
fn read(text: &[u8], lengths: [usize; 3], chance: &mut Chance) -> (u64, [Guarded<u64>; 3]) {
    let mut lists = lengths.map(|length| Guarded::new(length, || chance.word()));
    let [matrix, weights, first] = lists.each_mut().map(Guarded::lent);
    // Sound for the same reason.
    let number = unsafe { knob_read_sheet(text.as_ptr(), text.len(), matrix.0, matrix.1, weights.0, weights.1, first.0, first.1) };
    (number, lists)
}

/// The line that the archive's thinning of sheets calls bad, 0 where it does not.
fn bad_line(text: &[u8]) -> u64 {
    let mut answer = [0; 1342];
    // Sound for the same reason.
    let length = unsafe { knob_thin_sheet(text.as_ptr(), text.len(), answer.as_mut_ptr(), answer.len()) };
    let said = std::str::from_utf8(&answer[..length]).expect("an answer is text");
    said.strip_prefix("bad\t").map_or(0, |line| line.trim_end().parse().expect("a line's number"))
}

/// What the reader gives of a sheet that was written by this call.
fn first(c: &Call) -> [u64; 7] {
    let allowance = if c.rule == 0 { 0 } else { c.allowance };
    let limit = if c.rule == 1 { 0 } else { c.limit };
    [c.m as u64, c.n as u64, c.seed, u64::from(c.edition), u64::from(c.rule), allowance, limit]
}

fn main() {
    let mut chance = Chance::new("writing", 13);
    let mut text = Tally::new("sheets written");
    let mut refused = Tally::new("sheets not written");
    let mut short = Tally::new("buffers too short");
    let mut back = Tally::new("sheets read back");
    let mut lists = Tally::new("lists too short");
    let mut spoiled = Tally::new("spoiled sheets read");
    let mut again = Tally::new("sheets written again");
    for _ in 0..count(40_000) {
        let c = a_call(&mut chance);
        let sheet = match plain(&c) {
            Err(number) => {
                let room = chance.below(300);
                let (given, said, buffer) = write(&c, room, &mut chance);
                refused.note((given, said) == (number, 0) && buffer.holds(&[]), || format!("{c:?}: {given}"));
                continue;
            }
            Ok(sheet) => sheet,
        };
        let room = sheet.len() + chance.pick(&[0, 1, 40]);
        let (given, said, buffer) = write(&c, room, &mut chance);
        text.note((given, said) == (0, sheet.len()) && buffer.holds(&sheet), || format!("{c:?}: {given}"));
        let room = sheet.len() - 1 - chance.below(sheet.len()).min(chance.below(40));
        let (given, said, buffer) = write(&c, room, &mut chance);
        short.note((given, said) == (16, 0) && buffer.holds(&[]), || format!("{c:?}, {room} bytes: {given}"));
        let lengths = [2048, 32, 7].map(|length| length + chance.below(3));
        let (given, [a, b, d]) = read(&sheet, lengths, &mut chance);
        let held = a.holds(&c.matrix) && b.holds(&c.weights) && d.holds(&first(&c));
        back.note(given == 0 && held, || format!("{c:?}: {given}"));
        let mut lengths = [2048, 32, 7];
        lengths[chance.below(3)] -= 1;
        let (given, [a, b, d]) = read(&sheet, lengths, &mut chance);
        lists.note(given == u64::MAX && a.holds(&[]) && b.holds(&[]) && d.holds(&[]), || format!("{lengths:?}: {given}"));
        let mut other = sheet.clone();
        let at = chance.below(other.len());
        other[at] = if chance.once_in(2) { chance.pick(b"\t\n012-AFaz") } else { chance.word() as u8 };
        let (given, [a, b, d]) = read(&other, [2048, 32, 7], &mut chance);
        let line = bad_line(&other);
        let kept = line == 0 || (a.holds(&[]) && b.holds(&[]) && d.holds(&[]));
        spoiled.note(given == line && kept, || format!("{:?}: {given}", String::from_utf8_lossy(&other)));
        if given == 0 {
            let seven = d.front(7);
            let (m, n) = (seven[0] as usize, seven[1] as usize);
            let c = Call {
                matrix: a.front(m * n).to_vec(),
                m,
                n,
                weights: b.front(m).to_vec(),
                seed: seven[2],
                edition: seven[3] as u32,
                rule: seven[4] as u32,
                allowance: seven[5],
                limit: seven[6],
            };
            let (given, said, buffer) = write(&c, other.len(), &mut chance);
            again.note((given, said) == (0, other.len()) && buffer.holds(&other), || format!("{c:?}: {given}"));
        }
    }
    end(&[&text, &refused, &short, &back, &lists, &spoiled, &again])
}
