// needs: knob_discrepancy_coloring knob_sparsify knob_sparsify_within knob_thin_all knob_thin_votes knob_max_margin_change knob_turned_words knob_thin_sheet knob_moved_sheet knob_moved knob_moved_again knob_write_sheet knob_read_sheet knob_salvage knob_sparsify_bits knob_sparsify_within_bits knob_thin_bits knob_thin_all_bits knob_discrepancy_coloring_bits knob_max_margin_change_bits knob_turned_words_bits
//! The stack that each call uses, at the largest sizes: the stack below a call is painted before it, and what is left of the paint is
//! counted after it. The lent scratch is all else that a call may use, so this is its whole memory. The calls that answer a sheet
//! or save one have their scratch on the stack too, and so may use twice as much.

#[path = "shared/batch_call.rs"]
mod batch_call;
#[path = "shared/bits_calls.rs"]
mod bits_calls;
#[path = "shared/chance.rs"]
mod chance;
#[path = "shared/coloring_call.rs"]
mod coloring_call;
#[path = "shared/margin_calls.rs"]
mod margin_calls;
#[path = "shared/matrices.rs"]
mod matrices;
#[path = "shared/moved_calls.rs"]
mod moved_calls;
#[path = "shared/packed.rs"]
mod packed;
#[path = "shared/tally.rs"]
mod tally;
#[path = "shared/thinning_calls.rs"]
mod thinning_calls;
#[path = "shared/votes_call.rs"]
mod votes_call;

use chance::Chance;
use std::hint::black_box;
use tally::{end, Tally};

extern "C" {
    fn knob_thin_sheet(text: *const u8, text_length: usize, answer: *mut u8, answer_length: usize) -> usize;
    fn knob_moved_sheet(text: *const u8, text_length: usize, answer: *mut u8, answer_length: usize) -> usize;
    fn knob_salvage(text: *const u8, text_length: usize, answer: *mut u8, answer_length: usize) -> usize;

    fn knob_write_sheet(
        matrix: *const u64,
        matrix_length: usize,
        m: usize,
        n: usize,
        weights: *const u64,
        weights_length: usize,
        seed: u64,
        edition: u32,
        rule: u32,
        allowance: u64,
        limit: u64,
        text: *mut u8,
        text_length: usize,
        length: *mut usize,
    ) -> u64;

    fn knob_read_sheet(
        text: *const u8,
        text_length: usize,
        matrix: *mut u64,
        matrix_length: usize,
        weights: *mut u64,
        weights_length: usize,
        first: *mut u64,
        first_length: usize,
    ) -> u64;
}

/// How much is painted, and how much a call may use.
const PAINTED: usize = 1 << 19;
const ALLOWED: usize = 64 << 10;
const PAINT: u8 = 0xA5;
/// What is left to the frame that paints.
const FRAME: usize = 256;

/// A place in the stack near the top of the caller's frame; what a call from there uses lies below it.
#[inline(always)]
fn here(mark: &mut u8) -> *mut u8 {
    black_box(mark)
}

/// The stack grows downwards. Nothing is called here, so that what lies below is nobody's; the first bytes are left to this frame.
#[inline(never)]
fn paint() {
    let top = here(&mut 0);
    for k in FRAME..PAINTED {
        unsafe { top.sub(k).write_volatile(PAINT) };
    }
}

/// The bytes down to the last that is not painted.
#[inline(never)]
fn used() -> usize {
    let top = here(&mut 0);
    let mut deepest = PAINTED - 1;
    while deepest > FRAME && unsafe { top.sub(deepest).read_volatile() } == PAINT {
        deepest -= 1;
    }
    deepest
}

fn measure(name: &str, allowed: usize, tally: &mut Tally, mut call: impl FnMut() -> u64) {
    paint();
    let number = call();
    let bytes = used();
    println!("{name:<44} {bytes:>8} bytes");
    tally.note(number == 0 && bytes < allowed, || format!("{name}: number {number}, {bytes} bytes"));
}

/// The calls on votes as bits.
#[rustfmt::skip]
fn on_bits(tally: &mut Tally, chance: &mut Chance) {
    let (m, n) = (256, 4096);
    let votes = packed::votes(m, n, chance);
    let weights: Vec<f64> = (0..m).map(|_| chance.unit() + 0.5).collect();
    let (mut output, mut colours, thresholds) = (vec![0.0; m], vec![0i8; m], vec![0.0; n]);
    let mut numbers = vec![0.0; m * (n + 1) + m * m + 16 * m + 8 * (n + 1)];
    let mut indices = vec![0u32; 8 * (m + n + 1)];
    let (bits, bytes, w, out) = (votes.as_ptr(), votes.len(), weights.as_ptr(), output.as_mut_ptr());
    let (floats, many, words, more) = (numbers.as_mut_ptr(), numbers.len(), indices.as_mut_ptr(), indices.len());
    let mut answer = thinning_calls::Answer::noise();
    measure("sparsify_bits", ALLOWED, tally, || unsafe {
        bits_calls::knob_sparsify_bits(&mut answer, bits, bytes, m, n, w, m, 1, 1, 4, out, m, floats, many, words, more);
        answer.number
    });
    measure("sparsify_within_bits", ALLOWED, tally, || unsafe {
        bits_calls::knob_sparsify_within_bits(&mut answer, bits, bytes, m, n, w, m, 1, 1, 0.1, 1, 4, out, m, floats, many, words, more);
        answer.number
    });
    measure("thin_bits", ALLOWED, tally, || unsafe {
        bits_calls::knob_thin_bits(&mut answer, bits, bytes, m, n, w, m, 1, 2, 2, 0.1, 4, out, m, floats, many, words, more);
        answer.number
    });
    let mut answers = batch_call::Answers::noise();
    let (all, mut outputs) = (weights.repeat(2), vec![0.0; 2 * m]);
    measure("thin_all_bits", ALLOWED, tally, || unsafe {
        let (seeds, editions, rules, allowances, limits) = ([1u64, 2], [1u32, 2], [0u32, 2], [0.0, 0.1], [4u64, 4]);
        batch_call::knob_thin_all_bits(
            &mut answers, bits, bytes, m, n, 2, all.as_ptr(), 2 * m, seeds.as_ptr(), 2, editions.as_ptr(), 2, rules.as_ptr(), 2,
            allowances.as_ptr(), 2, limits.as_ptr(), 2, outputs.as_mut_ptr(), 2 * m, floats, many, words, more,
        );
        answers.number + answers.items[0].number + answers.items[1].number
    });
    measure("discrepancy_coloring_bits", ALLOWED, tally, || unsafe {
        let mut colored = coloring_call::Colored::noise();
        bits_calls::knob_discrepancy_coloring_bits(
            &mut colored, bits, bytes, m, n, 1, colours.as_mut_ptr(), m, floats, many, words, more,
        );
        colored.number
    });
    measure("max_margin_change_bits", ALLOWED, tally, || unsafe {
        bits_calls::knob_max_margin_change_bits(bits, bytes, m, n, w, m, out, m, &mut 0.0)
    });
    measure("turned_words_bits", ALLOWED, tally, || unsafe {
        bits_calls::knob_turned_words_bits(bits, bytes, m, n, w, m, out, m, thresholds.as_ptr(), n, &mut 0)
    });
}

fn all() -> Tally {
    let (m, n) = (256, 4096);
    let mut chance = Chance::new("stack", 6);
    let mut tally = Tally::new("stack");
    let matrix = matrices::matrix(2, m, n, &mut chance);
    let weights: Vec<f64> = (0..m).map(|_| chance.unit() + 0.5).collect();
    let (mut output, mut colours) = (vec![0.0; m], vec![0i8; m]);
    let mut numbers = vec![0.0; m * (n + 1) + m * m + 16 * m + 8 * (n + 1)];
    let mut indices = vec![0u32; 8 * (m + n + 1)];
    let (lent, length) = (matrix.as_ptr(), matrix.len());
    let mut answer = thinning_calls::Answer::noise();
    let (numbers_at, indices_at) = ((numbers.as_mut_ptr(), numbers.len()), (indices.as_mut_ptr(), indices.len()));
    measure("discrepancy_coloring", ALLOWED, &mut tally, || unsafe {
        let mut colored = coloring_call::Colored::noise();
        coloring_call::knob_discrepancy_coloring(
            &mut colored,
            lent,
            length,
            m,
            n,
            1,
            colours.as_mut_ptr(),
            m,
            numbers_at.0,
            numbers_at.1,
            indices_at.0,
            indices_at.1,
        );
        colored.number
    });
    measure("sparsify", ALLOWED, &mut tally, || unsafe {
        let (w, out) = (weights.as_ptr(), output.as_mut_ptr());
        let (numbers, indices) = (numbers_at, indices_at);
        thinning_calls::knob_sparsify(&mut answer, lent, length, m, n, w, m, 1, 1, 4, out, m, numbers.0, numbers.1, indices.0, indices.1);
        answer.number
    });
    measure("sparsify_within", ALLOWED, &mut tally, || unsafe {
        let (w, out) = (weights.as_ptr(), output.as_mut_ptr());
        let (numbers, indices) = (numbers_at, indices_at);
        thinning_calls::knob_sparsify_within(
            &mut answer,
            lent,
            length,
            m,
            n,
            w,
            m,
            1,
            1,
            0.1,
            1,
            4,
            out,
            m,
            numbers.0,
            numbers.1,
            indices.0,
            indices.1,
        );
        answer.number
    });
    // Its answers are as long as 64 of a single job; they are lent here, where a host in C has them in its own frame.
    let mut answers = batch_call::Answers::noise();
    let (all, mut outputs) = (weights.repeat(2), vec![0.0; 2 * m]);
    measure("thin_all", ALLOWED, &mut tally, || unsafe {
        let (w, out) = (all.as_ptr(), outputs.as_mut_ptr());
        let (seeds, editions, rules, allowances, limits) = ([1u64, 2], [1u32, 2], [0u32, 2], [0.0, 0.1], [4u64, 4]);
        let (numbers, indices) = (numbers_at, indices_at);
        batch_call::knob_thin_all(
            &mut answers,
            lent,
            length,
            m,
            n,
            2,
            w,
            2 * m,
            seeds.as_ptr(),
            2,
            editions.as_ptr(),
            2,
            rules.as_ptr(),
            2,
            allowances.as_ptr(),
            2,
            limits.as_ptr(),
            2,
            out,
            2 * m,
            numbers.0,
            numbers.1,
            indices.0,
            indices.1,
        );
        answers.number + answers.items[0].number + answers.items[1].number
    });
    let (labels, mut columns, mut kept) = (vec![-1i8; n], vec![0u32; m], vec![0.0; m]);
    measure("thin_votes", ALLOWED, &mut tally, || unsafe {
        let (numbers, indices) = (numbers_at, indices_at);
        votes_call::knob_thin_votes(
            &mut answer,
            lent,
            length,
            labels.as_ptr(),
            n,
            m,
            n,
            weights.as_ptr(),
            m,
            1,
            2,
            2,
            0.1,
            4,
            columns.as_mut_ptr(),
            m,
            kept.as_mut_ptr(),
            m,
            numbers.0,
            numbers.1,
            indices.0,
            indices.1,
        );
        answer.number
    });
    let (before, after) = (weights.as_ptr(), output.as_ptr());
    measure("max_margin_change", ALLOWED, &mut tally, || unsafe {
        margin_calls::knob_max_margin_change(lent, length, m, n, before, m, after, m, &mut 0.0)
    });
    let thresholds = vec![0.0; n];
    measure("turned_words", ALLOWED, &mut tally, || unsafe {
        margin_calls::knob_turned_words(lent, length, m, n, before, m, after, m, thresholds.as_ptr(), n, &mut 0)
    });
    on_bits(&mut tally, &mut chance);
    let light: Vec<f64> = weights.iter().map(|w| w / 2.0).collect();
    let (mut rows, mut changes) = (vec![7u32; n], vec![0.0; n]);
    let (rows_at, changes_at) = (rows.as_mut_ptr(), changes.as_mut_ptr());
    measure("moved", ALLOWED, &mut tally, || unsafe {
        moved_calls::knob_moved(lent, length, m, n, light.as_ptr(), m, after, m, rows_at, n, changes_at, n)
    });
    measure("moved_again", ALLOWED, &mut tally, || unsafe {
        moved_calls::knob_moved_again(lent, length, m, n, light.as_ptr(), m, light.as_ptr(), m, rows_at, n, changes_at, n)
    });
    let mut text = format!("thin\t32\t64\t{:016X}\ttarget\t1\n", 1);
    for _ in 0..32 {
        let entries: String = (0..64).map(|_| format!("\t{:016X}", chance.signed().to_bits())).collect();
        text += &format!("col\t{:016X}{entries}\n", (chance.unit() + 0.5).to_bits());
    }
    let mut said = vec![0u8; 1342];
    measure("thin_sheet", 2 * ALLOWED, &mut tally, || {
        let end = unsafe { knob_thin_sheet(text.as_ptr(), text.len(), said.as_mut_ptr(), said.len()) };
        u64::from(!said[..end].starts_with(b"ok\t"))
    });
    let mut said = vec![0u8; 4094];
    measure("moved_sheet", 2 * ALLOWED, &mut tally, || {
        let end = unsafe { knob_moved_sheet(text.as_ptr(), text.len(), said.as_mut_ptr(), said.len()) };
        u64::from(!said[..end].starts_with(b"ok\t"))
    });
    let (mut bits, mut few, mut first, mut room) = (vec![0u64; 2048], vec![0u64; 32], vec![0u64; 7], vec![0u8; 35572]);
    measure("read_sheet", ALLOWED, &mut tally, || unsafe {
        let lists = (bits.as_mut_ptr(), few.as_mut_ptr(), first.as_mut_ptr());
        knob_read_sheet(text.as_ptr(), text.len(), lists.0, 2048, lists.1, 32, lists.2, 7)
    });
    measure("write_sheet", ALLOWED, &mut tally, || unsafe {
        let (lists, mut length) = ((bits.as_ptr(), few.as_ptr(), room.as_mut_ptr()), 0);
        knob_write_sheet(lists.0, 2048, 32, 64, lists.1, 32, 1, 2, 0, 0, 1, lists.2, 35572, &mut length)
    });
    measure("salvage", 2 * ALLOWED, &mut tally, || {
        let end = unsafe { knob_salvage(text.as_ptr(), text.len(), room.as_mut_ptr(), room.len()) };
        u64::from(end != text.len())
    });
    tally
}

fn main() {
    // A thread of its own, whose stack is as deep as is painted and more.
    let thread = std::thread::Builder::new().stack_size(4 * PAINTED).spawn(all).expect("a thread");
    end(&[&thread.join().expect("an end")]);
}
