// needs: knob_sparsify knob_thin_all
//! Forty items in one call beside forty calls, in one run, by turns: the best time of each. And the same items spread over as many threads
//! as the machine has cores, each with scratch of its own, as the crate for Rust spreads them.

#[path = "shared/batch_call.rs"]
mod batch_call;
#[path = "shared/chance.rs"]
mod chance;
#[path = "shared/thinning_calls.rs"]
mod thinning_calls;

use batch_call::{knob_thin_all, Answers};
use chance::Chance;
use std::thread;
use std::time::Instant;
use thinning_calls::{knob_sparsify, Answer};

const ITEMS: usize = 40;
const TARGET: usize = 4;
const ROUNDS: usize = 5;

/// One matrix, and the weights of forty items.
struct Faces {
    matrix: Vec<f64>,
    m: usize,
    n: usize,
    weights: Vec<f64>,
}

/// What each side writes.
struct Room {
    output: Vec<f64>,
    numbers: Vec<f64>,
    indices: Vec<u32>,
}

impl Room {
    fn new(m: usize, n: usize, items: usize) -> Room {
        let numbers = vec![0.0; m * (n + 1) + m * m + 16 * m + 8 * (n + 1)];
        Room { output: vec![0.0; items * m], numbers, indices: vec![0; 8 * (m + n + 1)] }
    }
}

fn forty_calls(f: &Faces, room: &mut Room) {
    for k in 0..ITEMS {
        let mut answer = Answer::noise();
        unsafe {
            knob_sparsify(
                &mut answer,
                f.matrix.as_ptr(),
                f.matrix.len(),
                f.m,
                f.n,
                f.weights[k * f.m..].as_ptr(),
                f.m,
                k as u64,
                1,
                TARGET,
                room.output[k * f.m..].as_mut_ptr(),
                f.m,
                room.numbers.as_mut_ptr(),
                room.numbers.len(),
                room.indices.as_mut_ptr(),
                room.indices.len(),
            )
        };
        assert_eq!(answer.number, 0, "a job is accepted");
    }
}

/// The items from `first` on, as many as there is room for.
fn one_call(f: &Faces, first: usize, room: &mut Room) {
    let items = room.output.len() / f.m;
    let seeds: Vec<u64> = (first..first + items).map(|k| k as u64).collect();
    let (editions, rules, allowances, limits) = (vec![1u32; items], vec![0u32; items], vec![0.0; items], vec![TARGET as u64; items]);
    let mut answers = Answers::noise();
    unsafe {
        knob_thin_all(
            &mut answers,
            f.matrix.as_ptr(),
            f.matrix.len(),
            f.m,
            f.n,
            items,
            f.weights[first * f.m..].as_ptr(),
            items * f.m,
            seeds.as_ptr(),
            items,
            editions.as_ptr(),
            items,
            rules.as_ptr(),
            items,
            allowances.as_ptr(),
            items,
            limits.as_ptr(),
            items,
            room.output.as_mut_ptr(),
            room.output.len(),
            room.numbers.as_mut_ptr(),
            room.numbers.len(),
            room.indices.as_mut_ptr(),
            room.indices.len(),
        )
    };
    assert!(answers.number == 0 && answers.items[..items].iter().all(|a| a.number == 0), "every item is accepted");
}

fn spread(f: &Faces, rooms: &mut [Room]) {
    let share = ITEMS.div_ceil(rooms.len());
    thread::scope(|scope| {
        for (k, room) in rooms.iter_mut().enumerate() {
            scope.spawn(move || one_call(f, k * share, room));
        }
    });
}

fn main() {
    let mut chance = Chance::new("batch_bench", 12);
    let cores = thread::available_parallelism().map_or(1, |cores| cores.get()).min(ITEMS);
    println!(
        "{:<24} {:>14} {:>14} {:>8} {:>14} {:>8}",
        "forty items",
        "40 calls",
        "one call",
        "ratio",
        format!("{cores} threads"),
        "ratio"
    );
    for (m, n) in [(8, 16), (32, 64), (60, 500), (60, 2000), (256, 4096)] {
        let f = Faces {
            matrix: (0..m * n).map(|_| chance.sign()).collect(),
            m,
            n,
            weights: (0..ITEMS * m).map(|_| chance.unit() + 0.5).collect(),
        };
        let (mut calls, mut call) = (Room::new(m, n, ITEMS), Room::new(m, n, ITEMS));
        let share = ITEMS.div_ceil(cores);
        let mut rooms: Vec<Room> = (0..ITEMS).step_by(share).map(|k| Room::new(m, n, share.min(ITEMS - k))).collect();
        let (mut first, mut second, mut third) = (f64::INFINITY, f64::INFINITY, f64::INFINITY);
        let time = |side: &mut dyn FnMut()| {
            let start = Instant::now();
            side();
            start.elapsed().as_secs_f64()
        };
        for _ in 0..ROUNDS {
            first = first.min(time(&mut || forty_calls(&f, &mut calls)));
            second = second.min(time(&mut || one_call(&f, 0, &mut call)));
            third = third.min(time(&mut || spread(&f, &mut rooms)));
        }
        let same = |a: &[f64], b: &[f64]| a.iter().zip(b).all(|(x, y)| x.to_bits() == y.to_bits());
        let spread: Vec<f64> = rooms.iter().flat_map(|room| room.output.iter().copied()).collect();
        assert!(same(&calls.output, &call.output) && same(&calls.output, &spread), "the three give the same weights");
        let name = format!("target 4 of {m}x{n}");
        let (a, b, c) = (first * 1e3, second * 1e3, third * 1e3);
        println!("{name:<24} {a:>11.3} ms {b:>11.3} ms {:>8.2} {c:>11.3} ms {:>8.2}", a / b, b / c);
    }
}
