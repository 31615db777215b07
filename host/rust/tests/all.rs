//! Several items in one call: each has what the single call gives, in the items' order, on any number of threads.

use knobthistle::{thin, thin_all, Edition, Item, Job, Refusal, Rule, MAX_ITEMS};

/// A small generator for the tests' own choices.
struct Chance(u64);

impl Chance {
    fn word(&mut self) -> u64 {
        self.0 ^= self.0 << 13;
        self.0 ^= self.0 >> 7;
        self.0 ^= self.0 << 17;
        self.0
    }

    fn below(&mut self, end: u64) -> u64 {
        self.word() % end
    }

    fn signed(&mut self) -> f64 {
        (self.word() >> 11) as f64 / 4503599627370496.0 - 1.0
    }

    fn vector(&mut self, length: usize) -> Vec<f64> {
        (0..length).map(|_| self.signed()).collect()
    }

    /// A job that is now and then refused.
    fn job(&mut self, m: usize) -> Job {
        let some = self.below(m as u64 + 1) as usize;
        let allowance = [self.signed().abs(), self.signed() / 4.0, f64::INFINITY][self.below(8).min(2) as usize];
        let rule = match self.below(3) {
            0 => Rule::Target(some),
            1 => Rule::Within { allowance, cap: None },
            _ => Rule::Within { allowance, cap: Some(some) },
        };
        Job { seed: self.word(), edition: [Edition::First, Edition::Second][self.below(2) as usize], rule }
    }
}

#[test]
fn items_equal_single_calls() {
    let mut chance = Chance(11);
    for round in 0..60 {
        let (m, n) = (1 + chance.below(20) as usize, 1 + chance.below(20) as usize);
        let columns: Vec<Vec<f64>> = (0..m).map(|_| chance.vector(n)).collect();
        let many = if round == 0 { MAX_ITEMS } else { chance.below(20) as usize };
        let weights: Vec<Vec<f64>> = (0..many)
            .map(|_| match chance.below(6) {
                0 => vec![0.0; m],
                1 => vec![f64::NAN; m],
                _ => chance.vector(m),
            })
            .collect();
        let items: Vec<Item> = weights.iter().map(|weights| Item { weights, job: chance.job(m) }).collect();
        let singles: Vec<_> = items.iter().map(|item| thin(&columns, item.weights, item.job)).collect();
        for threads in [0, 1, 2, 3, 7, 100] {
            assert_eq!(thin_all(&columns, &items, threads).unwrap(), singles, "{threads} threads");
        }
    }
}

#[test]
fn the_whole_call() {
    let columns = vec![vec![0.5; 2]; 2];
    let job = Job { seed: 1, edition: Edition::First, rule: Rule::Target(1) };
    let item = Item { weights: &[1.0, 2.0], job };
    let both = |columns: &[Vec<f64>], items: &[Item], expected: Option<Refusal>| {
        for threads in [1, 2, 8] {
            assert_eq!(thin_all(columns, items, threads).err(), expected);
        }
    };
    both(&columns, &[], None);
    both(&columns, &[item; MAX_ITEMS], None);
    both(&columns, &[item; MAX_ITEMS + 1], Some(Refusal::Size));
    both(&vec![vec![0.5]; 257], &[], Some(Refusal::Size));
    // Another length is the whole call's, also where one item has too many weights and the next too few.
    let (longer, shorter) = (Item { weights: &[1.0, 2.0, 3.0], job }, Item { weights: &[1.0], job });
    both(&columns, &[longer, shorter], Some(Refusal::Length));
    both(&columns, &[item, shorter, item], Some(Refusal::Length));
    both(&[vec![0.5]], &[Item { weights: &[], job }], Some(Refusal::Length));
    both(&[vec![0.5, 0.5], vec![0.5]], &[item], Some(Refusal::Length));
    both(&[], &[], Some(Refusal::Empty));
    both(&[vec![], vec![]], &[item], Some(Refusal::Empty));
    both(&[vec![0.5, 2.0], vec![0.5, 0.5]], &[item, item], Some(Refusal::Entry));
    // The whole call is tested before any item.
    let zero = Item { weights: &[f64::NAN, 0.0], job: Job { rule: Rule::Target(0), ..job } };
    both(&[vec![0.5, 2.0], vec![0.5, 0.5]], &[zero, zero], Some(Refusal::Entry));
    assert_eq!(thin_all(&columns, &[zero, item], 1).unwrap(), [Err(Refusal::Zero), thin(&columns, item.weights, job)]);
}
