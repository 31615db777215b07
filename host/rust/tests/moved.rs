//! Which word moved, by the safe calls: arguments that all differ, every refusal that they can reach, and lists that are brought up to date.

use knobthistle::{max_margin_change, moved, moved_sheet, thin, thin_sheet, write_sheet};
use knobthistle::{Edition, Job, Moved, Refusal, Rule, Sheet, MAX_COLUMNS, MAX_ROWS};

/// Entries from -1 to 1.
fn columns(m: usize, n: usize) -> Vec<Vec<f64>> {
    (0..m).map(|j| (0..n).map(|i| ((j * 37 + i * i * 11 + j * i) % 9) as f64 / 4.0 - 1.0).collect()).collect()
}

/// Weights of both signs, at most 1.
fn weights(m: usize, seed: usize) -> Vec<f64> {
    (0..m).map(|j| ((j * j * 7 + seed * (j + 3)) % 17) as f64 / 8.0 - 1.0).collect()
}

/// The list, written a second time.
fn plain(columns: &[Vec<f64>], n: usize, before: &[f64], after: &[f64]) -> Moved {
    let change = |i: usize| columns.iter().zip(before.iter().zip(after)).fold(0.0, |sum, (c, (b, a))| sum + c[i] * (b - a));
    let mut list: Vec<(u32, f64)> = (0..n).map(|i| (i as u32, change(i))).collect();
    list.sort_by(|x, y| y.1.abs().total_cmp(&x.1.abs()));
    let (rows, changes) = list.into_iter().unzip();
    Moved { rows, changes }
}

#[test]
fn anew_and_again() {
    let mut list = Moved::default();
    for (m, n) in [(3, 5), (1, 1), (7, 300), (5, 64), (0, 0), (2, 4096)] {
        let columns = columns(m, n);
        for seed in 1..5 {
            let (before, after) = (weights(m, seed), weights(m, seed + 1));
            let expected = plain(&columns, if m == 0 { 0 } else { n }, &before, &after);
            assert_eq!(moved(&columns, &before, &after).as_ref(), Ok(&expected));
            assert_eq!(list.again(&columns, &before, &after), Ok(()));
            assert_eq!(list, expected);
            let first = list.changes.first().map_or(0.0, |change| change.abs());
            assert_eq!(max_margin_change(&columns, &before, &after), Ok(first));
        }
    }
}

#[test]
fn refused() {
    let half = |m, n| vec![vec![0.5; n]; m];
    let refusal = |columns: &[Vec<f64>], before: &[f64], after: &[f64]| moved(columns, before, after).err();
    let weights = [0.5; MAX_COLUMNS + 1];
    assert_eq!(refusal(&half(MAX_COLUMNS + 1, 1), &weights, &weights), Some(Refusal::Size));
    assert_eq!(refusal(&half(1, MAX_ROWS + 1), &weights[..1], &weights[..1]), Some(Refusal::Size));
    assert_eq!(refusal(&half(MAX_COLUMNS, 1), &weights[1..], &weights[1..]), None);
    assert_eq!(refusal(&half(2, 3), &weights[..1], &weights[..2]), Some(Refusal::Length));
    assert_eq!(refusal(&half(2, 3), &weights[..2], &weights[..3]), Some(Refusal::Length));
    assert_eq!(refusal(&[vec![2.0]], &[f64::NAN], &[0.5]), Some(Refusal::Entry));
    for weight in [f64::NAN, f64::INFINITY, 1.0 + f64::EPSILON, -2.0] {
        assert_eq!(refusal(&half(1, 1), &[weight], &[0.5]), Some(Refusal::Weight));
        assert_eq!(refusal(&half(1, 1), &[0.5], &[weight]), Some(Refusal::Weight));
    }
    assert_eq!(refusal(&half(1, 1), &[1.0], &[-1.0]), None);
}

#[test]
fn a_refusal_leaves_the_list() {
    let columns = columns(3, 5);
    let mut list = moved(&columns, &weights(3, 1), &weights(3, 2)).expect("a list");
    let before = list.clone();
    assert_eq!(list.again(&columns, &weights(3, 1), &[0.0, 2.0, 0.0]), Err(Refusal::Weight));
    assert_eq!(list, before);
}

#[test]
fn a_sheet_says_what_the_calls_say() {
    let job = Job { seed: 3, edition: Edition::Second, rule: Rule::Target(2) };
    let sheet = Sheet { columns: columns(7, 5), rows: 5, weights: weights(7, 2), job };
    let text = write_sheet(&sheet).unwrap();
    let sum = sheet.weights.iter().fold(0.0, |sum, weight| sum + f64::abs(*weight));
    let start: Vec<f64> = sheet.weights.iter().map(|weight| weight / sum).collect();
    let thinned = thin(&sheet.columns, &sheet.weights, job).unwrap();
    let list = moved(&sheet.columns, &start, &thinned.weights).unwrap();
    let mut expected = thin_sheet(&text);
    for (row, change) in list.rows.iter().zip(&list.changes) {
        expected.extend(format!("word\t{row}\t{:016X}\n", change.to_bits()).bytes());
    }
    assert!(thinned.stage > 0 && expected.starts_with(b"ok\t"));
    assert_eq!(moved_sheet(&text), expected);
    assert_eq!(moved_sheet(&text[1..]), b"bad\t1\n");
}
