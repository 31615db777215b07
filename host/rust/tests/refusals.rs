//! Every refusal that a safe call can reach, and which of several is given; what is accepted at the edges.

use knobthistle::{
    discrepancy_coloring, max_margin_change, sparsify, sparsify_within, thin, turned_words, Edition, Job, Refusal, Rule, MAX_COLUMNS,
    MAX_ROWS,
};

/// So many columns of so many entries of 0.5.
fn columns(m: usize, n: usize) -> Vec<Vec<f64>> {
    vec![vec![0.5; n]; m]
}

/// What the two thinning calls say of one ensemble: the same, if it is a refusal.
fn both(columns: &[Vec<f64>], weights: &[f64]) -> Result<(), Refusal> {
    let (one, other) = (sparsify(columns, weights, 1, 7), sparsify_within(columns, weights, 0.5, None, 7));
    assert_eq!(one.as_ref().err(), other.as_ref().err());
    one.map(|_| ())
}

#[test]
fn numbers_names_and_words() {
    assert_eq!(Refusal::ALL.map(Refusal::number), [1, 12, 2, 13, 3, 4, 5, 6, 14, 15, 7, 8, 9, 11, 16]);
    for refusal in Refusal::ALL {
        assert!(!refusal.to_string().is_empty());
        let error: Box<dyn std::error::Error> = refusal.into();
        assert_eq!(error.to_string(), refusal.to_string());
    }
}

#[test]
fn allowance() {
    let (columns, weights) = (columns(2, 2), [1.0, 3.0]);
    for allowance in [-1.0, -5e-324, f64::NAN, -f64::NAN, f64::NEG_INFINITY] {
        for cap in [None, Some(0), Some(1)] {
            assert_eq!(sparsify_within(&columns, &weights, allowance, cap, 0), Err(Refusal::Allowance));
        }
        assert_eq!(sparsify_within(&[], &[], allowance, None, 0), Err(Refusal::Allowance));
    }
    for allowance in [0.0, -0.0, f64::MAX] {
        assert!(sparsify_within(&columns, &weights, allowance, None, 0).is_ok());
    }
    // Infinity comes after the other faults of an allowance and before everything else.
    for cap in [None, Some(0), Some(1)] {
        assert_eq!(sparsify_within(&columns, &weights, f64::INFINITY, cap, 0), Err(Refusal::InfiniteAllowance));
        assert_eq!(sparsify_within(&[], &[f64::NAN], f64::INFINITY, cap, 0), Err(Refusal::InfiniteAllowance));
    }
}

#[test]
fn zero() {
    let columns = columns(2, 2);
    assert_eq!(sparsify(&columns, &[1.0, 3.0], 0, 0), Err(Refusal::Zero));
    assert_eq!(sparsify_within(&columns, &[1.0, 3.0], 0.5, Some(0), 0), Err(Refusal::Zero));
    assert_eq!(sparsify(&[], &[f64::NAN], 0, 0), Err(Refusal::Zero));
    assert!(sparsify(&columns, &[1.0, 3.0], usize::MAX, 0).is_ok());
    assert!(sparsify_within(&columns, &[1.0, 3.0], 0.5, Some(usize::MAX), 0).is_ok());
}

#[test]
fn size() {
    for (m, n) in [(MAX_COLUMNS + 1, 1), (1, MAX_ROWS + 1), (MAX_COLUMNS + 1, MAX_ROWS + 1), (MAX_COLUMNS + 1, 0), (2000, 3)] {
        let (columns, weights) = (columns(m, n), vec![1.0; m]);
        assert_eq!(both(&columns, &weights), Err(Refusal::Size));
        assert_eq!(both(&columns, &[]), Err(Refusal::Size));
        assert_eq!(discrepancy_coloring(&columns, 0), Err(Refusal::Size));
        assert_eq!(max_margin_change(&columns, &weights, &weights), Err(Refusal::Size));
        assert_eq!(turned_words(&columns, &weights, &weights, &[f64::NAN]), Err(Refusal::Size));
    }
    // Too many rows and columns that differ: the lower number.
    assert_eq!(both(&[vec![0.5; MAX_ROWS + 1], vec![0.5]], &[1.0, 1.0]), Err(Refusal::Size));
    // The rows are those of the first column.
    assert_eq!(both(&[vec![0.5], vec![0.5; MAX_ROWS + 1]], &[1.0, 1.0]), Err(Refusal::Length));
}

#[test]
fn the_largest_is_accepted() {
    let columns: Vec<Vec<f64>> =
        (0..MAX_COLUMNS).map(|j| (0..MAX_ROWS).map(|i| ((i * 31 + j * 17) % 29) as f64 / 14.0 - 1.0).collect()).collect();
    let weights = vec![1.0; MAX_COLUMNS];
    let thinned = thin(&columns, &weights, Job { seed: 1, edition: Edition::First, rule: Rule::Target(4) }).unwrap();
    assert!(thinned.nonzeros <= 4 && thinned.weights.len() == MAX_COLUMNS);
    let normalised = vec![1.0 / MAX_COLUMNS as f64; MAX_COLUMNS];
    assert_eq!(max_margin_change(&columns, &normalised, &thinned.weights), Ok(thinned.change));
    assert!(turned_words(&columns, &weights, &thinned.weights, &[0.0; MAX_ROWS]).unwrap() <= MAX_ROWS);
    assert!(discrepancy_coloring(&columns, 1).unwrap().iter().all(|sign| sign.abs() == 1));
}

#[test]
fn lengths() {
    let two = columns(2, 2);
    for weights in [&[][..], &[1.0], &[1.0, 1.0, 1.0]] {
        assert_eq!(both(&two, weights), Err(Refusal::Length));
        for (before, after) in [(weights, &[1.0, 1.0][..]), (&[1.0, 1.0], weights), (weights, weights)] {
            assert_eq!(max_margin_change(&two, before, after), Err(Refusal::Length));
            assert_eq!(turned_words(&two, before, after, &[0.0, 0.0]), Err(Refusal::Length));
        }
    }
    // One threshold for each row, and each finite; a length comes first.
    for thresholds in [&[][..], &[0.0], &[0.0, 0.0, 0.0], &[f64::NAN]] {
        assert_eq!(turned_words(&two, &[1.0, 1.0], &[1.0, 1.0], thresholds), Err(Refusal::Length));
    }
    for wrong in [f64::NAN, f64::INFINITY, f64::NEG_INFINITY] {
        assert_eq!(turned_words(&two, &[1.0, 1.0], &[1.0, 1.0], &[0.0, wrong]), Err(Refusal::Weight));
    }
    assert_eq!(both(&[], &[1.0]), Err(Refusal::Length));
}

#[test]
fn ragged_columns() {
    // In the second and third the entries are as many as m n says all the same; in the last three the first column has none.
    let all = [&[2usize, 1][..], &[2, 1, 3], &[2, 3, 1], &[1, 2], &[3, 3, 3, 2], &[0, 1], &[0, 4, 4], &[1, 0], &[0, 0, 1]];
    for lengths in all {
        let columns: Vec<Vec<f64>> = lengths.iter().map(|n| vec![0.5; *n]).collect();
        let weights = vec![1.0; columns.len()];
        assert_eq!(both(&columns, &weights), Err(Refusal::Length), "{lengths:?}");
        assert_eq!(max_margin_change(&columns, &weights, &weights), Err(Refusal::Length), "{lengths:?}");
        assert_eq!(turned_words(&columns, &weights, &weights, &vec![0.0; lengths[0]]), Err(Refusal::Length), "{lengths:?}");
        assert_eq!(discrepancy_coloring(&columns, 0), Err(Refusal::Length), "{lengths:?}");
        // A lower number comes first, a higher one after.
        assert_eq!(sparsify(&columns, &weights, 0, 0), Err(Refusal::Zero));
        assert_eq!(sparsify_within(&columns, &weights, -1.0, None, 0), Err(Refusal::Allowance));
        let spoiled: Vec<Vec<f64>> = lengths.iter().map(|n| vec![f64::NAN; *n]).collect();
        assert_eq!(both(&spoiled, &vec![f64::NAN; columns.len()]), Err(Refusal::Length));
        assert_eq!(discrepancy_coloring(&spoiled, 0), Err(Refusal::Length));
    }
}

#[test]
fn nothing_given() {
    assert_eq!(both(&[], &[]), Err(Refusal::Empty));
    assert_eq!(both(&columns(3, 0), &[1.0; 3]), Err(Refusal::Empty));
    assert_eq!(both(&columns(3, 0), &[f64::NAN; 3]), Err(Refusal::Empty));
    for m in [0, 1, 3] {
        let weights = vec![f64::NAN; m];
        assert_eq!(max_margin_change(&columns(m, 0), &weights, &weights), Ok(0.0));
        assert_eq!(turned_words(&columns(m, 0), &weights, &weights, &[]), Ok(0));
        assert_eq!(discrepancy_coloring(&columns(m, 0), 0).map(|signs| signs.len()), Ok(m));
    }
}

#[test]
fn entries() {
    for wrong in [f64::NAN, 1.0000000000000002, -1.0000000000000002, f64::INFINITY, f64::NEG_INFINITY] {
        for (j, i) in [(0, 0), (0, 1), (1, 0), (1, 1)] {
            let mut columns = columns(2, 2);
            columns[j][i] = wrong;
            assert_eq!(both(&columns, &[1.0, 3.0]), Err(Refusal::Entry));
            assert_eq!(both(&columns, &[f64::NAN, 0.0]), Err(Refusal::Entry));
        }
    }
    assert!(both(&[vec![1.0, -1.0], vec![-0.0, 5e-324]], &[1.0, 3.0]).is_ok());
}

#[test]
fn weights() {
    for wrong in [f64::NAN, f64::INFINITY, f64::NEG_INFINITY] {
        assert_eq!(both(&columns(2, 2), &[wrong, 1.0]), Err(Refusal::Weight));
        assert_eq!(both(&columns(2, 2), &[0.0, wrong]), Err(Refusal::Weight));
    }
    assert_eq!(both(&columns(2, 2), &[f64::MAX, -f64::MAX]), Err(Refusal::Sum));
    assert_eq!(both(&columns(2, 2), &[-0.0, 0.0]), Err(Refusal::Sum));
    assert!(both(&columns(2, 2), &[f64::MAX, 0.0]).is_ok());
    assert!(both(&columns(2, 2), &[5e-324, 0.0]).is_ok());
}

#[test]
fn coloring_entries() {
    let edge = 4294967296.0f64;
    for wrong in [f64::NAN, f64::INFINITY, f64::NEG_INFINITY, f64::from_bits(edge.to_bits() + 1), -1e300] {
        assert_eq!(discrepancy_coloring(&[vec![1.0, 2.0], vec![3.0, wrong]], 0), Err(Refusal::ColoringEntry));
    }
    assert!(discrepancy_coloring(&[vec![edge, -edge], vec![-edge, edge]], 0).is_ok());
}

#[test]
fn margins_of_any_doubles() {
    let odd = [f64::NAN, f64::INFINITY, 1e308, -0.0];
    let columns = vec![odd.to_vec(), odd.to_vec()];
    assert_eq!(max_margin_change(&columns, &[1.0, 2.0], &[1.0, 1.0]), Ok(f64::INFINITY));
    assert_eq!(max_margin_change(&columns, &[f64::NAN, 2.0], &[1.0, 1.0]), Ok(0.0));
    // Rows 0 to 3: never above; above before alone; the same; never above.
    assert_eq!(turned_words(&columns, &[1.0, 0.0], &[-1.0, 0.0], &[0.0; 4]), Ok(1));
    assert_eq!(turned_words(&columns, &[1.0, 0.0], &[-1.0, 0.0], &[0.0, 0.0, 0.0, -1.0]), Ok(1));
}
