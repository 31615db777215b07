//! The list of which word moved, written a second time, with the library's sort.

/// The change of each row: the running sum of u (before - after), a difference of 0 skipped.
pub fn changes_of(matrix: &[f64], n: usize, before: &[f64], after: &[f64]) -> Vec<f64> {
    let mut changes = vec![0.0; n];
    for (j, (b, a)) in before.iter().zip(after).enumerate() {
        let delta = b - a;
        if delta != 0.0 {
            for (change, u) in changes.iter_mut().zip(&matrix[j * n..(j + 1) * n]) {
                *change += u * delta;
            }
        }
    }
    changes
}

/// The rows by the magnitude of their changes, falling, ties to the smaller row.
pub fn sort(rows: &mut [u32], changes: &[f64]) {
    let size = |row: u32| changes[row as usize].abs();
    rows.sort_unstable_by(|x, y| size(*y).total_cmp(&size(*x)).then(x.cmp(y)));
}

/// Every entry is in [-1, 1]; a NaN is not.
pub fn within_one(values: &[f64]) -> bool {
    values.iter().all(|x| x.abs() <= 1.0)
}
