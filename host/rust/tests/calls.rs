//! Every safe call with arguments that all differ, and answers that all differ: the jobs of host/calls.c. So an exchange of two arguments
//! or of two fields on the way to the archive and back gives another answer here.

use knobthistle::{discrepancy_coloring, max_margin_change, sparsify, sparsify_within, thin, turned_words, Edition, Job, Rule, Thinned};

/// Entries from -1 to 1.
fn columns(m: usize, n: usize) -> Vec<Vec<f64>> {
    (0..m).map(|j| (0..n).map(|i| ((j * 37 + i * i * 11 + j * i) % 9) as f64 / 4.0 - 1.0).collect()).collect()
}

/// Weights of both signs.
fn weights(m: usize) -> Vec<f64> {
    (0..m).map(|j| if j % 5 == 2 { -1.0 } else { 1.0 } * (1 + j * j % 11) as f64).collect()
}

/// A thinned ensemble of so many weights, of which these are left. Of the path only the ends are known.
fn hold(thinned: Thinned, m: usize, stage: usize, nonzeros: usize, change: u64, counts: (usize, usize), left: &[(usize, u64)]) {
    let mut weights = vec![0.0; m];
    left.iter().for_each(|(place, bits)| weights[*place] = f64::from_bits(*bits));
    let change = f64::from_bits(change);
    assert_eq!((thinned.weights, thinned.stage, thinned.nonzeros, thinned.change), (weights, stage, nonzeros, change));
    assert_eq!((thinned.directions, thinned.sweeps), counts);
    assert_eq!((thinned.path.len(), thinned.path[0], thinned.path[stage]), (stage + 1, (m, 0.0), (nonzeros, change)));
    assert!(thinned.path.windows(2).all(|two| two[1].0 <= two[0].0 / 2));
}

#[test]
fn target() {
    let left =
        [(3, 0x3FB826A439F656F2), (4, 0x3FCCFB2B78C13523), (5, 0x3FC3521CFB2B78C2), (17, 0xBFC3521CFB2B78C2), (19, 0x3FD826A439F656F2)];
    let (columns, weights) = (columns(24, 5), weights(24));
    let thinned = thin(&columns, &weights, Job { seed: 3, edition: Edition::First, rule: Rule::Target(7) }).unwrap();
    assert_eq!(sparsify(&columns, &weights, 7, 3).as_ref(), Ok(&thinned.weights));
    hold(thinned, 24, 2, 5, 0x3FDC6EF752A04B3C, (36, 7), &left);
}

/// From a seed on which the two editions leave other weights.
#[test]
fn target_by_edition_2() {
    let left =
        [(3, 0x3FB745D1745D1746), (8, 0x3FD745D1745D1746), (13, 0x3FC745D1745D1746), (17, 0xBFC29E4129E4129F), (18, 0x3FCBED61BED61BED)];
    let (columns, weights, seed, rule) = (columns(24, 5), weights(24), 0xACFA9D4D29BC9012, Rule::Target(7));
    let thinned = thin(&columns, &weights, Job { seed, edition: Edition::Second, rule }).unwrap();
    assert_ne!(sparsify(&columns, &weights, 7, seed).as_ref(), Ok(&thinned.weights));
    hold(thinned, 24, 2, 5, 0x3FD10EDEAD3F798D, (35, 8), &left);
}

#[test]
fn within_by_edition_2() {
    let left = [
        (1, 0x3FC948B0FCD6E9E0),
        (3, 0x3FAF9ADD3C0CA457),
        (8, 0x3FAF9ADD3C0CA457),
        (9, 0x3FBF9ADD3C0CA457),
        (14, 0x3FAF9ADD3C0CA457),
        (27, 0xBFB948B0FCD6E9E0),
        (36, 0x3FCF9ADD3C0CA457),
        (37, 0xBFC2F684BDA12F68),
    ];
    let (columns, weights, seed, rule) =
        (columns(40, 7), weights(40), 0x7F2BA34D7BA521E7, Rule::Within { allowance: 0.03125, cap: Some(12) });
    let thinned = thin(&columns, &weights, Job { seed, edition: Edition::Second, rule }).unwrap();
    assert_ne!(sparsify_within(&columns, &weights, 0.03125, Some(12), seed).as_ref(), Ok(&thinned.weights));
    hold(thinned, 40, 2, 8, 0x3FD20EFBF9223017, (58, 8), &left);
}

#[test]
fn within() {
    let left = [
        (3, 0x3FB0690690690690),
        (7, 0xBFC3B13B13B13B14),
        (8, 0x3FB0690690690690),
        (16, 0x3FBA41A41A41A41A),
        (17, 0xBFBA41A41A41A41A),
        (20, 0x3FC0690690690690),
        (35, 0x3FC0690690690690),
        (36, 0x3FD0690690690690),
    ];
    let (columns, weights) = (columns(40, 7), weights(40));
    let thinned =
        thin(&columns, &weights, Job { seed: 4, edition: Edition::First, rule: Rule::Within { allowance: 0.03125, cap: Some(12) } })
            .unwrap();
    assert_eq!(sparsify_within(&columns, &weights, 0.03125, Some(12), 4).as_ref(), Ok(&thinned.weights));
    hold(thinned, 40, 2, 8, 0x3FD171B8E4FA2B41, (56, 11), &left);
}

#[test]
fn coloring() {
    assert_eq!(discrepancy_coloring(&columns(9, 4), 6), Ok(vec![1, -1, -1, -1, 1, -1, 1, 1, -1]));
}

/// Three columns of four rows; by hand.
#[test]
fn margins() {
    let columns = vec![vec![0.5, -1.0, 0.25, 1.0], vec![1.0, 0.5, -0.5, -0.25], vec![-1.0, 0.75, 1.0, -0.5]];
    let (before, after) = ([1.0, 2.0, 3.0], [4.0, -2.0, -0.5]);
    assert_eq!(max_margin_change(&columns, &before, &after), Ok(7.625));
    // The margins are -0.5, 2.25, 2.25, -1 before, and 0.5, -5.375, 1.5, 4.75 after.
    assert_eq!(turned_words(&columns, &before, &after, &[-0.5, 3.0, -0.25, 4.0]), Ok(2));
    assert_eq!(turned_words(&columns, &before, &after, &[0.0; 4]), Ok(3));
    assert_eq!(turned_words(&columns, &before, &after, &[0.5, 2.25, 1.5, 5.0]), Ok(1));
}
