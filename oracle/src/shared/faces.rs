//! The archived ensembles: m and n as 32-bit numbers, m weights, and m times n margins column after column, little endian, in xz.

use std::process::Command;

pub struct Face {
    pub name: String,
    pub m: usize,
    pub n: usize,
    pub weights: Vec<f64>,
    pub margins: Vec<f64>,
}

/// The ensembles of a folder in the order of their names; none where there is no such folder.
pub fn faces(folder: &str) -> Vec<Face> {
    let Ok(entries) = std::fs::read_dir(folder) else {
        println!("no folder {folder}: the archived ensembles are left out");
        return Vec::new();
    };
    let mut paths: Vec<_> = entries.map(|entry| entry.expect("a name in the folder").path()).collect();
    paths.retain(|path| path.extension().is_some_and(|end| end == "xz"));
    paths.sort();
    paths.iter().map(|path| face(path)).collect()
}

fn face(path: &std::path::Path) -> Face {
    let unpacked = Command::new("xz").arg("-dc").arg(path).output().expect("xz runs");
    assert!(unpacked.status.success(), "xz unpacks {}", path.display());
    let bytes = unpacked.stdout;
    let size = |at: usize| u32::from_le_bytes(bytes[at..at + 4].try_into().expect("four bytes")) as usize;
    let (m, n) = (size(0), size(4));
    let numbers: Vec<f64> = bytes[8..].chunks(8).map(|b| f64::from_le_bytes(b.try_into().expect("eight bytes"))).collect();
    assert_eq!(numbers.len(), m + m * n, "{} has the length that it says", path.display());
    let name = path.file_name().expect("a name").to_string_lossy().split('.').next().expect("a name").to_string();
    Face { name, m, n, weights: numbers[..m].to_vec(), margins: numbers[m..].to_vec() }
}
