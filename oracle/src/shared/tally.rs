//! Counts what was compared and what differed, shows the first differences, and decides how the program ends.

/// How many differences of one kind are shown.
const SHOWN: u64 = 5;

pub struct Tally {
    name: &'static str,
    compared: u64,
    differ: u64,
    may_be_empty: bool,
}

impl Tally {
    pub fn new(name: &'static str) -> Tally {
        Tally { name, compared: 0, differ: 0, may_be_empty: false }
    }

    /// A count of cases that chance may not bring.
    pub fn rare(name: &'static str) -> Tally {
        Tally { may_be_empty: true, ..Tally::new(name) }
    }

    /// One comparison; `what` says what was compared, and is only asked where it came out unequal.
    pub fn note(&mut self, equal: bool, what: impl FnOnce() -> String) {
        self.compared += 1;
        if !equal {
            self.differ += 1;
            if self.differ <= SHOWN {
                println!("{} differs: {}", self.name, what());
            }
        }
    }

    /// One comparison of two doubles by their bits, where any NaN equals any other.
    pub fn doubles(&mut self, ours: f64, expected: f64, what: impl FnOnce() -> String) {
        self.note(same(ours, expected), || format!("{}: {:016X}, expected {:016X}", what(), ours.to_bits(), expected.to_bits()));
    }

    /// Prints the count. False where something differed, or where nothing was compared that should have been.
    pub fn tell(&self) -> bool {
        println!("{}: {} compared, {} differ", self.name, self.compared, self.differ);
        self.differ == 0 && (self.compared > 0 || self.may_be_empty)
    }
}

/// The same bits, or both a NaN.
pub fn same(a: f64, b: f64) -> bool {
    a.to_bits() == b.to_bits() || (a.is_nan() && b.is_nan())
}

/// Tells every count and ends the program: 0 where nothing differed, else 1.
pub fn end(tallies: &[&Tally]) -> ! {
    let fine = tallies.iter().filter(|t| !t.tell()).count() == 0;
    std::process::exit(if fine { 0 } else { 1 })
}
