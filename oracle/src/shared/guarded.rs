//! A list that is lent between guards, so that what a call writes beyond it shows.

/// How many elements guard each end of a list.
const GUARD: usize = 16;

/// A list between guards, all of it noise at first.
pub struct Guarded<T> {
    all: Vec<T>,
    before: Vec<T>,
}

impl<T: Copy + PartialEq> Guarded<T> {
    pub fn new(length: usize, mut noise: impl FnMut() -> T) -> Guarded<T> {
        let all: Vec<T> = (0..length + 2 * GUARD).map(|_| noise()).collect();
        Guarded { before: all.clone(), all }
    }

    pub fn lent(&mut self) -> (*mut T, usize) {
        let length = self.all.len() - 2 * GUARD;
        (self.all[GUARD..].as_mut_ptr(), length)
    }

    /// The first elements, as they are now.
    pub fn front(&self, length: usize) -> &[T] {
        &self.all[GUARD..GUARD + length]
    }

    /// The front is this, and all else is as it was.
    pub fn holds(&self, front: &[T]) -> bool {
        self.all[..GUARD] == self.before[..GUARD]
            && self.all[GUARD..].starts_with(front)
            && self.all[GUARD + front.len()..] == self.before[GUARD + front.len()..]
    }
}
