//! Buffers lent to a call: filled with noise before, with more noise on both sides that no call may touch.

use crate::chance::Chance;

/// The elements on each side of a lent buffer.
const FENCE: usize = 8;

pub struct Lent<T> {
    all: Vec<T>,
    before: Vec<T>,
}

impl<T: Copy + PartialEq + Default> Lent<T> {
    pub fn new(len: usize, mut noise: impl FnMut() -> T) -> Lent<T> {
        let all: Vec<T> = (0..len + 2 * FENCE).map(|_| noise()).collect();
        Lent { before: all.clone(), all }
    }

    /// A buffer that holds this before the call.
    pub fn holding(content: &[T], noise: impl FnMut() -> T) -> Lent<T> {
        let mut lent = Lent::new(content.len(), noise);
        lent.all[FENCE..FENCE + content.len()].copy_from_slice(content);
        Lent { before: lent.all.clone(), ..lent }
    }

    pub fn len(&self) -> usize {
        self.all.len() - 2 * FENCE
    }

    pub fn lend(&mut self) -> *mut T {
        self.all[FENCE..].as_mut_ptr()
    }

    pub fn content(&self) -> &[T] {
        &self.all[FENCE..self.all.len() - FENCE]
    }

    /// Not one element is other than before the call.
    pub fn untouched(&self) -> bool {
        self.all == self.before
    }

    /// Nothing beside the buffer is other than before the call.
    pub fn fenced(&self) -> bool {
        let end = self.all.len() - FENCE;
        self.all[..FENCE] == self.before[..FENCE] && self.all[end..] == self.before[end..]
    }

    /// No element from this place on, beside the buffer too, is other than before the call, and none in front of it.
    pub fn kept_from(&self, place: usize) -> bool {
        let at = FENCE + place;
        self.all[..FENCE] == self.before[..FENCE] && self.all[at..] == self.before[at..]
    }

    /// Every element is zero.
    pub fn zero(&self) -> bool {
        self.content().iter().all(|x| *x == T::default())
    }
}

/// The scratch that document 01 asks for, in doubles and in indices.
pub fn scratch_sizes(m: usize, n: usize) -> (u128, u128) {
    let (m, n) = (m as u128, n as u128);
    (m * (n + 1) + m * m + 16 * m + 8 * (n + 1), 8 * (m + n + 1))
}

/// The two scratches of a call, the doubles by their bits.
pub struct Scratch {
    pub numbers: Lent<u64>,
    pub indices: Lent<u32>,
}

impl Scratch {
    pub fn new(numbers: usize, indices: usize, chance: &mut Chance) -> Scratch {
        Scratch { numbers: Lent::new(numbers, || chance.word()), indices: Lent::new(indices, || chance.word() as u32) }
    }

    /// Exactly what the sizes ask for, and now and then more.
    pub fn enough(m: usize, n: usize, chance: &mut Chance) -> Scratch {
        let (numbers, indices) = scratch_sizes(m, n);
        let (more, further) = if chance.once_in(3) { (chance.below(40), chance.below(40)) } else { (0, 0) };
        Scratch::new(numbers as usize + more, indices as usize + further, chance)
    }

    pub fn untouched(&self) -> bool {
        self.numbers.untouched() && self.indices.untouched()
    }

    /// All zero, and nothing beside it touched: what an accepted call leaves.
    pub fn wiped(&self) -> bool {
        self.numbers.zero() && self.indices.zero() && self.numbers.fenced() && self.indices.fenced()
    }
}
