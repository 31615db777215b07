//! What the original's colourings tell while they run: whether a step froze nothing, and whether a NaN arose. These are the runs
//! outside the domain in which the original decides; for the first of them document 01 adds a rule, which can be turned on here.

use std::cell::Cell;

/// What happened since `start`.
#[derive(Clone, Copy, Default)]
pub struct Seen {
    pub froze_nothing: bool,
    pub nan: bool,
    /// How many directions were drawn, how many of them were broken off, and the largest entry of one.
    pub directions: u64,
    pub broken_off: u64,
    pub largest: f64,
    /// How many sweeps local search made.
    pub sweeps: u64,
}

/// The panic of a colouring that drew far more directions than one that freezes a coordinate a step can.
pub struct Endless;

thread_local! {
    static SEEN: Cell<Seen> = Cell::new(Seen::default());
    /// Document 01's rule: a step that freezes nothing ends its phase.
    static RULE_ADDED: Cell<bool> = Cell::new(false);
    /// The columns of the colouring, and the directions that it drew.
    static SIZE: Cell<(usize, usize)> = Cell::new((0, 0));
    /// The frozen coordinates when the phase's last direction was drawn.
    static FROZEN: Cell<Option<usize>> = Cell::new(None);
}

pub fn start(rule_added: bool) {
    SEEN.set(Seen::default());
    RULE_ADDED.set(rule_added);
}

pub fn seen() -> Seen {
    SEEN.get()
}

/// A colouring of so many columns begins.
pub fn coloring(columns: usize) {
    SIZE.set((columns, 0));
}

/// A phase begins.
pub fn phase(x: &[f64], ax: &[f64]) {
    FROZEN.set(None);
    numbers(x);
    numbers(ax);
}

/// A direction is about to be drawn, with so many coordinates frozen in this phase. True where the phase is to end instead.
pub fn direction(frozen: usize, x: &[f64], ax: &[f64]) -> bool {
    numbers(x);
    numbers(ax);
    if FROZEN.replace(Some(frozen)) == Some(frozen) {
        SEEN.set(Seen { froze_nothing: true, ..SEEN.get() });
        if RULE_ADDED.get() {
            return true;
        }
    }
    let (columns, drawn) = SIZE.get();
    if drawn > 20 * columns + 200 {
        std::panic::panic_any(Endless);
    }
    SIZE.set((columns, drawn + 1));
    false
}

/// A direction was projected, and zeroed at the frozen places.
pub fn directed(g: &[f64]) {
    let seen = SEEN.get();
    let largest = g.iter().fold(seen.largest, |most, x| most.max(x.abs()));
    SEEN.set(Seen { directions: seen.directions + 1, largest, ..seen });
    numbers(g);
}

/// Too little was left of a direction.
pub fn broken_off() {
    let seen = SEEN.get();
    SEEN.set(Seen { broken_off: seen.broken_off + 1, ..seen });
}

/// Local search sweeps.
pub fn sweep() {
    let seen = SEEN.get();
    SEEN.set(Seen { sweeps: seen.sweeps + 1, ..seen });
}

/// What is left of a phase may be rounded.
pub fn rounding(x: &[f64], ax: &[f64]) {
    numbers(x);
    numbers(ax);
}

/// A number on its way.
pub fn number(x: f64) -> f64 {
    if x.is_nan() {
        SEEN.set(Seen { nan: true, ..SEEN.get() });
    }
    x
}

fn numbers(list: &[f64]) {
    if list.iter().any(|x| x.is_nan()) {
        number(f64::NAN);
    }
}
