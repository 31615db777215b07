//! Runs the original inside or outside the domain in which it decides, and counts which.

use crate::watch;
use std::panic::{catch_unwind, AssertUnwindSafe};

/// How often the original ran, and how often outside its domain.
#[derive(Default)]
pub struct Domain {
    runs: u64,
    froze_nothing: u64,
    nan: u64,
    endless: u64,
}

/// What is expected of the archive.
pub enum Expected<T> {
    /// The original's answer.
    Original(T),
    /// Outside the original's domain: its answer with document 01's added rule, by which a step that freezes nothing ends its phase.
    Document(T),
}

impl Domain {
    /// Panics of the original are caught and counted, so they are not printed.
    pub fn new() -> Domain {
        std::panic::set_hook(Box::new(|info| {
            if !info.payload().is::<watch::Endless>() {
                eprintln!("{info}");
            }
        }));
        Domain::default()
    }

    pub fn expect<T>(&mut self, run: impl Fn() -> T) -> Expected<T> {
        self.runs += 1;
        watch::start(false);
        let first = catch_unwind(AssertUnwindSafe(&run));
        let seen = watch::seen();
        self.froze_nothing += u64::from(seen.froze_nothing);
        self.nan += u64::from(seen.nan);
        let answer = match first {
            Ok(answer) => Some(answer),
            Err(why) if why.is::<watch::Endless>() => {
                self.endless += 1;
                None
            }
            Err(why) => std::panic::resume_unwind(why),
        };
        if !seen.froze_nothing && !seen.nan {
            return Expected::Original(answer.expect("a colouring that freezes a coordinate a step ends"));
        }
        watch::start(true);
        Expected::Document(run())
    }

    pub fn tell(&self) {
        println!(
            "the original ran {} times; outside its domain: a step froze nothing {}, a NaN arose {} (it went on drawing without end {})",
            self.runs, self.froze_nothing, self.nan, self.endless
        );
    }
}
