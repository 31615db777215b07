// needs: knob_gaussian knob_gaussian_2 knob_sparsify_bits knob_sparsify_within_bits knob_thin_bits knob_discrepancy_coloring_bits knob_max_margin_change_bits knob_turned_words_bits knob_sparsify knob_sparsify_within knob_discrepancy_coloring knob_max_margin_change knob_turned_words
//! Votes as bits: thinnings, colourings, the change of margins and turned words against the original's on the expanded matrix, and the calls
//! on doubles beside them; every refusal against tables written here. What is lent stands between noise that no call may touch, the
//! bits too, and what is read beyond them would change an answer. Argument: the folder of archived ensembles.

#[path = "shared/bits_calls.rs"]
mod bits_calls;
#[path = "shared/chance.rs"]
mod chance;
#[path = "bits/coloring.rs"]
mod coloring;
#[path = "shared/coloring_call.rs"]
mod coloring_call;
#[path = "shared/domain.rs"]
mod domain;
#[path = "shared/draws.rs"]
mod draws;
#[path = "shared/faces.rs"]
mod faces;
#[path = "shared/jobs.rs"]
mod jobs;
#[path = "shared/lent.rs"]
mod lent;
#[path = "shared/margin_calls.rs"]
mod margin_calls;
#[path = "bits/margins.rs"]
mod margins;
#[path = "shared/matrices.rs"]
mod matrices;
#[path = "shared/original.rs"]
mod original;
#[path = "shared/packed.rs"]
mod packed;
#[path = "shared/tally.rs"]
mod tally;
#[path = "bits/thinning.rs"]
mod thinning;
#[path = "shared/thinning_calls.rs"]
mod thinning_calls;
#[path = "shared/watch.rs"]
mod watch;

use chance::Chance;
use coloring::Colorings;
use margins::Changes;
use tally::{end, Tally};
use thinning::Thinnings;

fn main() {
    let folder = std::env::args().nth(1).expect("the folder of archived ensembles");
    let mut chance = Chance::new("bits", 11);
    let (mut thinnings, mut colorings, mut changes) = (Thinnings::new(), Colorings::new(), Changes::new());
    thinnings.all(&folder, &mut chance);
    colorings.all(&mut chance);
    changes.all(&mut chance);
    thinnings.domain.tell();
    colorings.tell();
    let all: Vec<&Tally> = thinnings.tallies().into_iter().chain(colorings.tallies()).chain(changes.tallies()).collect();
    end(&all)
}
