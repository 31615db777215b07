"""The thinning of an ensemble's weights."""
from __future__ import annotations

from ctypes import byref
from dataclasses import dataclass
from typing import NamedTuple, Optional, SupportsFloat, SupportsIndex

import numpy as np
from numpy.typing import ArrayLike, NDArray

from ._archive import Answer, call_of
from ._lent import lent, margins_of, scratch, vector, word
from ._refusal import check


class Stage(NamedTuple):
    """A stage of a path: how many hypotheses it leaves, and how far the worst word's margin has moved."""

    nonzeros: int
    change: float


@dataclass(frozen=True, eq=False)
class Thinned:
    """The answer to an accepted job."""

    weights: NDArray[np.float64]
    """The weights, one for each hypothesis. Their magnitudes sum to 1, but for rounding."""
    kept: NDArray[np.intp]
    """The hypotheses whose weight is not 0, rising."""
    stage: int
    """The stage returned: 0 the normalised weights, and one more with each pass that was kept."""
    nonzeros: int
    """How many weights are not 0."""
    change: float
    """The largest change of a word's margin from the normalised weights to those returned."""
    directions: int
    """How many directions all passes drew, a pass that was tried and discarded among them."""
    sweeps: int
    """How many sweeps local search made in all passes, that pass among them too."""
    path: tuple[Stage, ...]
    """Every stage from 0 to the one returned."""


def path_of(answer: Answer) -> tuple[Stage, ...]:
    """Every stage of an accepted answer from 0 to the one returned."""
    stages = answer.stage + 1
    return tuple(Stage(*stage) for stage in zip(answer.path_nonzeros[:stages], answer.path_change[:stages]))


def one_rule(target: Optional[SupportsIndex], within: Optional[SupportsFloat], cap: Optional[SupportsIndex]) -> None:
    """Raises where these name no rule."""
    if (target is None) == (within is None):
        raise TypeError("give target or within, and not both")
    if cap is not None and within is None:
        raise TypeError("a cap stands beside within")


def thin(
    margins: ArrayLike,
    weights: ArrayLike,
    *,
    target: Optional[SupportsIndex] = None,
    within: Optional[SupportsFloat] = None,
    cap: Optional[SupportsIndex] = None,
    seed: SupportsIndex = 0,
    edition: SupportsIndex = 1,
) -> Thinned:
    """Thins weights.

    With `target`, the first stage with at most so many hypotheses. With `within`, the last stage before the first that moves a word's
    margin by more, or the one with a single hypothesis; with a `cap` beside it passes go on until at most so many are left, even where
    the change is exceeded, and from there while stages measure within it again. Exactly one of `target` and `within` is given. The draws
    start at `seed` and are those of `edition` 1 or 2.

    Margins that are all 1 or -1, or bools, true for 1 and false for -1, are lent as one bit each, and give the same bits of the answer.

    Raises `Refusal`, which has a number, where the library refuses the job.
    """
    one_rule(target, within, cap)
    entries, given = margins_of(margins), vector(weights, "weights")
    output = np.empty(entries.hypotheses)
    places, indices = scratch(entries.words, entries.hypotheses)
    answer = Answer()
    first = (byref(answer), *entries.lent(), *lent(given), word(seed, "seed"), word(edition, "edition", 32))
    last = (*lent(output), *lent(places), *lent(indices))
    if target is not None:
        call_of("knob_sparsify", entries.form)(*first, word(target, "target"), *last)
    else:
        capped = cap is not None
        limits = (float(within), int(capped), word(cap, "cap") if capped else 0)
        call_of("knob_sparsify_within", entries.form)(*first, *limits, *last)
    check(answer.number)
    return Thinned(
        weights=output,
        kept=np.flatnonzero(output),
        stage=answer.stage,
        nonzeros=answer.nonzeros,
        change=answer.change,
        directions=answer.directions,
        sweeps=answer.sweeps,
        path=path_of(answer),
    )
