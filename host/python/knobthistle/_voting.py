"""The thinning of an ensemble's weights from labels and votes."""
from __future__ import annotations

from ctypes import byref
from dataclasses import dataclass
from typing import Optional, SupportsFloat, SupportsIndex

import numpy as np
from numpy.typing import ArrayLike, NDArray

from ._archive import Answer, library
from ._lent import MAX_COLUMNS, lent, lent_matrix, matrix, scratch, signed_bytes, vector, word
from ._refusal import check
from ._thinning import Stage, one_rule, path_of


@dataclass(frozen=True, eq=False)
class Kept:
    """What an accepted job keeps, and how it came there."""

    columns: NDArray[np.uint32]
    """The hypotheses whose weight is not 0, from 0 and rising."""
    weights: NDArray[np.float64]
    """The weight of each of them."""
    stage: int
    """The stage returned: 0 the normalised weights, and one more with each pass that was kept."""
    change: float
    """The largest change of a word's margin from the normalised weights to those returned."""
    directions: int
    """How many directions all passes drew, a pass that was tried and discarded among them."""
    sweeps: int
    """How many sweeps local search made in all passes, that pass among them too."""
    path: tuple[Stage, ...]
    """Every stage from 0 to the one returned."""


def thin_votes(
    confidences: ArrayLike,
    labels: ArrayLike,
    weights: ArrayLike,
    *,
    target: Optional[SupportsIndex] = None,
    within: Optional[SupportsFloat] = None,
    cap: Optional[SupportsIndex] = None,
    seed: SupportsIndex = 0,
    edition: SupportsIndex = 1,
) -> Kept:
    """Thins weights as `thin` does on margins that are label times confidence.

    Confidences have a row for each word and a column for each hypothesis, in [-1, 1]; there is one label for each word, 1 or -1, or a
    bool, which is 1 where it is true. The rule, the seed and the edition are those of `thin`.

    Raises `Refusal`, which has a number, where the library refuses the job: 14 for a label that is neither 1 nor -1.
    """
    one_rule(target, within, cap)
    entries, signs, given = matrix(confidences), signed_bytes(labels, "labels"), vector(weights, "weights")
    # Beyond the limits the call is refused before it looks at the lists.
    hypotheses = min(entries.shape[1], MAX_COLUMNS)
    columns, kept = np.empty(hypotheses, np.uint32), np.empty(hypotheses)
    places, indices = scratch(*entries.shape)
    if target is not None:
        rule = (0, 0.0, word(target, "target"))
    elif cap is None:
        rule = (1, float(within), 0)
    else:
        rule = (2, float(within), word(cap, "cap"))
    # The labels stand between the confidences and their sizes.
    address, length, m, n = lent_matrix(entries)
    answer = Answer()
    library.knob_thin_votes(
        byref(answer), address, length, *lent(signs), m, n, *lent(given), word(seed, "seed"), word(edition, "edition", 32), *rule,
        *lent(columns), *lent(kept), *lent(places), *lent(indices),
    )
    check(answer.number)
    return Kept(
        columns=columns[: answer.nonzeros],
        weights=kept[: answer.nonzeros],
        stage=answer.stage,
        change=answer.change,
        directions=answer.directions,
        sweeps=answer.sweeps,
        path=path_of(answer),
    )
