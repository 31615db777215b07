"""What a change of weights does to the margins."""
from __future__ import annotations

from ctypes import byref, c_double, c_uint64
from dataclasses import dataclass
from typing import Optional

import numpy as np
from numpy.typing import ArrayLike, NDArray

from ._archive import call_of, library
from ._lent import MAX_ROWS, lent, lent_matrix, margins_of, matrix, vector
from ._refusal import check


def max_margin_change(margins: ArrayLike, before: ArrayLike, after: ArrayLike) -> float:
    """The largest change of a word's margin when the weights `before` are replaced by `after`, both used as given. Margins that are all 1
    or -1, or bools, true for 1, are lent as one bit each, as `thin` lends them."""
    entries, old, new = margins_of(margins), vector(before, "before"), vector(after, "after")
    change = c_double()
    check(call_of("knob_max_margin_change", entries.form)(*entries.lent(), *lent(old), *lent(new), byref(change)))
    return change.value


def turned_words(margins: ArrayLike, before: ArrayLike, after: ArrayLike, thresholds: Optional[ArrayLike] = None) -> int:
    """How many words turn: those whose margin is above their threshold by `before` and not by `after`, or by `after` and not by
    `before`. There is one threshold for each word; without `thresholds` each is 0. Margins that are all 1 or -1, or bools, true for 1, are
    lent as one bit each, as `thin` lends them."""
    entries, old, new = margins_of(margins), vector(before, "before"), vector(after, "after")
    limits = np.zeros(entries.words) if thresholds is None else vector(thresholds, "thresholds")
    count = c_uint64()
    check(call_of("knob_turned_words", entries.form)(*entries.lent(), *lent(old), *lent(new), *lent(limits), byref(count)))
    return count.value


@dataclass(frozen=True, eq=False)
class Moved:
    """Every word's change, by magnitude from the largest down, the smaller row first where two are equal."""

    rows: NDArray[np.uint32]
    """The words, each once."""
    changes: NDArray[np.float64]
    """The change of each of them, signed."""


def moved(margins: ArrayLike, before: ArrayLike, after: ArrayLike) -> Moved:
    """Which word moved when the weights `before` are replaced by `after`, both used as given and at most 1 in magnitude."""
    entries, old, new = matrix(margins), vector(before, "before"), vector(after, "after")
    # Beyond the limits the call is refused before it looks at the lists.
    words = min(entries.shape[0], MAX_ROWS)
    rows, changes = np.empty(words, np.uint32), np.empty(words)
    check(library.knob_moved(*lent_matrix(entries), *lent(old), *lent(new), *lent(rows), *lent(changes)))
    return Moved(rows, changes)
