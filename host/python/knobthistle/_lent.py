"""Arrays as the archive takes them."""
from __future__ import annotations

import operator
from dataclasses import dataclass
from typing import Any, Optional, Union, SupportsIndex

import numpy as np
from numpy.typing import ArrayLike, NDArray

MAX_COLUMNS, MAX_ROWS = 256, 4096


def numbers(values: ArrayLike, what: str) -> NDArray[Any]:
    """An array of numbers or bools; what is neither is no array of ours."""
    array = np.asarray(values)
    if array.dtype.kind not in "biuf":
        # An empty list has no numbers to tell its kind by; numpy makes it one of doubles.
        raise TypeError(f"{what}: an array of numbers is wanted, not of {array.dtype}")
    return array


def signs(margins: ArrayLike) -> Optional[NDArray[np.bool_]]:
    """Margins that are all 1 or -1 as bools, an eighth of their length; none where they are not."""
    array = numbers(margins, "margins")
    if array.dtype == np.bool_:
        return array
    # Most that are no votes show it in their first row.
    for part in (array[:1], array):
        positive = part == 1
        if np.count_nonzero(positive) + np.count_nonzero(part == -1) != part.size:
            return None
    return positive


def packed(votes: NDArray[np.bool_]) -> NDArray[np.uint8]:
    """Votes as the library takes them, hypothesis after hypothesis: one bit each, set where it is false, which is -1; word 0 is the lowest
    bit, a hypothesis begins on a byte, and the bits behind its last word are 0."""
    return np.packbits(~np.ascontiguousarray(votes.T), axis=1, bitorder="little")


def matrix(margins: ArrayLike) -> NDArray[np.float64]:
    """Margins as doubles, hypothesis after hypothesis. An array that is so already is not copied."""
    array = numbers(margins, "margins")
    if array.ndim != 2:
        raise ValueError(f"margins have two axes, words and hypotheses, not {array.ndim}")
    if array.dtype == np.bool_:
        array = np.where(array, 1.0, -1.0)
    return np.require(array, np.float64, ["F", "A"])


def vector(values: ArrayLike, what: str) -> NDArray[np.float64]:
    """A list of doubles."""
    array = numbers(values, what)
    if array.ndim != 1:
        raise ValueError(f"{what}: a list is wanted, not an array of {array.ndim} axes")
    return np.require(array, np.float64, ["C", "A"])


def signed_bytes(values: ArrayLike, what: str) -> NDArray[np.int8]:
    """A list of whole numbers of eight bits, bools as 1 and -1; others have no place in one."""
    array = numbers(values, what)
    if array.ndim != 1:
        raise ValueError(f"{what}: a list is wanted, not an array of {array.ndim} axes")
    if array.dtype == np.bool_:
        array = np.where(array, 1, -1)
    if not np.isin(array, np.arange(-128, 128)).all():
        raise ValueError(f"{what}: whole numbers from -128 to 127 are wanted")
    return array.astype(np.int8)


def lent(array: NDArray[Any]) -> tuple[int, int]:
    """The address and the length of an array."""
    return array.ctypes.data, array.size


def lent_matrix(array: NDArray[np.float64]) -> tuple[int, int, int, int]:
    """The address, the length, the hypotheses and the words."""
    words, hypotheses = array.shape
    return array.ctypes.data, array.size, hypotheses, words


@dataclass(frozen=True, eq=False)
class Margins:
    """Margins in the form in which they are lent."""

    array: NDArray[Any]
    """Votes of 1 and -1 as bits, and others as doubles."""
    form: str
    """What the names of the calls that take this form have at their end."""
    words: int
    hypotheses: int

    def lent(self) -> tuple[int, int, int, int]:
        """The address, the length, the hypotheses and the words."""
        return *lent(self.array), self.hypotheses, self.words


def margins_of(margins: Union[ArrayLike, Margins]) -> Margins:
    """Margins as the library takes them: one bit each where all of them are 1 or -1, for the same answers, else doubles."""
    if isinstance(margins, Margins):
        return margins
    array = numbers(margins, "margins")
    votes = signs(array) if array.ndim == 2 else None
    entries = matrix(array) if votes is None else packed(votes)
    return Margins(entries, "" if votes is None else "_bits", *array.shape)


def scratch(words: int, hypotheses: int) -> tuple[NDArray[np.float64], NDArray[np.uint32]]:
    """What a thinning of such a matrix wants. Beyond the limits it is refused before the scratch is looked at."""
    n, m = min(words, MAX_ROWS), min(hypotheses, MAX_COLUMNS)
    return np.empty(m * (n + 1) + m * m + 16 * m + 8 * (n + 1)), np.empty(8 * (m + n + 1), np.uint32)


def word(value: SupportsIndex, what: str, bits: int = 64) -> int:
    """A whole number of so many bits."""
    number = operator.index(value)
    if not 0 <= number < 2**bits:
        raise ValueError(f"{what}: a whole number from 0 to 2^{bits} - 1 is wanted, not {number}")
    return number
