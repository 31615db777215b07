"""The archive's calls, as include/knobthistle.h has them. This is the one module that declares them.

A record is written through the first parameter, whose address is also the result: that is how C returns a record of such a size on
x86-64, and how the archive for Arm has it.
"""
from __future__ import annotations

import ctypes
import os
from ctypes import POINTER, c_double, c_size_t, c_uint32, c_uint64, c_void_p
from pathlib import Path
from typing import Any

MAX_STAGES = 9


class Answer(ctypes.Structure):
    """knob_answer."""

    _fields_ = [
        ("number", c_uint64),
        ("stage", c_uint64),
        ("nonzeros", c_uint64),
        ("change", c_double),
        ("directions", c_uint64),
        ("sweeps", c_uint64),
        ("path_nonzeros", c_uint64 * MAX_STAGES),
        ("path_change", c_double * MAX_STAGES),
    ]


# An array is a pointer and the number of its elements.
ARRAY = [c_void_p, c_size_t]
MATRIX = [*ARRAY, c_size_t, c_size_t]

# The calls that take a matrix of doubles and, with _bits at the end of their names, one of votes as bits.
OF_BOTH_FORMS: dict[str, tuple[list[Any], Any]] = {
    "knob_sparsify": ([POINTER(Answer), *MATRIX, *ARRAY, c_uint64, c_uint32, c_size_t, *ARRAY, *ARRAY, *ARRAY], c_void_p),
    "knob_sparsify_within": (
        [POINTER(Answer), *MATRIX, *ARRAY, c_uint64, c_uint32, c_double, c_uint32, c_size_t, *ARRAY, *ARRAY, *ARRAY],
        c_void_p,
    ),
    "knob_max_margin_change": ([*MATRIX, *ARRAY, *ARRAY, POINTER(c_double)], c_uint64),
    "knob_turned_words": ([*MATRIX, *ARRAY, *ARRAY, *ARRAY, POINTER(c_uint64)], c_uint64),
}

CALLS: dict[str, tuple[list[Any], Any]] = {
    "knob_version": ([], c_uint64),
    **OF_BOTH_FORMS,
    **{name + "_bits": call for name, call in OF_BOTH_FORMS.items()},
    "knob_thin_votes": (
        [POINTER(Answer), *ARRAY, *ARRAY, c_size_t, c_size_t, *ARRAY, c_uint64, c_uint32, c_uint32, c_double, c_size_t]
        + [*ARRAY, *ARRAY, *ARRAY, *ARRAY],
        c_void_p,
    ),
    "knob_moved": ([*MATRIX, *ARRAY, *ARRAY, *ARRAY, *ARRAY], c_uint64),
}


def places() -> list[Path]:
    """Where the shared object may be: where KNOBTHISTLE_LIBRARY says; beside this file; in a release; in the repository."""
    named = os.environ.get("KNOBTHISTLE_LIBRARY")
    if named:
        return [Path(named)]
    name, here = "libknobthistle.so", Path(__file__).resolve().parent
    return [here / name, here.parents[1] / "lib" / name, here.parents[2] / "target" / "lib" / name]


def opened() -> ctypes.CDLL:
    """The library, with every call declared."""
    found = next((place for place in places() if place.is_file()), None)
    if found is None:
        raise ImportError(
            "there is no libknobthistle.so: run host/shared in the repository, or name one in KNOBTHISTLE_LIBRARY; looked for "
            + ", ".join(map(str, places()))
        )
    library = ctypes.CDLL(str(found))
    for name, (arguments, result) in CALLS.items():
        call = getattr(library, name, None)
        if call is None:
            raise ImportError(f"{found} is not of this version, since it has no {name}: run host/shared anew")
        call.argtypes, call.restype = arguments, result
    return library


def call_of(name: str, form: str) -> Any:
    """A call that takes margins, for the form in which they are lent."""
    return getattr(library, name + form)


library = opened()
