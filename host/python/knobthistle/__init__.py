"""Thins the weights of a boosted ensemble so that every margin stays near what it was.

The work is done by the proved library; this package lends it arrays. Equal arguments give equal bits, on every machine.

    >>> import numpy as np
    >>> import knobthistle
    >>> margins = np.array([[1.0, 1.0], [1.0, -1.0]])  # two words, two hypotheses
    >>> thinned = knobthistle.thin(margins, [1.0, 3.0], within=0.5)
    >>> thinned.weights, thinned.stage, thinned.change
    (array([0., 1.]), 1, 0.5)
    >>> thinned.path
    (Stage(nonzeros=2, change=0.0), Stage(nonzeros=1, change=0.5))

Margins have a row for each word and a column for each hypothesis: the hypothesis's verdict on the word, in [-1, 1], and positive where it
is right. There are at most 256 hypotheses and 4096 words. An array of doubles in Fortran order is lent as it is; any other is copied
first. An array of bools is taken as votes, True a yes, which is 1, and False a no, which is -1. Where all margins are votes, in bools or in
any numbers that are all 1 or -1, `thin`, `max_margin_change` and `turned_words` lend them as one bit each, for the same answers to the bit.
"""
from ._many import thin_many
from ._margins import Moved, max_margin_change, moved, turned_words
from ._refusal import Refusal
from ._thinning import Stage, Thinned, thin
from ._voting import Kept, thin_votes

__all__ = ["Kept", "Moved", "Refusal", "Stage", "Thinned", "max_margin_change", "moved", "thin", "thin_many", "thin_votes", "turned_words"]
__version__ = "0.1.0"
