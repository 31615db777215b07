"""Votes as bits: how they are packed, which arrays are, and that every answer is that of the doubles."""
import numpy as np
import pytest

from knobthistle import Refusal, _lent, max_margin_change, thin, turned_words
from knobthistle._archive import library
from knobthistle._lent import margins_of, packed
from knobthistle._refusal import check


def votes(words, hypotheses, chance):
    return chance.integers(0, 2, (words, hypotheses)).astype(bool)


def forms(yes):
    """The same votes in every form that is taken for them."""
    signs = np.where(yes, 1, -1)
    return [yes, np.asfortranarray(yes), signs, signs.astype(np.int8), signs.astype(np.float32), signs.astype(float),
            np.asfortranarray(signs.astype(float)), signs.tolist(), np.repeat(yes, 2, axis=0)[::2]]


def test_packed_by_hand():
    lonely = np.ones((9, 3), bool)
    lonely[0, 0] = lonely[7, 1] = lonely[8, 2] = False
    # A bit is set for a no; word 0 is the lowest, and a hypothesis begins on a byte.
    assert packed(lonely).tolist() == [[0x01, 0x00], [0x80, 0x00], [0x00, 0x01]]
    assert packed(np.zeros((9, 1), bool)).tolist() == [[0xFF, 0x01]]
    assert packed(np.zeros((8, 2), bool)).tolist() == [[0xFF], [0xFF]]
    assert packed(np.zeros((0, 2), bool)).size == 0


def test_which_arrays_are_votes():
    yes = votes(19, 6, np.random.default_rng(2))
    for form in forms(yes):
        taken = margins_of(form)
        assert (taken.form, taken.words, taken.hypotheses) == ("_bits", 19, 6)
        assert taken.array.flags.c_contiguous and taken.array.tolist() == packed(yes).tolist()
    for other in (0.0, 0.5, np.nan, np.inf, np.nextafter(1, 2), -np.nextafter(1, 2)):
        for place in ((0, 0), (18, 5), (7, 3)):
            spoiled = np.where(yes, 1.0, -1.0)
            spoiled[place] = other
            assert margins_of(spoiled).form == ""
    assert margins_of(np.zeros((3, 2), np.uint8)).form == "" and margins_of(np.ones((3, 2), np.uint8)).form == "_bits"


def answers(margins, weights, after, thresholds, seed, rule):
    thinned = thin(margins, weights, seed=seed, edition=1 + seed % 2, **rule)
    counts = (thinned.stage, thinned.nonzeros, thinned.directions, thinned.sweeps)
    change = np.float64(max_margin_change(margins, weights, after)).tobytes()
    return thinned.weights.tobytes(), thinned.path, counts, change, turned_words(margins, weights, after, thresholds)


def test_answers_of_the_doubles(monkeypatch):
    chance = np.random.default_rng(3)
    rules = ({"target": 4}, {"within": 0.3}, {"within": 0.05, "cap": 5})
    for words in range(1, 71):
        hypotheses = int(chance.integers(1, 24))
        yes = votes(words, hypotheses, chance)
        job = (chance.uniform(-1, 1, hypotheses), chance.uniform(-1, 1, hypotheses), chance.uniform(-1, 1, words), words, rules[words % 3])
        with monkeypatch.context() as doubles:
            doubles.setattr(_lent, "signs", lambda array: None)
            assert margins_of(yes).form == ""
            expected = answers(yes, *job)
        for form in forms(yes):
            assert answers(form, *job) == expected


@pytest.mark.parametrize(
    "number, arguments",
    [
        (1, dict(within=-0.5)),
        (12, dict(within=float("inf"))),
        (2, dict(target=0)),
        (13, dict(target=1, edition=3)),
        (3, dict(margins=np.ones((1, 257), bool), weights=np.ones(257), target=1)),
        (3, dict(margins=np.ones((4097, 1), bool), weights=np.ones(1), target=1)),
        (4, dict(weights=[1.0], target=1)),
        (5, dict(margins=np.ones((0, 2), bool), target=1)),
        (5, dict(margins=np.ones((2, 0), bool), weights=[], target=1)),
        (8, dict(weights=[1.0, np.inf], target=1)),
        (9, dict(weights=[0.0, 0.0], target=1)),
    ],
)
def test_refusals(number, arguments):
    with pytest.raises(Refusal, match=f"^refused {number}: "):
        thin(**{"margins": np.array([[True, True], [True, False]]), "weights": [1.0, 3.0], **arguments})


def test_refusals_of_the_others():
    yes = np.array([[True, True], [True, False]])
    for number, call in [
        (4, lambda: max_margin_change(yes, [1.0], [1.0, 0.0])),
        (3, lambda: max_margin_change(np.ones((1, 257), bool), np.ones(257), np.ones(257))),
        (4, lambda: turned_words(yes, [1.0, 0.0], [1.0, 0.0], [0.0])),
        (8, lambda: turned_words(yes, [1.0, 0.0], [1.0, 0.0], [0.0, np.inf])),
    ]:
        with pytest.raises(Refusal) as caught:
            call()
        assert caught.value.number == number


def test_a_spare_bit():
    """No array gives one; the library's own call does."""
    from ctypes import byref, c_double

    bits, weights, change = np.array([0b00, 0b110], np.uint8), np.ones(2), c_double(7.0)
    number = library.knob_max_margin_change_bits(*_lent.lent(bits), 2, 2, *_lent.lent(weights), *_lent.lent(weights), byref(change))
    assert (number, change.value) == (15, 0.0)
    with pytest.raises(Refusal, match="^refused 15: a bit behind"):
        check(number)
