"""The calls: worked cases, refusals, and answers against each other."""
import pickle

import numpy as np
import pytest

import knobthistle
from knobthistle import Refusal, Stage, max_margin_change, moved, thin, turned_words

TWO = np.array([[1.0, 1.0], [1.0, -1.0]])


def ensemble(words, hypotheses, seed=0):
    chance = np.random.default_rng(seed)
    return np.asfortranarray(chance.uniform(-1, 1, (words, hypotheses))), chance.uniform(0.1, 1, hypotheses)


def test_worked_cases():
    thinned = thin(TWO, [1.0, 3.0], within=0.5)
    assert thinned.weights.tolist() == [0.0, 1.0] and thinned.kept.tolist() == [1]
    assert (thinned.stage, thinned.nonzeros, thinned.change) == (1, 1, 0.5)
    assert thinned.path == (Stage(2, 0.0), Stage(1, 0.5))
    below = thin(TWO, [1.0, 3.0], within=np.nextafter(0.5, 0))
    assert (below.weights.tolist(), below.stage, below.change) == ([0.25, 0.75], 0, 0.0)
    assert thin(TWO, [1.0, 3.0], within=0, cap=1).weights.tolist() == [0.0, 1.0]
    assert thin(TWO, [-3, 1], target=1).weights.tolist() == [-1.0, 0.0]
    assert max_margin_change(TWO, [0.5, 0.5], [1.0, 0.0]) == 1.0


def test_answers_agree_with_each_other():
    for seed in range(20):
        margins, weights = ensemble(50, 40, seed)
        start = weights / sum(weights)
        for rule in ({"target": 5}, {"within": 0.2}, {"within": 0.1, "cap": 6}):
            answer = thin(margins, weights, seed=seed, **rule)
            assert answer.nonzeros == len(answer.kept) == np.count_nonzero(answer.weights)
            assert answer.path[answer.stage] == (answer.nonzeros, answer.change) and len(answer.path) == answer.stage + 1
            assert max_margin_change(margins, start, answer.weights) == pytest.approx(answer.change, abs=1e-12)
            assert np.abs(margins @ (start - answer.weights)).max() == pytest.approx(answer.change, abs=1e-12)
            listed = moved(margins, start, answer.weights)
            assert sorted(listed.rows.tolist()) == list(range(50))
            assert abs(listed.changes[0]) == pytest.approx(answer.change, abs=1e-12)
            assert (np.diff(np.abs(listed.changes)) <= 0).all()


def test_every_form_of_an_array_gives_the_same_bits():
    margins, weights = ensemble(30, 20)
    signs = margins > 0
    expected = thin(np.where(signs, 1.0, -1.0), weights, target=4)
    for form in (signs, np.where(signs, 1, -1), np.where(signs, 1, -1).astype(np.int8), np.where(signs, 1.0, -1.0).astype(">f8"),
                 np.where(signs, 1.0, -1.0).tolist(), np.where(np.repeat(signs, 2, axis=0), 1.0, -1.0)[::2]):
        answer = thin(form, weights.tolist(), target=4)
        assert answer.weights.tobytes() == expected.weights.tobytes() and answer.path == expected.path


def test_doubles_in_fortran_order_are_not_copied():
    from knobthistle._lent import matrix

    margins, _ = ensemble(30, 20)
    assert matrix(margins) is margins or matrix(margins).ctypes.data == margins.ctypes.data
    before = margins.copy()
    thin(margins, np.ones(20), target=4)
    assert (margins == before).all()


def called(m, n):
    """The matrix and the weights of host/calls.c."""
    margins = [[((j * 37 + i * i * 11 + j * i) % 9) / 4 - 1 for j in range(m)] for i in range(n)]
    return np.array(margins), np.array([(-1 if j % 5 == 2 else 1) * (1 + j * j % 11) for j in range(m)])


@pytest.mark.parametrize(
    "sizes, job, kept, change, counts",
    [
        ((24, 5), dict(target=7, seed=3), [3, 4, 5, 17, 19], 0x3FDC6EF752A04B3C, (36, 7)),
        ((24, 5), dict(target=7, seed=0xACFA9D4D29BC9012, edition=2), [3, 8, 13, 17, 18], 0x3FD10EDEAD3F798D, (35, 8)),
        ((40, 7), dict(within=0.03125, cap=12, seed=4), [3, 7, 8, 16, 17, 20, 35, 36], 0x3FD171B8E4FA2B41, (56, 11)),
    ],
)
def test_arguments_that_all_differ(sizes, job, kept, change, counts):
    """The jobs of host/calls.c: an exchange of two arguments on the way to the archive gives another answer."""
    answer = thin(*called(*sizes), **job)
    assert answer.kept.tolist() == kept and answer.stage == 2
    assert np.float64(answer.change).view(np.uint64) == change
    assert (answer.directions, answer.sweeps) == counts
    if "edition" in job:
        assert thin(*called(*sizes), **{**job, "edition": 1}).kept.tolist() != kept


def test_turned_words():
    # The margins are 1 and 0 before, and 1 and 1 after.
    assert turned_words(TWO, [0.5, 0.5], [1.0, 0.0]) == 1
    assert turned_words(TWO, [0.5, 0.5], [1.0, 0.0], [0.0, 1.0]) == 0
    assert turned_words(TWO, [0.5, 0.5], [1.0, 0.0], [-1.0, -1.0]) == 0


@pytest.mark.parametrize(
    "number, arguments",
    [
        (1, dict(within=-0.5)),
        (1, dict(within=float("nan"))),
        (12, dict(within=float("inf"))),
        (2, dict(target=0)),
        (2, dict(within=0.5, cap=0)),
        (13, dict(target=1, edition=3)),
        (3, dict(margins=np.zeros((1, 257)), weights=np.ones(257), target=1)),
        (3, dict(margins=np.zeros((4097, 1)), weights=np.ones(1), target=1)),
        (4, dict(weights=[1.0], target=1)),
        (5, dict(margins=np.zeros((0, 2)), target=1)),
        (5, dict(margins=np.zeros((2, 0)), weights=[], target=1)),
        (7, dict(margins=[[1.5, 1.0], [1.0, 1.0]], target=1)),
        (7, dict(margins=[[np.nan, 1.0], [1.0, 1.0]], target=1)),
        (8, dict(weights=[1.0, np.inf], target=1)),
        (9, dict(weights=[0.0, 0.0], target=1)),
    ],
)
def test_refusals(number, arguments):
    with pytest.raises(Refusal, match=f"^refused {number}: ") as caught:
        thin(**{"margins": TWO, "weights": [1.0, 3.0], **arguments})
    assert caught.value.number == number and isinstance(caught.value, ValueError)
    again = pickle.loads(pickle.dumps(caught.value))
    assert again.number == number and str(again) == str(caught.value)


def test_refusals_of_the_others():
    for number, call in [
        (4, lambda: max_margin_change(TWO, [1.0], [1.0, 0.0])),
        (3, lambda: max_margin_change(np.zeros((1, 257)), np.ones(257), np.ones(257))),
        (4, lambda: turned_words(TWO, [1.0, 0.0], [1.0, 0.0], [0.0])),
        (8, lambda: turned_words(TWO, [1.0, 0.0], [1.0, 0.0], [0.0, np.inf])),
        (7, lambda: moved(2 * TWO, [1.0, 0.0], [1.0, 0.0])),
        (8, lambda: moved(TWO, [1.5, 0.0], [1.0, 0.0])),
        (3, lambda: moved(np.zeros((4097, 1)), [1.0], [1.0])),
    ]:
        with pytest.raises(Refusal) as caught:
            call()
        assert caught.value.number == number


@pytest.mark.parametrize(
    "error, arguments",
    [
        (TypeError, {}),
        (TypeError, dict(target=1, within=0.5)),
        (TypeError, dict(target=1, cap=1)),
        (TypeError, dict(target=1.5)),
        (ValueError, dict(target=-1)),
        (ValueError, dict(target=1, seed=-1)),
        (ValueError, dict(target=1, seed=2**64)),
        (ValueError, dict(target=1, edition=2**32)),
        (ValueError, dict(target=1, margins=[1.0, 2.0])),
        (ValueError, dict(target=1, weights=[[1.0, 2.0]])),
        (TypeError, dict(target=1, margins=np.array([["a", "b"]]))),
        (TypeError, dict(target=1, margins=np.array([[1j, 1j]]))),
        (TypeError, dict(target=1, margins=np.array([[None, 1.0]]))),
    ],
)
def test_what_is_no_job(error, arguments):
    with pytest.raises(error) as caught:
        thin(**{"margins": TWO, "weights": [1.0, 3.0], **arguments})
    assert not isinstance(caught.value, Refusal)


def test_one_version():
    from knobthistle._archive import library

    major, minor, patch = map(int, knobthistle.__version__.split("."))
    assert library.knob_version() == (major * 1000 + minor) * 1000 + patch


def test_the_examples_of_the_docstring():
    import doctest

    assert doctest.testmod(knobthistle) == (0, 6)
