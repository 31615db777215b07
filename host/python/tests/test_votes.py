"""Thinning from labels and votes: answers against those of `thin` on margins that are formed here, and refusals."""
import numpy as np
import pytest

from knobthistle import Refusal, thin, thin_votes

CONFIDENCES = np.array([[1.0, 1.0], [-1.0, 1.0]])


def test_a_case_by_hand():
    kept = thin_votes(CONFIDENCES, [1, -1], [1.0, 3.0], within=0.5)
    assert (kept.columns.tolist(), kept.weights.tolist(), kept.stage, kept.change) == ([1], [1.0], 1, 0.5)
    assert kept.path == ((2, 0.0), (1, 0.5))


@pytest.mark.parametrize("rule", [{"target": 5}, {"within": 0.2}, {"within": 0.1, "cap": 6}])
@pytest.mark.parametrize("edition", [1, 2])
def test_margins_formed_here(rule, edition):
    chance = np.random.default_rng(8)
    for seed in range(10):
        confidences, weights = np.asfortranarray(chance.uniform(-1, 1, (30, 40))), chance.uniform(-1, 1, 40)
        labels = chance.choice([-1, 1], 30)
        expected = thin(labels[:, None] * confidences, weights, seed=seed, edition=edition, **rule)
        for form in (labels, labels.tolist(), labels.astype(np.int8), labels.astype(float), labels > 0, np.repeat(labels, 2)[::2]):
            kept = thin_votes(confidences, form, weights, seed=seed, edition=edition, **rule)
            assert kept.columns.tolist() == expected.kept.tolist()
            assert kept.weights.tobytes() == expected.weights[expected.kept].tobytes()
            assert (kept.stage, kept.change, kept.path) == (expected.stage, expected.change, expected.path)
            assert (kept.directions, kept.sweeps) == (expected.directions, expected.sweeps)


@pytest.mark.parametrize(
    "number, arguments",
    [
        (14, dict(labels=[1, 0])),
        (14, dict(labels=[2, 1], confidences=5 * CONFIDENCES)),
        (14, dict(labels=[-128, 1], weights=[np.nan, 1.0])),
        (4, dict(labels=[1])),
        (4, dict(labels=[1, 0, 1])),
        (4, dict(weights=[1.0])),
        (7, dict(confidences=2 * CONFIDENCES, weights=[np.nan, 1.0])),
        (8, dict(weights=[np.nan, 1.0])),
        (9, dict(weights=[0.0, 0.0])),
        (5, dict(confidences=np.zeros((0, 2)), labels=[])),
        (5, dict(confidences=np.zeros((2, 0)), weights=[])),
        (3, dict(confidences=np.zeros((2, 257)), weights=np.ones(257))),
        (2, dict(target=0, labels=[0])),
        (13, dict(edition=3, labels=[0])),
    ],
)
def test_refusals(number, arguments):
    with pytest.raises(Refusal, match=f"^refused {number}: ") as caught:
        thin_votes(**{"confidences": CONFIDENCES, "labels": [1, -1], "weights": [1.0, 3.0], "target": 1, **arguments})
    assert caught.value.number == number


@pytest.mark.parametrize("labels", [[1.5, 1], [1, 257], [1, np.nan], [[1, -1]]])
def test_what_is_no_list_of_labels(labels):
    with pytest.raises(ValueError) as caught:
        thin_votes(CONFIDENCES, labels, [1.0, 3.0], target=1)
    assert not isinstance(caught.value, Refusal)


@pytest.mark.parametrize("rule", [{}, dict(target=1, within=0.5), dict(target=1, cap=1)])
def test_what_is_no_rule(rule):
    with pytest.raises(TypeError):
        thin_votes(CONFIDENCES, [1, -1], [1.0, 3.0], **rule)
