"""The thinning of a classifier of scikit-learn."""
import numpy as np
import pytest

pytest.importorskip("sklearn")
from sklearn.datasets import load_digits, make_classification
from sklearn.ensemble import AdaBoostClassifier, RandomForestClassifier
from sklearn.tree import DecisionTreeClassifier

from knobthistle import Refusal
from knobthistle.sklearn import thin_ensemble


def fitted(seed=0, labels=(0, 1)):
    X, y = make_classification(500, 12, n_informative=6, random_state=seed)
    y = np.asarray(labels)[y]
    return AdaBoostClassifier(n_estimators=60, algorithm="SAMME", random_state=seed).fit(X, y), X, y


@pytest.mark.parametrize("job", [dict(target=8), dict(within=0.15), dict(within=0.05, cap=10), dict(target=8, seed=3)])
@pytest.mark.parametrize("labels", [(0, 1), (-1, 1), ("no", "yes")])
def test_decision_values_move_by_no_more_than_the_answer_says(job, labels):
    clf, X, y = fitted(labels=labels)
    old = clf.decision_function(X)
    thinned = thin_ensemble(clf, X, y, **job)
    answer = thinned.thinned_
    moved = np.abs(thinned.decision_function(X) - old).max()
    assert moved == pytest.approx(answer.change, abs=1e-12)
    assert len(thinned.estimators_) == len(thinned.estimator_weights_) == answer.nonzeros == thinned.n_estimators
    assert thinned.predict(X).dtype == clf.predict(X).dtype
    # The old one is as it was.
    assert len(clf.estimators_) == 60 and (clf.decision_function(X) == old).all()


def test_one_estimator_that_errs_never():
    X = np.array([[0.0], [1.0]])
    clf = AdaBoostClassifier(n_estimators=5, algorithm="SAMME").fit(X, [0, 1])
    assert len(clf.estimators_) == 1
    assert thin_ensemble(clf, X, [0, 1], target=1).predict(X).tolist() == [0, 1]


def test_what_is_turned_away():
    clf, X, y = fitted()
    with pytest.raises(ValueError, match='fit with algorithm="SAMME"'):
        thin_ensemble(AdaBoostClassifier(n_estimators=5, algorithm="SAMME.R").fit(X, y), X, y, target=1)
    digits, digit = load_digits(return_X_y=True)
    with pytest.raises(ValueError, match="one classifier for each class against the rest"):
        thin_ensemble(AdaBoostClassifier(n_estimators=5, algorithm="SAMME").fit(digits, digit), digits, digit, target=1)
    with pytest.raises(ValueError, match="not fitted"):
        thin_ensemble(AdaBoostClassifier(algorithm="SAMME"), X, y, target=1)
    with pytest.raises(TypeError, match="RandomForestClassifier"):
        thin_ensemble(RandomForestClassifier(n_estimators=2).fit(X, y), X, y, target=1)
    with pytest.raises(ValueError, match="not learnt"):
        thin_ensemble(clf, X, y + 5, target=1)
    with pytest.raises(Refusal):
        thin_ensemble(clf, X, y, target=0)
    many = AdaBoostClassifier(DecisionTreeClassifier(max_depth=1), n_estimators=300, algorithm="SAMME", random_state=0).fit(X, y)
    if len(many.estimators_) > 256:
        with pytest.raises(Refusal, match="refused 3"):
            thin_ensemble(many, X, y, target=1)
