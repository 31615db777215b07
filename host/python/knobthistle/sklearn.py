"""Thins a fitted ensemble of scikit-learn."""
from __future__ import annotations

import copy
from typing import Any

import numpy as np
from numpy.typing import ArrayLike
from sklearn.ensemble import AdaBoostClassifier

from ._thinning import thin


def thin_ensemble(clf: AdaBoostClassifier, X: Any, y: ArrayLike, **job: Any) -> AdaBoostClassifier:
    """Gives a classifier with the estimators that are kept and their weights. Its `thinned_` is the library's answer, a `Thinned`.

    `clf` is fitted, has two classes, and votes by SAMME, so that every estimator says one class or the other. The margins are those of
    its estimators on the words X with the labels y: 1 where an estimator is right and -1 where it is wrong. `job` is what `thin` takes:
    `target`, or `within` and perhaps a `cap`; a `seed`, an `edition`. On X the new classifier's decision values differ from the old one's by no more
    than the answer's `change`, but for rounding. The old classifier stays as it was.
    """
    estimators, weights = _votes(clf)
    labels = np.asarray(y)
    if not np.isin(labels, clf.classes_).all():
        raise ValueError(f"y has labels that the classifier has not learnt: it knows {list(clf.classes_)}")
    right = np.column_stack([estimator.predict(X) == labels for estimator in estimators])
    answer = thin(right, weights, **job)
    thinned = copy.copy(clf)
    thinned.n_estimators = answer.nonzeros
    thinned.estimators_ = [estimators[j] for j in answer.kept]
    thinned.estimator_weights_ = answer.weights[answer.kept]
    thinned.estimator_errors_ = np.asarray(clf.estimator_errors_)[answer.kept]
    thinned.thinned_ = answer
    return thinned


def _votes(clf: AdaBoostClassifier) -> tuple[list[Any], np.ndarray]:
    """The estimators and their weights, of a classifier that we can thin."""
    if not isinstance(clf, AdaBoostClassifier):
        raise TypeError(f"an AdaBoostClassifier is wanted, not {type(clf).__name__}")
    if not hasattr(clf, "estimators_"):
        raise ValueError("the classifier is not fitted: call fit first")
    # Since scikit-learn 1.6 SAMME is the only algorithm, and the parameter says `deprecated` or is gone.
    if getattr(clf, "algorithm", "SAMME") == "SAMME.R":
        raise ValueError('the votes of SAMME.R have no bound, so that no margin is in [-1, 1]: fit with algorithm="SAMME"')
    if len(clf.classes_) != 2:
        raise ValueError(f"{len(clf.classes_)} classes: thin one classifier for each class against the rest, as examples/digits.py does")
    estimators = list(clf.estimators_)
    weights = np.asarray(clf.estimator_weights_, dtype=np.float64)[: len(estimators)]
    if not (weights > 0).all():
        raise ValueError("a weight is not above 0, so that the classifier's decision values are not its margins: fit it anew")
    return estimators, weights
