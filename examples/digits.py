#!/usr/bin/env python3
"""Trains ten ensembles of sixty stumps on scikit-learn's digits, one for each digit against the rest, thins them side by side, prints what
was lost on words held back, and draws the ten paths.

    PYTHONPATH=host/python python3 examples/digits.py [PICTURE]

It needs numpy, scikit-learn and matplotlib. The picture is digits.png if no other is named.
"""
from __future__ import annotations

import sys
from concurrent.futures import ProcessPoolExecutor

import matplotlib

matplotlib.use("Agg")
import matplotlib.pyplot as plt
import numpy as np
from sklearn.datasets import load_digits
from sklearn.ensemble import AdaBoostClassifier
from sklearn.model_selection import train_test_split

from knobthistle import thin_many

WITHIN, CAP = 0.5, 15


def votes(clf: AdaBoostClassifier, X: np.ndarray) -> np.ndarray:
    """What each stump says of each word: true where it says that it is the digit."""
    return np.column_stack([stump.predict(X) for stump in clf.estimators_])


def right(weights: np.ndarray, said: np.ndarray, truth: np.ndarray) -> float:
    """The share of words that an ensemble judges rightly."""
    return float(np.mean((np.where(said, 1.0, -1.0) @ weights > 0) == truth))


def main() -> None:
    picture = sys.argv[1] if len(sys.argv) > 1 else "digits.png"
    X, digits = load_digits(return_X_y=True)
    seen, held, of_seen, of_held = train_test_split(X, digits, test_size=0.4, random_state=0, stratify=digits)
    ensembles = [AdaBoostClassifier(n_estimators=60, algorithm="SAMME", random_state=0).fit(seen, of_seen == digit) for digit in range(10)]
    # A margin is positive where a stump is right.
    jobs = [
        dict(margins=votes(clf, seen) == (of_seen == digit)[:, None], weights=clf.estimator_weights_, within=WITHIN, cap=CAP)
        for digit, clf in enumerate(ensembles)
    ]
    with ProcessPoolExecutor(2) as executor:
        answers = thin_many(jobs, executor)

    print(f"{len(seen)} words seen, {len(held)} held back; within {WITHIN}, cap {CAP}\n")
    print("digit  kept  worst change  right before  right after  lost")
    lost = []
    for digit, (clf, answer) in enumerate(zip(ensembles, answers)):
        said, truth = votes(clf, held), of_held == digit
        before, after = right(clf.estimator_weights_, said, truth), right(answer.weights, said, truth)
        lost.append(before - after)
        print(f"{digit:5}  {answer.nonzeros:4}  {answer.change:12.4f}  {before:12.4f}  {after:11.4f}  {before - after:7.4f}")
    print(f"\nof sixty stumps {np.mean([answer.nonzeros for answer in answers]):.1f} are kept and {np.mean(lost):.4f} is lost, on average")

    figure, axes = plt.subplots(figsize=(7, 4.5))
    for digit, answer in enumerate(answers):
        left, change = zip(*answer.path)
        axes.plot(left, change, marker="o", markersize=4, label=str(digit))
    axes.axhline(WITHIN, color="black", linestyle="--", linewidth=1)
    axes.axvline(CAP, color="black", linestyle="--", linewidth=1)
    axes.set_xscale("log", base=2)
    axes.set_xticks([60, 30, 15, 8], ["60", "30", "15", "8"])
    axes.invert_xaxis()
    axes.set(xlabel="hypotheses left", ylabel="worst change of a margin", title="ten digits, stage by stage")
    axes.legend(title="digit", ncols=2, fontsize="small")
    figure.tight_layout()
    figure.savefig(picture, dpi=120)
    print(f"the paths are drawn in {picture}")


if __name__ == "__main__":
    main()
