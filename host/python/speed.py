#!/usr/bin/env python3
"""Times `thin_many` on forty ensembles here, over one process and over two, in one run, by turns; prints the best of each and how many
times as fast two are, for ensembles of a middle size and for the largest.

    PYTHONPATH=host/python python3 host/python/speed.py
"""
import time
from concurrent.futures import ProcessPoolExecutor

import numpy as np

from knobthistle import thin_many

ENSEMBLES, ROUNDS = 40, 4


def main() -> None:
    chance = np.random.default_rng(0)
    for words, hypotheses in (2000, 120), (4096, 256):
        jobs = [
            dict(margins=np.asfortranarray(chance.choice([-1.0, 1.0], (words, hypotheses))), weights=chance.uniform(0.1, 1, hypotheses), target=4, seed=k)
            for k in range(ENSEMBLES)
        ]
        expected = [answer.weights.tobytes() for answer in thin_many(jobs)]
        best = {}
        with ProcessPoolExecutor(1) as one, ProcessPoolExecutor(2) as two:
            for _ in range(ROUNDS):
                for way, executor in (("here", None), ("one process", one), ("two", two)):
                    began = time.perf_counter()
                    answers = thin_many(jobs, executor)
                    took = time.perf_counter() - began
                    assert [answer.weights.tobytes() for answer in answers] == expected
                    best[way] = min(took, best.get(way, took))
        times = ", ".join(f"{way} {took:.3f} s" for way, took in best.items())
        ratios = f"{best['here'] / best['two']:.2f} and {best['one process'] / best['two']:.2f}"
        print(f"{ENSEMBLES} ensembles of {hypotheses} on {words} words: {times}; two are {ratios} times as fast")


if __name__ == "__main__":
    main()
