"""Many jobs: the same answers in the same order, wherever they are done."""
from concurrent.futures import ProcessPoolExecutor, ThreadPoolExecutor

import numpy as np
import pytest

from knobthistle import Refusal, thin_many


def jobs(count=12):
    chance = np.random.default_rng(1)
    for k in range(count):
        margins = chance.uniform(-1, 1, (60, 30))
        # Some are votes of 1 and -1, which are sent as bools.
        yield dict(margins=margins if k % 3 else np.sign(margins), weights=chance.uniform(0.1, 1, 30), target=3 + k % 5, seed=k)


def bits(answers):
    return [(answer.weights.tobytes(), answer.path) for answer in answers]


def test_here_threads_and_processes():
    expected = bits(thin_many(jobs()))
    assert len(set(expected)) == len(expected) == 12
    for kind in (ThreadPoolExecutor, ProcessPoolExecutor):
        with kind(2) as executor:
            assert bits(thin_many(jobs(), executor)) == expected
    assert thin_many([]) == []


def test_a_refusal_comes_back_from_a_process():
    with ProcessPoolExecutor(2) as executor, pytest.raises(Refusal) as caught:
        thin_many([*jobs(2), dict(margins=[[2.0]], weights=[1.0], target=1)], executor)
    assert caught.value.number == 7


def test_a_cluster_of_two_workers():
    distributed = pytest.importorskip("distributed")
    with distributed.LocalCluster(n_workers=2, threads_per_worker=1, processes=True, dashboard_address=None) as cluster:
        with distributed.Client(cluster) as client:
            assert len(client.scheduler_info()["workers"]) == 2
            assert bits(thin_many(jobs(), client.get_executor())) == bits(thin_many(jobs()))
