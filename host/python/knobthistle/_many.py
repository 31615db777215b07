"""Many jobs, here or over an executor."""
from __future__ import annotations

from concurrent.futures import Executor
from typing import Any, Iterable, Iterator, Mapping, Optional

from ._lent import margins_of
from ._thinning import Thinned, thin

Job = Mapping[str, Any]

ENOUGH = 400_000
"""So many margins are worth sending: to hand them over takes little beside thinning them."""


def _thin_run(run: list[Job]) -> list[Thinned]:
    return [thin(**job) for job in run]


def _runs(jobs: list[Job]) -> Iterator[list[Job]]:
    """Jobs in runs of neighbours that are worth sending, but an eighth of all at most, with margins as they are lent: votes are far less so."""
    most = max(1, len(jobs) // 8)
    run: list[Job] = []
    margins = 0
    for job in jobs:
        entries = margins_of(job["margins"])
        run.append({**job, "margins": entries})
        margins += entries.words * entries.hypotheses
        if len(run) == most or margins >= ENOUGH:
            yield run
            run, margins = [], 0
    if run:
        yield run


def thin_many(jobs: Iterable[Job], executor: Optional[Executor] = None) -> list[Thinned]:
    """Does jobs, each a mapping of `thin`'s arguments by their names, and gives the answers in the jobs' order.

    Without an executor they are done here, one after the other. With one, of `concurrent.futures` or of a Dask cluster
    (`client.get_executor()`), they are done wherever it does them, small ones several at a time. The answers are the same: equal arguments
    give equal bits everywhere. The first job that is refused raises its `Refusal`.

        with ProcessPoolExecutor(2) as executor:
            answers = thin_many([dict(margins=a, weights=w, target=4), dict(margins=b, weights=v, within=0.05)], executor)
    """
    if executor is None:
        return _thin_run(list(jobs))
    sent = []
    try:
        # Each run is sent as soon as it is packed, so that the next is packed while this one is done.
        for run in _runs(list(jobs)):
            sent.append(executor.submit(_thin_run, run))
        return [answer for future in sent for answer in future.result()]
    finally:
        for future in sent:
            future.cancel()
