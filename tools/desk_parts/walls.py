"""The two walls of a band in its outer loop. The strip begins with the lower ring at its least u,
runs to one turn on, goes up the first wall there and comes down the second where it began."""

import math

from .real import TAU


def walls(result):
    """Each wall as the numbers of its corners, its two ends among them: the one at the greatest u,
    then the one at the least. Empty off path 1, and where the loop shows none."""
    us = [u for u, _ in result.outer.uv]
    if result.path != 1:
        return []
    far = max(runs_at(us, us[0] + TAU), key=len, default=[])
    near = next((run for run in runs_at(us, us[0]) if 0 in run), [])
    # Corner 0 ends the second wall; what follows it is the lower ring.
    near = near[: near.index(0) + 1] if near else []
    return [run for run in (far, near) if len(run) > 1]


def runs_at(us, value):
    """The stretches of successive corners at this u, read round."""
    n = len(us)
    here = [math.isclose(u, value, rel_tol=0.0, abs_tol=1e-9) for u in us]
    if all(here):
        return []
    runs = []
    for start in (i for i in range(n) if here[i] and not here[i - 1]):
        run = [start]
        while here[(run[-1] + 1) % n]:
            run.append((run[-1] + 1) % n)
        runs.append(run)
    return runs
