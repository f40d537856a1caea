"""Proves crates, several at a time, each as soon as those below it are proved. What earlier checks proved is kept."""

import shutil

from tests.support.crates import prove
from tests.support.lanes import Task, in_lanes
from tests.support.parts import NoProgram, timed


def prove_one(crates, name, jobs):
    _, seconds = timed(prove, crates, name, jobs)
    print(f"proved {name} in {seconds:.0f} s", flush=True)


def prove_stale(crates, names, lanes):
    """Proves those of these crates, and of all below them, that are new or may have changed, so many at a time. By name,
    what came of each: None, or why it isn't proved."""
    chain = crates.chain(*names)
    stale = [it for it in chain if not crates.is_fresh(it)]
    print(f"{len(stale)} of {len(chain)} crates are new or may have changed", flush=True)
    if stale and not shutil.which("rt"):
        raise NoProgram("rt, the command of the Rattle toolchain, is not on PATH")
    below = {it: [lower for lower in crates.chain(it) if lower in stale and lower != it] for it in stale}
    jobs = max(1, lanes // max(1, len(stale)))
    # First those on which the most stand.
    stale.sort(key=lambda it: -sum(it in lower for lower in below.values()))
    return in_lanes(lanes, {it: Task(below[it], lambda it=it: prove_one(crates, it, jobs)) for it in stale})
