"""Checks of crates in lanes: several at the same time, each as soon as what it rests on is done."""

import os
from concurrent.futures import FIRST_COMPLETED, ThreadPoolExecutor, wait
from typing import Callable, NamedTuple

from tests.support.parts import NoProgram

# What a check takes at most, in bytes.
MEMORY_OF_A_CHECK = 5_000_000_000


class Task(NamedTuple):
    """Something to do, and the names of what has to be done before. What can't be done raises NoProgram."""

    after: list
    act: Callable


def lanes():
    """How many checks may run at the same time: a processor each, and as many as memory holds."""
    with open("/proc/meminfo", encoding="ascii") as file:
        free = next(int(it.split()[1]) * 1024 for it in file if it.startswith("MemAvailable"))
    return max(1, min(len(os.sched_getaffinity(0)), free // MEMORY_OF_A_CHECK))


def first_ready(tasks, done):
    return next((name for name, task in tasks.items() if all(it in done for it in task.after)), None)


def in_lanes(count, tasks):
    """Does these tasks, so many at a time, and of those that can be begun the earliest in the order given. One that
    comes after a failed one fails, too. By name, what came of each: None, or why it couldn't be done."""
    left, running, ended = dict(tasks), {}, {}

    def begin(pool, name):
        task = left.pop(name)
        failed = next((it for it in task.after if ended[it]), None)
        if failed:
            ended[name] = f"{failed} failed"
        else:
            running[pool.submit(task.act)] = name

    with ThreadPoolExecutor(count) as pool:
        while left or running:
            ready = first_ready(left, ended)
            if ready and len(running) < count:
                begin(pool, ready)
                continue
            for future in wait(running, return_when=FIRST_COMPLETED).done:
                ended[running.pop(future)] = why_not(future)
    return ended


def why_not(future):
    try:
        future.result()
    except NoProgram as fault:
        return str(fault)
    return None
