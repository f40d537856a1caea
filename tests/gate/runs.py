"""What came of the parts of the gate, which are told one after the other."""

import os
import re
import resource
import sys
import time
from concurrent.futures import ThreadPoolExecutor

from tests.gate.meters import Meter
from tests.gate.parts import CI, EDITS
from tests.gate.plays import KEPT, PROVED, Edits, Play, Queue
from tests.support.lanes import lanes
from tests.support.parts import LEFT_OUT

LAST_LINE = re.compile(r"(\d+) passed, (\d+) failed")


def parts_at_a_time():
    """How many parts are played at a time: daemons mostly wait, and one processor is left to whatever else goes on."""
    return max(2, len(os.sched_getaffinity(0)) - 1)


def with_lanes():
    """What `rt ci` is told of this machine: that it has so many lanes, in each of which one process proves. By itself
    it lends processors that nobody else wants to one proof, which takes far more of them then, and lets the crate that
    all wait for wait for memory."""
    return {"RT_JOBS": str(lanes()), **os.environ}


def shown(play, hear):
    """Shows what is written as it comes, and lets each line be heard: the lines."""
    lines = []
    for line in play.lines():
        sys.stdout.buffer.write(line)
        sys.stdout.buffer.flush()
        lines.append(line.decode(errors="replace").rstrip("\n"))
        hear(lines[-1])
    return lines


class Run:
    """What came of the parts up to now."""

    def __init__(self, find):
        """Where a program is is told by `find`: its path, or None."""
        self.find, self.began, self.meter = find, time.monotonic(), Meter()
        self.rows, self.left_out, self.paths, self.passed, self.failed = [], [], {}, 0, 0

    def path(self, name):
        """A program, or None where it wasn't built, which counts once."""
        if name not in self.paths:
            self.paths[name] = made = self.find(name)
            if not made or not os.access(made, os.X_OK):
                print(f"tests/all: {name} was not built, so nothing was run on it", flush=True)
                self.paths[name], self.failed = None, self.failed + 1
        return self.paths[name]

    def leave_out(self, part, why):
        self.left_out.append(f"{LEFT_OUT}{part.name}: {why}")

    def leave_out_unbuilt(self, part):
        """Leaves out a part for which a program wasn't built."""
        for it in part.programs:
            self.path(it)
        self.leave_out(part, "a program of it was not built")

    def possible(self, parts):
        """Those of these parts that nothing is lacking for; the others are left out."""
        for part in parts:
            if part.lacking():
                self.leave_out(part, part.lacking())
        return [it for it in parts if not it.lacking()]

    def plays(self, parts):
        """These parts with what plays them, but for those that are left out."""
        found = []
        for part in self.possible(parts):
            paths = [self.path(it) for it in part.programs]
            if None in paths:
                self.leave_out(part, "a program of it was not built")
            else:
                found.append((part, Play([*part.words, *paths])))
        return found

    def tell(self, part, play, hear=lambda line: None):
        """Shows a part that was begun, and counts what passed and failed of it."""
        lines = shown(play, hear)
        self.left_out += [it for it in lines if it.startswith(LEFT_OUT)]
        found = LAST_LINE.fullmatch(lines[-1]) if lines else None
        passed, failed = map(int, found.groups()) if found else (0, 0)
        if not found or (play.status != 0 and not failed):
            print(f"tests/all: {part.name} ended with status {play.status} and without saying what failed", flush=True)
            failed += 1
        self.passed, self.failed = self.passed + passed, self.failed + failed
        self.rows.append((part.name, play.seconds, play.used, passed, failed))

    def play(self, parts):
        """Plays these parts one by one, and tells of each."""
        for part, play in self.plays(parts):
            play.begin().end()
            self.tell(part, play)

    def play_all(self, parts, with_edits):
        """Has the crates proved. Meanwhile it plays each part whose programs are built, so many at a time, and has the
        edits tried, which leave the processors to all else. Behind all that come the parts that are played alone."""
        shared = [it for it in self.possible(parts) if not it.is_alone]
        plays = [(it, Play([*it.words, *map(self.find, it.programs)])) for it in shared]
        proofs = Play(CI.words, env=with_lanes()).begin()
        queue, edits = Queue(plays, parts_at_a_time()), Edits(EDITS.words).begin() if with_edits else None
        kept = []

        def hear(line):
            found = PROVED.match(line)
            kept.extend(it[1] for it in [KEPT.match(line)] if it)
            if found and found[2]:
                queue.add(found[1])
            elif found:
                # A crate of tests makes its program when its tests are proved.
                queue.add("" if found[1].endswith("_tests") else found[1])
                if edits:
                    edits.proved(found[1])

        with self.meter, ThreadPoolExecutor(2) as pool:
            pool.submit(proofs.end)
            self.tell(CI, proofs, hear)
            if edits:
                pool.submit(edits.end)
            for it in kept:
                queue.add(it)
            lacking = queue.close()
            for part, play in plays:
                self.leave_out_unbuilt(part) if part in lacking else self.tell(part, play)
            if edits:
                self.tell(EDITS, edits)
        self.play([it for it in parts if it.is_alone])

    def sum(self):
        print()
        used = resource.getrusage(resource.RUSAGE_CHILDREN)
        taken = time.monotonic() - self.began, used.ru_utime + used.ru_stime
        last = "all", *taken, self.passed, self.failed
        print(f"{'part':<18}{'seconds':>11}{'processor':>11}{'passed':>11}{'failed':>11}")
        for name, *columns in [*self.rows, last]:
            print(f"{name:<18}" + "".join(f"{it:>11,.0f}" for it in columns))
        for line in self.left_out:
            print(line)
        print(f"{self.passed} passed, {self.failed} failed", flush=True)
        return 1 if self.failed else 0
