"""What each part of the tests does: it finds its programs, counts what passed and what failed, and ends with the line
`N passed, M failed` and a status that is 0 exactly where M is 0."""

import os
import subprocess
import sys
import time

TOP = os.path.dirname(os.path.dirname(os.path.dirname(os.path.abspath(__file__))))
LEFT_OUT = "left out: "


class NoProgram(Exception):
    """A program that is needed here was not built."""


def built(script, *words):
    """The path of the program that a build script, below the repository's top, builds and prints."""
    ran = subprocess.run([f"{TOP}/{script}", *words], stdout=subprocess.PIPE)
    if ran.returncode:
        raise NoProgram(f"{' '.join([script, *words])} built no program")
    return os.path.join(TOP, ran.stdout.decode().strip())


def program(name, *given):
    """The program that is given, and else the proved one of that crate."""
    if len(given) > 1:
        raise NoProgram(f"one program at the most is wanted, and not {len(given)}")
    return os.path.abspath(given[0]) if any(given) else built("tests/support/build", name)


def reference(*words):
    """The ordinary program that swimsim and swimd are compared with, or what else tests/reference/build builds of
    it."""
    return built("tests/reference/build", *words)


def content(path):
    with open(path, "rb") as file:
        return file.read()


def timed(action, *arguments):
    """What an action answers, and the seconds that it took."""
    began = time.monotonic()
    return action(*arguments), time.monotonic() - began


def leave_out(why):
    """Says what isn't run here, and why. tests/all says it again in the end."""
    print(f"{LEFT_OUT}{why}", flush=True)


class Counts:
    """How many tests passed and failed. What is said of a failed one is printed, up to so many failures and so many
    lines."""

    def __init__(self, shown=sys.maxsize, lines=sys.maxsize):
        self.passed = self.failed = 0
        self.shown, self.lines = shown, lines

    def note(self, name, said):
        """A test passed where nothing is said of it."""
        if said:
            for line in [f"FAILED {name}", *(said[: self.lines] if self.failed < self.shown else [])]:
                print(line, flush=True)
        self.passed, self.failed = self.passed + (not said), self.failed + bool(said)


def ended(play, counts=None, faults=(OSError, subprocess.SubprocessError)):
    """Plays a part, which notes its tests in the counts, and says in the last line how it ended. A fault that leaves
    the part is a failure of its own. The status is answered."""
    counts = counts or Counts()
    try:
        play(counts)
    except (NoProgram, *faults) as fault:
        counts.note("to get through", [f"{type(fault).__name__}: {fault}"])
    print(f"{counts.passed} passed, {counts.failed} failed", flush=True)
    return 1 if counts.failed else 0
