"""The crates of this repository: which stand below which, whether what was built is older than what it is made of, and
how a program is proved and built."""

import functools
import os
import shlex
import shutil
import subprocess
import sys
import tempfile
import time

from tests.support.parts import NoProgram, timed

# On four processors, from nothing: some take half a minute, and some five.
MINUTES_A_CRATE = 2
SOURCES = ("src", "specs", "proofs")
BESIDE = f"{os.path.dirname(os.path.abspath(__file__))}/beside"


@functools.lru_cache(maxsize=None)
def kit():
    """The toolchain's folder: that of the page whose path `rt doc` prints."""
    page = subprocess.run(["rt", "doc"], stdout=subprocess.PIPE, check=True, text=True).stdout.strip()
    return os.path.dirname(page)


class Crates:
    """The crates below a repository's top, as crates.txt lists them."""

    def __init__(self, top):
        self.top, self.below = top, {}
        with open(f"{top}/crates.txt", encoding="utf-8") as file:
            lines = [line.split("#")[0].split(":") for line in file]
        for name, libraries in (it for it in lines if len(it) == 2):
            self.below[name.split()[0]] = libraries.split()

    def chain(self, *names):
        """These crates and all crates of the repository that they stand on, lower ones first."""
        found = []
        for name in names:
            above = [it for it in self.chain(*self.below[name]) if it not in found] if name in self.below else []
            found += [*above, name] if name in self.below and name not in found else []
        return found

    def folder(self, name):
        return f"{self.top}/crates/{name}"

    def made(self, name):
        """The file that is made of a crate: a program, a program of tests, or a library."""
        out = f"{self.folder(name)}/out"
        if name.endswith("_tests"):
            return f"{out}/{name}_tests"
        return f"{out}/{name}" if os.path.exists(f"{self.folder(name)}/src/main.rt") else f"{out}/rlib/{name}.rlib"

    def sources(self, name):
        """The files and folders that a crate and those below it are made of. Of a folder from which a file is gone, the
        time is new."""
        yield f"{self.top}/crates.txt"
        for crate in self.chain(name):
            for room in SOURCES:
                for at, _, files in os.walk(f"{self.folder(crate)}/{room}"):
                    yield at
                    yield from (f"{at}/{file}" for file in files)

    def is_fresh(self, name):
        """Whether what is made of a crate is there, and nothing that it is made of is newer, nor a library that was
        built below it."""
        made, libraries = self.made(name), [self.made(it) for it in self.chain(name) if it != name]
        below = [*self.sources(name), *(it for it in libraries if os.path.exists(it))]
        return os.path.exists(made) and all(os.stat(it).st_mtime_ns <= os.stat(made).st_mtime_ns for it in below)

    def command(self, name):
        """What proves a crate and makes what is made of it, and what it reads. A program is also run, on its stored
        input."""
        if name.endswith("_tests"):
            return ["rt", "test"], os.devnull
        if self.made(name).endswith(".rlib"):
            return ["rt", "lib"], os.devnull
        words, stored = f"{self.folder(name)}/args", f"{self.folder(name)}/stdin"
        with open(words if os.path.exists(words) else os.devnull, encoding="utf-8") as file:
            return ["rt", "run", "--", *file.read().split()], stored if os.path.exists(stored) else os.devnull


def say(text):
    """On standard error: standard output is for paths."""
    print(text, file=sys.stderr, flush=True)


def prove(crates, name, jobs=0):
    """Proves and builds one crate; beside others where it is told how many processes it may have. Where that fails,
    what was said is shown, but for what was proved. What is made is dated back to when the proof began: `rt` leaves it
    as it was where sources have only newer times, and may not see what changes meanwhile."""
    words, stored = crates.command(name)
    words = [BESIDE, words[1], "--jobs", str(jobs), *words[2:]] if jobs else words
    began, made = time.time(), crates.made(name)
    with tempfile.TemporaryFile() as log, open(stored, "rb") as source:
        status = subprocess.run(words, cwd=crates.folder(name), stdin=source, stdout=log, stderr=log).returncode
        log.seek(0)
        if status:
            say(
                "".join(
                    line
                    for line in log.read().decode(errors="replace").splitlines(True)
                    if not line.endswith(": proved\n")
                )
            )
            raise NoProgram(
                f"{name} was not proved, not built, or did not run on its stored input: {shlex.join(words)}"
            )
    if not os.path.exists(made):
        raise NoProgram(f"{shlex.join(words)} made no {os.path.relpath(made, crates.top)}")
    os.utime(made, (began, began))


def build(crates, names):
    """Proves and builds what isn't fresh of these crates, crate by crate from the lowest on, and says how far it is."""
    unknown = [it for it in names if it not in crates.below]
    if unknown:
        raise NoProgram(f"there is no crate {unknown[0]}")
    stale = [it for it in names if not crates.is_fresh(it)]
    chain = crates.chain(*stale)
    if stale and not shutil.which("rt"):
        raise NoProgram("rt, the command of the Rattle toolchain, is not on PATH")
    if stale:
        left = sum(not crates.is_fresh(it) for it in chain)
        say(
            f"proving and building {' and '.join(stale)}: {left} of {len(chain)} crates are new or may have changed, "
            f"which takes up to some {left * MINUTES_A_CRATE} minutes with four processors; what earlier runs proved "
            "is kept"
        )
    for place, name in enumerate(chain, 1):
        _, seconds = timed(prove, crates, name)
        say(f"proved {name} in {seconds:.0f} s ({place} of {len(chain)})")
