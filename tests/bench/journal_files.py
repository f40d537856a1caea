"""Journal files for tests/bench/swimsim: scripts with what swimsim answers to each call, as a daemon would write
them."""

import itertools
import subprocess

from tests.bench import bench_scripts

SEED = f"seed {'00112233445566778899aabbccddeeff' * 2} 0\n"


def quiet_ticks():
    """A member that knows nobody: each tick is quiet, or begins a period."""
    yield bench_scripts.opening(0, bench_scripts.LONGEST_PERIOD, [])
    yield from itertools.repeat("tick\n")


def group_of_six():
    yield from bench_scripts.group_of_six()


def lines_of(part, entries):
    """The lines of a part up to so many calls, with the seed behind its header."""
    yield "journal 1\n"
    seeded = False
    for line in bench_scripts.lines_of(part()):
        if bench_scripts.is_event(line):
            if not seeded:
                yield SEED
            seeded, entries = True, entries - 1
            if entries < 0:
                return
        yield line


def write(program, path, part, entries):
    """Writes the file: what swimsim answers is asked first. A call of these parts has one answer, and datagrams stand
    in lines with a `>`."""
    lines = list(lines_of(part, entries))
    ran = subprocess.run([program], input="".join(lines).encode(), capture_output=True, check=True)
    answers = (line for line in ran.stdout.decode().splitlines() if not line.startswith("> "))
    places = itertools.count()
    with open(path, "w", encoding="ascii") as file:
        for line in lines:
            file.write(line)
            if bench_scripts.is_event(line) and line not in ("journal 1\n", SEED):
                file.write(f"= {next(places)} {next(answers)}\n")
