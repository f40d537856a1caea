"""What `make bench` keeps, and what it compares. The benches are stand-ins: nothing is measured here."""

import os

from tests.support.parts import TOP, content
from tests.tools.copies import Copy, unlike

# What it prints is told by a file.
STAND_IN_BENCH = """\
#!/bin/sh
cat "$PRINTED"
test ! -e "$PRINTED.fails"
"""
TABLE = "Some words.\n\n| Window |   swimd |   ratio |\n|-------:|--------:|--------:|\n| 16 | {} | {} |\n"
MOVED = "| swimd | 1 | 16 | swimd | 1000 | 1040 | 1.04 |"


def with_benches(folder):
    """A copy whose only bench prints a table."""
    copy = Copy(folder)
    for name in ("all", "tables.py"):
        text = content(f"{TOP}/tests/bench/{name}").decode()
        copy.put_file(f"tests/bench/{name}", text, mode=0o755)
    copy.put_file("tests/bench/swimd", STAND_IN_BENCH, mode=0o755)
    copy.variables = {"PRINTED": f"{copy.top}/printed"}
    return copy


def bench(copy, *figures):
    """The lines that are printed where the bench has these figures, and the status."""
    copy.put_file("printed", TABLE.format(*figures))
    ran = copy.run("tests/bench/all", "--only", "swimd")
    return ran.stdout.splitlines(), ran.returncode


def benches_are_compared_with_the_last_run(_programs, folder):
    """A figure that moved is told beside the last one, one that moved by three percent or less is not."""
    copy = with_benches(folder)
    first, status = bench(copy, "1,000", "0.80")
    second, _ = bench(copy, "1,040", "0.82")
    third, _ = bench(copy, "1,030", "0.82")
    told = [it for it in second if it.startswith("| swimd |")]
    return [
        *unlike("the status", 0, status),
        *unlike("the first run", "No earlier run of this machine is kept in out/bench.", first[-1]),
        *unlike("what moved", [MOVED], told),
        *unlike("the third run", "No figure differs by more than 3 percent from the last run's.", third[-1]),
    ]


def benches_of_another_machine_are_not_compared(_programs, folder):
    """A run that another machine made is left out of the comparison."""
    copy = with_benches(folder)
    bench(copy, "1,000", "0.80")
    for name in os.listdir(f"{copy.top}/out/bench"):
        text = content(f"{copy.top}/out/bench/{name}").decode()
        copy.put_file(f"out/bench/{name}", text.replace("# ", "# another machine, ", 1))
    lines, _ = bench(copy, "2,000", "0.80")
    return unlike("the end", "No earlier run of this machine is kept in out/bench.", lines[-1])


def a_bench_that_fails_is_told(_programs, folder):
    """What it printed is kept all the same."""
    copy = with_benches(folder)
    copy.put_file("printed.fails", "")
    _, status = bench(copy, "1,000", "0.80")
    kept = [content(f"{copy.top}/out/bench/{it}").decode() for it in os.listdir(f"{copy.top}/out/bench")]
    return [
        *unlike("the status", 1, status),
        *unlike("what is kept", [True], [TABLE.format("1,000", "0.80") in it for it in kept]),
    ]


BENCHING = [
    benches_are_compared_with_the_last_run,
    benches_of_another_machine_are_not_compared,
    a_bench_that_fails_is_told,
]
