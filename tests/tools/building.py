"""Which program tests/support/build takes, what it builds, what tests/support/check checks, and that
tests/reference/build may run twice at a time. A test that builds has a copy of the sources in a folder of its own, where
`rt` is a stand-in that writes down what it is asked for, and `rustc` one that links a part: nothing is proved here."""

import fcntl
import os
import re
import shutil
import subprocess
import time
from concurrent.futures import ThreadPoolExecutor

from tests.support.parts import TOP
from tests.tools.copies import SECONDS, Copy, unlike

# What stands on swim_keeper.
ABOVE_KEEPER = ["swim_keeper_tests", "swim_lives_tests", "swimd"]
WITH_KEEPER = 1 + len(ABOVE_KEEPER)
# As rustc does, it writes what it links beside the program, under a name that is the same each time, and takes it away.
LINKER = """\
#!/bin/sh
while [ "$1" != -o ]; do shift; done
part=$(dirname "$2")/part.o
echo part > "$part"
sleep 0.5
cp "$part" "$2" && chmod +x "$2" && rm "$part"
"""


# As `rt` does, it has the folder of a crate for itself while it works: here until a file `go` lies there.
LOCKING = """\
#!/usr/bin/env python3
import fcntl, os, time
fcntl.flock(os.open("crates/swim_text", os.O_RDONLY), fcntl.LOCK_EX)
open(f"has-{os.getpid()}", "w").close()
while not os.path.exists("go"):
    time.sleep(0.01)
"""


def a_fresh_program_is_taken(_programs, folder):
    copy = Copy(folder).with_program()
    ran = copy.run("tests/support/build", "swimsim")
    said = unlike("what is printed", ("crates/swimsim/out/swimsim\n", "", 0), (ran.stdout, ran.stderr, ran.returncode))
    return said + unlike("what rt is asked for", [], copy.calls())


def another_program_s_sources_make_none_older(_programs, folder):
    copy = Copy(folder).with_program()
    copy.touch("crates/swimd/src/main.rt")
    ran = copy.run("tests/support/build", "swimsim")
    return unlike("the status", 0, ran.returncode) + unlike("what rt is asked for", [], copy.calls())


def an_older_program_is_built_anew(_programs, folder):
    """Whatever of it is newer: a file of its own, one below it, the list of crates, or a folder, from which a file
    went."""
    copy, said = Copy(folder), []
    newer = [
        "crates/swimsim/src/main.rt", "crates/swim_history/specs/Run.antt", "crates.txt", "crates/swim_wire/proofs"
    ]
    for path in newer:
        copy.with_program().touch(path)
        copy.run("tests/support/build", "swimsim")
        calls = copy.calls()
        said += [] if ("swimsim", "run --") in calls else [f"{path} is newer, and rt is asked for {calls}"]
    return said


def what_was_built_anew_is_fresh(_programs, folder):
    """Also where `rt` found that nothing but a time had changed. A later change makes the program older again."""
    copy = Copy(folder).with_program()
    copy.date("crates/swimsim/src/main.rt", time.time() - 60)
    copy.date("crates/swimsim/out/swimsim", time.time() - 120)
    copy.run("tests/support/build", "swimsim")
    first, _ = copy.calls(), copy.run("tests/support/build", "swimsim")
    said = unlike("what rt is asked for again", [], copy.calls()) + ([] if first else ["rt isn't asked at first"])
    copy.date("crates/swimsim/src/main.rt", time.time() + 1)
    return said + (["it is fresh for ever"] if copy.crates.is_fresh("swimsim") else [])


def crates_are_proved_one_by_one(_programs, folder):
    """The libraries below a program first, each behind those that it stands on, with a line for each; and its path
    last."""
    copy = Copy(folder)
    ran = copy.run("tests/support/build", "swimsim")
    calls, said = copy.calls(), unlike("standard output", "crates/swimsim/out/swimsim\n", ran.stdout)
    said += unlike("the last call", ("swimsim", "run --"), calls[-1])
    said += unlike("the other calls", {"lib"}, {words for _, words in calls[:-1]})
    order = [crate for crate, _ in calls]
    said += too_early(copy.crates, order)
    lines = [rf"proved {crate} in \d+ s \({place} of {len(order)}\)\n" for place, crate in enumerate(order, 1)]
    is_told = re.fullmatch(r"proving and building swimsim: [^\n]* minutes [^\n]*\n" + "".join(lines), ran.stderr)
    return said + ([] if is_told else [f"standard error is {ran.stderr!r}"])


def too_early(crates, order):
    """What is wrong with the order in which crates were proved: one comes before another that it stands on."""
    pairs = [(crate, it, order[: place + 1]) for place, crate in enumerate(order) for it in crates.chain(crate)]
    return [f"{crate} is proved before {it}" for crate, it, proved in pairs if it not in proved]


def a_failed_proof_ends_it(_programs, folder):
    """What was said of it is shown, nothing above it is tried, and no path is printed."""
    copy = Copy(folder)
    open(f"{copy.crates.folder('swim_history')}/refused", "w").close()
    ran = copy.run("tests/support/build", "swimsim")
    said = unlike("what is printed", ("", 1), (ran.stdout, ran.returncode))
    said += unlike("the last call", ("swim_history", "lib"), copy.calls()[-1])
    return said + ([] if "it is not so" in ran.stderr and "swim_history" in ran.stderr else [f"it says {ran.stderr!r}"])


def a_change_is_checked_with_all_above_it(_programs, folder):
    """All crates at first, then none, and then the changed one and those that stand on it."""
    copy = Copy(folder)
    count, (status, last, order) = len(copy.crates.below), copy.check()
    said = unlike("the first end", (0, f"{count} passed, 0 failed"), (status, last)) + too_early(copy.crates, order)
    said += unlike("what is checked first", sorted(copy.crates.below), sorted(order))
    said += unlike("the second check", (0, "0 passed, 0 failed", []), copy.check())
    os.utime(f"{copy.top}/crates/swim_keeper/src/lib.rt")
    status, last, order = copy.check()
    said += unlike("the third end", (0, f"{WITH_KEEPER} passed, 0 failed"), (status, last))
    said += unlike("what is checked then", ("swim_keeper", ABOVE_KEEPER), (order[0], sorted(order[1:])))
    return said + unlike("the last check", (0, "0 passed, 0 failed", []), copy.check())


def a_failed_check_fails_all_above_it(_programs, folder):
    """Those aren't tried. What failed is tried again the next time."""
    copy, above = Copy(folder), set(ABOVE_KEEPER)
    refused = f"{copy.crates.folder('swim_keeper')}/refused"
    open(refused, "w").close()
    count, (status, last, order) = len(copy.crates.below), copy.check()
    said = unlike("the end", (1, f"{count - WITH_KEEPER} passed, {WITH_KEEPER} failed"), (status, last))
    said += unlike("what is checked", set(copy.crates.below) - above, set(order))
    os.remove(refused)
    status, last, order = copy.check()
    wanted = 0, f"{WITH_KEEPER} passed, 0 failed", {"swim_keeper", *above}
    return said + unlike("the next end", wanted, (status, last, set(order)))


def crates_are_checked_beside_one_another(_programs, folder):
    """What a check runs has the lowest crate's folder at the same time, and nobody else has it meanwhile."""
    copy = Copy(folder)
    copy.put("rt", LOCKING)
    with ThreadPoolExecutor(2) as pool:
        for _ in range(2):
            pool.submit(copy.run, "tests/support/beside", "lib")
        end, count = time.monotonic() + SECONDS / 2, 0
        while count < 2 and time.monotonic() < end:
            time.sleep(0.01)
            count = sum(it.startswith("has-") for it in os.listdir(copy.top))
        is_lent = can_lock(f"{copy.top}/crates/swim_text")
        open(f"{copy.top}/go", "w").close()
    said = unlike("how many have it", 2, count)
    return said + unlike("whether another gets it", False, is_lent)


def can_lock(folder):
    opened = os.open(folder, os.O_RDONLY)
    try:
        fcntl.flock(opened, fcntl.LOCK_EX | fcntl.LOCK_NB)
        return True
    except BlockingIOError:
        return False
    finally:
        os.close(opened)


def two_build_the_reference_at_a_time(_programs, folder):
    """Parts of the tests do: each gets it, and nothing else is left."""
    copy = Copy(folder)
    shutil.copytree(f"{TOP}/tests/reference", f"{copy.top}/tests/reference", ignore=shutil.ignore_patterns("out"))
    copy.put("rustc", LINKER)
    with ThreadPoolExecutor(2) as pool:
        first = pool.submit(copy.run, "tests/reference/build")
        time.sleep(0.2)
        second = pool.submit(copy.run, "tests/reference/build")
    said, path = [], "tests/reference/out/reference"
    for ran in (first.result(), second.result()):
        said += unlike("what is printed", (f"{path}\n", "", 0), (ran.stdout, ran.stderr, ran.returncode))
    return said + unlike("what lies there", ["reference"], os.listdir(f"{copy.top}/tests/reference/out"))


BUILDING = [
    a_fresh_program_is_taken,
    another_program_s_sources_make_none_older,
    an_older_program_is_built_anew,
    what_was_built_anew_is_fresh,
    crates_are_proved_one_by_one,
    a_failed_proof_ends_it,
    a_change_is_checked_with_all_above_it,
    a_failed_check_fails_all_above_it,
    crates_are_checked_beside_one_another,
    two_build_the_reference_at_a_time,
]
