"""Parts whose tests are functions of a machine: daemons alone and in groups, on 127.0.0.1 and in a temporary folder,
which is gone behind each test. Each daemon writes journal files, which swimsim verifies when a test is over, and which
the reference has to play as swimsim does.

Ports are chosen by the system. Each wait has a limit of some seconds, and ends as soon as what is waited for is there.
As daemons mostly wait, some tests are run at the same time, each in a process of its own.
"""

import argparse
import contextlib
import io
import multiprocessing
import shutil
import subprocess
from concurrent.futures import ProcessPoolExecutor
from itertools import zip_longest

from tests.support.daemons import PORTS_TRIED, DaemonFault, Machine, PortTaken, end_what_was_started
from tests.support.journals import must_verify_all
from tests.support.parts import ended, leave_out, program, reference, timed

PROGRAMS = ["swimd", "swimsim"]
# So many tests are run at the same time, where a part doesn't ask for less: some measure how soon a daemon answers.
AT_A_TIME = 2
# The tests of the part that is played. A process for one of them is told its place here.
TESTS = []


def ordinary():
    """The reference, if it can be built."""
    if shutil.which("rustc"):
        return reference()
    leave_out("rustc, the Rust compiler, is not on PATH, so the reference plays no journal file")
    return None


def complaints(programs, test):
    """What is complained of a test. It is tried anew where somebody took a port that was free a moment ago."""
    for _ in range(PORTS_TRIED):
        with contextlib.suppress(PortTaken):
            return complaints_at_once(programs, test)
    return [f"    {PORTS_TRIED} times a port that was free was taken"]


def complaints_at_once(programs, test):
    with Machine(*programs) as machine:
        try:
            said = test(machine)
            must_verify_all(machine)
        except PortTaken:
            raise
        except (DaemonFault, OSError, subprocess.SubprocessError, LookupError, AssertionError) as fault:
            said = f"{type(fault).__name__}: {fault}"
        return [f"    {said}"] if said else []


def run(paths, place):
    """What a test prints, what is complained of it, and the seconds that it took. It is named by its place."""
    with contextlib.redirect_stdout(io.StringIO()) as printed:
        said, seconds = timed(complaints, paths, TESTS[place])
    return printed.getvalue(), said, seconds


def run_all(counts, paths, places, shows_times, at_a_time):
    with ProcessPoolExecutor(at_a_time, mp_context=multiprocessing.get_context("fork")) as pool:
        try:
            running = [(TESTS[it].__name__, pool.submit(run, paths, it)) for it in places]
            for name, (printed, said, seconds) in ((name, it.result()) for name, it in running):
                print(printed, end="", flush=True)
                counts.note(name, said)
                if shows_times:
                    print(f"{seconds:.1f} s  {name}", flush=True)
        except BaseException:
            # Whoever ends this ends what runs: each process takes its daemons with it.
            for it in multiprocessing.active_children():
                it.terminate()
            raise


def played(what, tests, at_a_time=AT_A_TIME):
    """Plays a part of these tests, so many at the same time, as the words of the command line ask, and answers its
    status."""
    TESTS[:] = tests
    parser = argparse.ArgumentParser(description=what)
    parser.add_argument("--only", choices=[it.__name__ for it in TESTS])
    parser.add_argument("--times", action="store_true", help="also prints what each test takes")
    parser.add_argument("programs", nargs="*")
    options = parser.parse_args()
    end_what_was_started()

    def play(counts):
        paths = [*(program(*it) for it in zip_longest(PROGRAMS, options.programs)), ordinary()]
        places = [place for place, it in enumerate(TESTS) if options.only in (None, it.__name__)]
        run_all(counts, paths, places, options.times, at_a_time)

    return ended(play)
