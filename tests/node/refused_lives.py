"""What a daemon has to write where one request for memory is refused in its second life or a later one."""

import os
import re
import subprocess
import time

from tests.node.refusing import REFUSED
from tests.node.refused_runs import AS_EVER, NO_MEMORY, NOT_BEGUN
from tests.support.daemons import PORTS_TRIED, DaemonFault, Machine, PortTaken
from tests.support.sayings import first_line_of

LATER = "no memory for a later life"
# Lives of eight entries end many times a second.
ENTRIES = 8
SHORT = {"tick_ms": 1, "rtt": 1, "period": 3, "k": 0, "journal": ENTRIES}
LIVES, SECONDS = 4, 10
# Of the requests of a start and of the first lives each third is refused.
LAST, STEP = 360, 3
LIFE = re.compile(rb"life (\d+) entries (\d+) judged \d+ unsent \d+ wire 0 refused (\d+)\n")
ENDED = re.compile(rb"ended (stopped|no memory) entries (\d+) judged \d+ unsent \d+ wire 0 refused (\d+)\n")


def run(refuser, program, number):
    """What a daemon writes over some lives, and its status. It is stopped behind the fourth, if it goes on."""
    with Machine(program) as machine:
        daemon = machine.daemon(1, members=[(2, "10.0.0.2:7000")], **SHORT)
        daemon.launch(env={**os.environ, "LD_PRELOAD": refuser.library, "REFUSE": str(number)})
        end = time.monotonic() + SECONDS
        while daemon.child.poll() is None and daemon.lives_so_far() < LIVES and time.monotonic() < end:
            time.sleep(0.02)
        while daemon.child.poll() is None and time.monotonic() < end and not stopped(daemon):
            time.sleep(0.02)
        stdout, stderr = daemon.child.communicate(timeout=SECONDS)
        stdout, stderr = daemon.read + stdout, daemon.said + stderr
        if first_line_of(stderr.replace(REFUSED, b"", 1)) == b"bind listen\n":
            raise PortTaken(f"port {daemon.port} is taken")
        return stdout, stderr, daemon.child.returncode


def stopped(daemon):
    """Whether it took a `stop`. One that had no memory for the connection is asked again."""
    try:
        return daemon.ask(b"stop\n") == b"stopping\n"
    except OSError:
        return False


def judged(stdout, stderr, status):
    """How such a run went, and whether that is as it has to be: each life that ended is told whole, in order. A life
    that has no memory to begin ends the daemon with `no memory` and status 4; one that had begun has its closing line,
    too."""
    lives = list(LIFE.finditer(stdout))
    rest = stdout[lives[-1].end() if lives else 0 :]
    closing, first = ENDED.fullmatch(rest), first_line_of(stderr.replace(REFUSED, b"", 1))
    are_whole = [int(it[1]) for it in lives] == list(range(len(lives)))
    are_whole = are_whole and all(int(it[2]) == ENTRIES for it in lives)
    if status == 0:
        return AS_EVER, are_whole and closing is not None and closing[1] == b"stopped"
    is_told = first == b"no memory\n" and (not rest or (closing is not None and closing[1] == b"no memory"))
    ending = LATER if lives else NO_MEMORY if closing else NOT_BEGUN
    return ending, are_whole and status == 4 and (is_told or (not lives and not rest))


def of_later_lives(refuser, pool, program):
    """Each run with one request refused, from the first of a start on into the fourth life."""

    def tried(number, ports=PORTS_TRIED):
        try:
            ran = run(refuser, program, number)
            ending, is_good = judged(*ran)
            return ending, [] if is_good else [f"request {number}: {ran}"]
        except PortTaken as fault:
            return tried(number, ports - 1) if ports > 1 else (NOT_BEGUN, [f"request {number}: {fault}"])
        except (DaemonFault, OSError, subprocess.SubprocessError) as fault:
            return AS_EVER, [f"request {number}: {type(fault).__name__}: {fault}"]

    yield from pool.map(tried, range(1, LAST, STEP))
