"""Readers that don't read: standard output and standard error that take nothing, or little, hold no life up and no
start. Each line that isn't taken at once is left out whole, and counted."""

import fcntl
import os
import re
import resource
import select
import signal
import threading
import time

from tests.support.daemons import SECONDS, must, until
from tests.support.parts import content
from tests.support.sayings import COUNTS, LIFE
from tests.swimd.daemon_starting import SHORT, ends_of_a_pipe

MINUTE = 60_000
LIVES = 30
# The lines of so many lives have more than 8 KiB, and more than the disk that is full has room for. Each life takes a
# tenth of a second.
MANY, FULL_BYTES = 200, 1_000
# How long the closing line is waited for, and how long a machine that has much to do may take for it.
A_SECOND, SOON = 1.0, 5.0
SMALL_PIPE = 4_096
F_SETPIPE_SZ = 1031
CLOSING = re.compile(rb"ended stopped " + COUNTS)
FEWER = re.compile(rb" told (\d+) lines fewer on standard output\n")
# Each has a warning with the next, of some eighty bytes: together they are more than eight thousand.
NEIGHBOURS = [(4_294_967_000 + it, "10.0.0.2:7000") for it in range(120)]
PLAIN_SEED = "00" * 32


def taken_from(reading, seconds=0.0):
    """What lies in a pipe, and what comes within that time."""
    text, end = b"", time.monotonic() + seconds
    while select.select([reading], [], [], max(0.0, end - time.monotonic()))[0]:
        more = os.read(reading, 65_536)
        if not more:
            break
        text += more
    return text


def begun(daemon):
    """How many lives it told that they begin."""
    return daemon.told_so_far().count(b" begins\n")


def with_a_full_pipe(machine, **values):
    """A daemon whose standard output is a pipe that is full, and the ends of that pipe."""
    writing, reading = ends_of_a_pipe(True)
    daemon = machine.started(members=[(2, "10.0.0.2:7000")], how={"stdout": writing}, **{**SHORT, **values})
    os.close(writing)
    return daemon, reading


def stopped(daemon, reading, meanwhile=None):
    """Stops it, does something half a second behind that, and says how long it took and what it wrote and told. The
    answer's connection ends with the daemon."""
    began = time.monotonic()
    waiting = threading.Timer(A_SECOND / 2, meanwhile or (lambda: None))
    waiting.start()
    must(daemon.ask(b"stop\n") == b"stopping\n", "it isn't stopped")
    waiting.join()
    _, told = daemon.child.communicate(timeout=SECONDS)
    seconds = time.monotonic() - began
    must(daemon.child.returncode == 0, f"it ended {daemon.child.returncode}")
    return seconds, taken_from(reading), daemon.said + told


def must_be_whole(text):
    """Whole lines of lives, and perhaps the closing line; the numbers of the lives, which ascend."""
    rest = LIFE.sub(b"", text)
    must(rest == b"" or CLOSING.fullmatch(rest), f"beside whole lines of lives stands {rest[:300]!r}")
    numbers = [int(it[0]) for it in LIFE.findall(text)]
    must(numbers == sorted(set(numbers)), f"the lives are numbered {numbers[:40]}")
    return numbers


def lives_that_nobody_reads(machine):
    """Life follows life, control lines are answered, and the end comes a second late at most; what is left out is
    counted."""
    daemon, reading = with_a_full_pipe(machine)
    until(lambda: begun(daemon) >= LIVES, f"{LIVES} lives", SOON)
    must(daemon.states().keys() == {2}, "it isn't served")
    seconds, text, told = stopped(daemon, reading)
    must(A_SECOND - 0.2 < seconds < SOON, f"the end takes {seconds:.2f} seconds")
    must(text.strip(b"\0") == b"", f"a full pipe takes {text[-300:]!r}")
    fewer = FEWER.findall(told)
    lives = told.count(b" begins\n")
    # The last life's closing line is left out too, or one more full life's in its place.
    must(len(fewer) == 1 and int(fewer[0]) in (lives, lives + 1), f"{lives} lives began, and it tells {fewer}")
    os.close(reading)


def lives_that_are_read_again(machine):
    """Behind those that were left out the next lines are whole, and each one is there or counted."""
    daemon, reading = with_a_full_pipe(machine)
    until(lambda: begun(daemon) >= LIVES, f"{LIVES} lives", SOON)
    first = taken_from(reading).lstrip(b"\0")
    before = begun(daemon)
    until(lambda: begun(daemon) >= before + LIVES, f"{LIVES} lives more", SOON)
    _, text, told = stopped(daemon, reading)
    numbers = must_be_whole(first + text)
    fewer = FEWER.findall(told)
    must(len(numbers) >= LIVES and numbers[0] >= LIVES - 2, f"the lives are numbered {numbers[:40]}")
    must([int(it) for it in fewer] == [numbers[-1] + 1 - len(numbers)], f"of {numbers} it tells {fewer}")
    must(text.rsplit(b"\n", 2)[1].startswith(b"ended stopped "), f"it ends with {text[-300:]!r}")
    os.close(reading)


def lives_behind_a_full_disk(machine):
    """Standard output is a file whose disk is full. Once there is room again the next lines are there, and each one that
    isn't is counted."""

    def is_full():
        resource.setrlimit(resource.RLIMIT_FSIZE, (FULL_BYTES, resource.RLIM_INFINITY))
        signal.signal(signal.SIGXFSZ, signal.SIG_IGN)

    daemon = machine.daemon(1, members=[(2, "10.0.0.2:7000")], **SHORT, journal_dir=None)
    path = f"{machine.folder}/out"
    with open(path, "wb") as out:
        daemon.launch(stdout=out, preexec_fn=is_full)
    until(daemon.answers, "it answers")
    until(lambda: begun(daemon) >= MANY, f"{MANY} lives", 3 * SECONDS)
    must(len(content(path)) == FULL_BYTES, f"{len(content(path))} bytes are there")
    resource.prlimit(daemon.child.pid, resource.RLIMIT_FSIZE, (resource.RLIM_INFINITY, resource.RLIM_INFINITY))
    lives = begun(daemon)
    until(lambda: begun(daemon) >= lives + LIVES, f"{LIVES} lives more")
    must(daemon.ask(b"stop\n") == b"stopping\n", "it isn't stopped")
    _, told = daemon.child.communicate(timeout=SECONDS)
    numbers, fewer = must_be_whole(content(path)), FEWER.findall(daemon.said + told)
    must(sum(lives < it for it in numbers) > LIVES // 2, f"behind {lives} lives it tells {numbers}")
    must([int(it) for it in fewer] == [numbers[-1] + 1 - len(numbers)], f"of {numbers} it tells {fewer}")


def a_closing_line_that_is_read_late(machine):
    """Half a second behind the stop somebody reads: the closing line is there."""
    daemon, reading = with_a_full_pipe(machine, tick_ms=MINUTE, journal=1_000)
    seen = []
    seconds, text, told = stopped(daemon, reading, lambda: seen.append(taken_from(reading)))
    text = (seen[0] + text).lstrip(b"\0")
    must(CLOSING.fullmatch(text), f"it writes {text[-300:]!r}")
    must(FEWER.findall(told) == [] and seconds < SOON, f"it tells {told!r} after {seconds:.2f} seconds")
    os.close(reading)


def nobody_is_judged_for_it(machine):
    """A member whose lives nobody reads answers as ever: no other judges it. Without journal files no disk delays a
    life's end."""
    writing, reading = ends_of_a_pipe(True)
    first, second = machine.members(2, k=0, rtt=3, period=60, tick_ms=20, journal_dir=None)
    first.values["journal"] = 100
    first.write()
    first.start(stdout=writing)
    second.start()
    until(lambda: begun(first) >= 4 or second.states()[1] == "failed", "four lives or a verdict", SECONDS)
    must(second.states() == {1: "up"}, f"it lists {second.table()}")
    must(second.stop().judged == 0, "the other one judged it")
    must(first.ask(b"stop\n") == b"stopping\n", "it isn't stopped")
    first.child.communicate(timeout=SECONDS)
    os.close(writing)
    os.close(reading)


def warnings_for_a_small_pipe(machine):
    """Each asks for itself: those for which there is room are whole, and the daemon is served."""
    wanted = [b"warning: members %d and %d are at one address, 10.0.0.2:7000" % (it, it + 1)
              for it, _ in NEIGHBOURS[:-1]]
    wanted.append(b"warning: wire is 1, so that a relay that judged a member is no path to it")
    wanted.append(b"warning: rejoin is 0, so that only an operator's join brings a failed member back")
    wanted.append(b"warning: seed is one byte again and again, which anybody may guess")
    for size in (SMALL_PIPE, 4 * SMALL_PIPE):
        reading, writing = os.pipe()
        fcntl.fcntl(writing, F_SETPIPE_SZ, size)
        values = {"seed": PLAIN_SEED, "tick_ms": MINUTE, "journal": 1_000_000}
        daemon = machine.started(members=NEIGHBOURS, how={"stderr": writing, "words": ["--quiet"]}, **values)
        must(len(daemon.states()) == len(NEIGHBOURS), "it isn't served")
        text = taken_from(reading)
        lines = text.split(b"\n")
        must(lines.pop() == b"" and lines == wanted[: len(lines)], f"of its warnings stand {text[-300:]!r}")
        must((len(lines) == len(wanted)) == (size > SMALL_PIPE), f"in {size} bytes stand {len(lines)} warnings")
        must(lines, f"in {size} bytes stands no warning")
        must(daemon.ask(b"stop\n") == b"stopping\n", "it isn't stopped")
        must(daemon.child.wait(SECONDS) == 0, "it ended otherwise")
        os.close(writing)
        os.close(reading)


def an_end_that_nobody_reads(machine):
    """A start that is refused ends at once, though nobody takes the line that says why. Its status says so."""
    writing, reading = ends_of_a_pipe(True)
    daemon = machine.daemon(1, listen="192.0.2.1:7000")
    daemon.launch(stderr=writing)
    os.close(writing)
    must(daemon.child.wait(SOON) == 5, f"it ended {daemon.child.returncode}")
    must(taken_from(reading).strip(b"\0") == b"", "a full pipe takes a line")
    os.close(reading)


PATIENCE = [
    lives_that_nobody_reads,
    lives_that_are_read_again,
    lives_behind_a_full_disk,
    a_closing_line_that_is_read_late,
    nobody_is_judged_for_it,
    warnings_for_a_small_pipe,
    an_end_that_nobody_reads,
]
