"""What programs have to write and do where one call of the system fails, once, or several in a row. Each function
gives, for one run after the other, how it ended and what isn't as it has to be."""

import contextlib
import itertools
import os
import re
import subprocess
import time

from tests.support.daemons import PORTS_TRIED, DaemonFault, Machine, PortTaken, must, talk, until
from tests.support.datagrams import PING, datagram, fields
from tests.support.journals import front, journals, must_play, told
from tests.support.sayings import LIVES_AND_CLOSING, first_line_of
from tests.swimsim.worked_scripts import ASKED, JUDGED_2, STARTED, TWO

AS_EVER, READ, WRITE = "as ever", "a read that fails", "a write that fails"
NOT_BEGUN, CLOSED, UNSENT, CUT, UNTOLD = (
    "nothing was done", "a connection is closed", "a datagram isn't sent", "a journal is cut", "a line isn't told"
)
BROKEN = "the line is broken"
FAILED = b"failed\n"
MOST = 1_000

# A script of each kind of answer, and what is written for each of its lines.
LINES = [(line, "") for line in TWO.splitlines(True)]
LINES += [("tick\n", STARTED), ("tick\n", ASKED), ("tick\n", "quiet\n"), ("tick\n", JUDGED_2)]
LINES += [("table\n", "2 10.0.0.2:7000 failed 1\n3 10.0.0.3:7000 up\n.\n"), ("gap 2\n", "gap none\n")]
SCRIPT = "".join(line for line, _ in LINES).encode()
WHOLE = "".join(answer for _, answer in LINES).encode()


def failed_runs(failer, words, name, script, **variables):
    """A run in which the first call of this name fails, one in which the second does, and so on, until a run meets
    none."""
    for place in range(MOST):
        how = {**os.environ, "LD_PRELOAD": failer, "FAIL": f"{name} {place}", **variables}
        ran = subprocess.run(words, input=script, capture_output=True, env=how, timeout=60)
        if FAILED not in ran.stderr:
            return
        yield place, (ran.stdout, ran.stderr.replace(FAILED, b"", 1), ran.returncode)
    raise RuntimeError(f"each of {MOST} runs met a failure")


def of_reads(failer, program, piece):
    """Reads of so many bytes: what was read before is answered, and the line that was waited for is told."""
    for place, ran in failed_runs(failer, [program], "read", SCRIPT, PIECES=str(piece)):
        lines = SCRIPT[: place * piece].count(b"\n")
        answers = "".join(answer for _, answer in LINES[:lines]).encode()
        yield READ, [] if ran == (answers, b"line %d: read\n" % (lines + 1), 1) else [
            f"read {place} of {piece} bytes: {ran}"
        ]


def of_writes(failer, program):
    """What is written is a beginning of the whole, with the answer that wasn't taken at first or without it, and the
    line that was being answered or the next one is told. Each answer is written by itself, as each byte of the script
    is waited for."""
    answered = [(number, answer.encode()) for number, (_, answer) in enumerate(LINES, 1) if answer]
    for place, ran in failed_runs(failer, [program], "write", SCRIPT, PIECES="1"):
        fronts = [b"".join(answer for _, answer in answered[: place + more]) for more in (0, 1)]
        lines = [b"line %d: write\n" % (answered[place][0] + more) for more in (0, 1)] if place < len(answered) else []
        yield WRITE, [] if ran[0] in fronts and ran[1] in lines and ran[2] == 1 else [f"write {place}: {ran}"]


# What an operator asks, each on a connection of its own, with what it is answered; asked again it is answered
# otherwise. Where the last answer can't be sent, the daemon ends all the same.
ASKED_LINES = [
    (b"join 4 10.0.0.4:7000\n", rb"joined \d\n|refused 2\n"),
    (b"list\n", rb"2 10\.0\.0\.2:7000 up\n3 10\.0\.0\.3:7000 up\n4 10\.0\.0\.4:7000 up\n\.\n"),
    (b"remove 4\n", rb"removed\n|refused 4\n"),
    (b"stop\n", rb"stopping\n|"),
]
TURNS, PAUSE = 50, 0.05


def is_acked(daemon, peer, number):
    """Whether a ping of this number is acked. Acks of earlier ones may come late."""
    peer.sendto(datagram(PING, 9, 9, 1, number), daemon.address)
    try:
        while fields(peer.recv(100))[4] != number:
            pass
    except OSError:
        return False
    return True


class Talk:
    """What passes with a daemon: pings until one is acked, and then control lines, each again until it is answered."""

    def __init__(self, daemon, peer):
        self.daemon, self.peer, self.pings, self.tries, self.answers = daemon, peer, 0, 0, []
        peer.settimeout(0.2)
        until(self.is_acked, "a ping is acked")
        for line, wanted in ASKED_LINES:
            self.answers.append(self.answer(line))
            must(re.fullmatch(wanted, self.answers[-1]), f"{line!r} is answered {self.answers[-1]!r}")

    def is_acked(self):
        self.pings += 1
        return is_acked(self.daemon, self.peer, self.pings)

    def answer(self, line):
        for _ in range(TURNS):
            self.tries += 1
            try:
                with self.daemon.connect() as connection:
                    found = talk(connection, [line])
            except OSError:
                found = b""
            if found or self.daemon.child.poll() is not None:
                return found
            time.sleep(PAUSE)
        raise DaemonFault(f"{line!r} isn't answered")


def how_it_runs(failer, programs, name, place):
    """How a daemon ends of which that call failed, and what isn't as it has to be. None where it made no such call."""
    with Machine(*programs) as machine:
        daemon = machine.daemon(1, members=[(2, "10.0.0.2:7000"), (3, "10.0.0.3:7000")], tick_ms=60_000, journal=1_000)
        daemon.launch(env={**os.environ, "LD_PRELOAD": failer, "FAIL": f"{name} {place}"})
        until(lambda: daemon.child.poll() is not None or os.path.exists(daemon.control), "it listens or ends")
        spoken = Talk(daemon, machine.socket()) if daemon.child.poll() is None else None
        stdout, stderr = daemon.child.communicate(timeout=20)
        said = first_line_of(stderr.replace(FAILED, b"", 1))
        if said == b"bind listen\n" and FAILED not in stderr:
            raise PortTaken(f"port {daemon.port} is taken")
        if not spoken:
            must(FAILED in stderr, f"it ended with {stderr!r}")
            is_told = said in (
                b"configuration file\n", b"bind control\n", b"bind listen\n"
            ) and daemon.child.returncode in (1, 5)
            return NOT_BEGUN, [] if is_told and not stdout else [f"{stdout!r}, {stderr!r}, {daemon.child.returncode}"]
        ending = goes_on(machine, daemon, spoken, stdout, said)
    return ending if FAILED in stderr else None


def goes_on(machine, daemon, spoken, stdout, said):
    """It goes on, whatever failed: its journal holds all that was answered, and the counts are exact."""
    file = journals(f"{machine.journals}/0")[0].text
    if front(file):
        must_play(machine.simulator, front(file), "what its journal's file holds")
    entries = told(file)
    calls = re.findall(rb"^(hear|join|remove) ", front(file), re.MULTILINE)
    closing = LIVES_AND_CLOSING.fullmatch(stdout)
    faults = [f"it writes {said!r}", f"status {daemon.child.returncode}"] if said or daemon.child.returncode else []
    if not closing:
        is_untold = stdout == b"" and calls.count(b"hear") == spoken.pings
        return UNTOLD, faults + ([] if is_untold else [f"it writes {stdout!r}"])
    count, judged, unsent, wire, refused = map(int, closing.groups()[2:7])
    is_cut = bool(closing[8])
    if not is_cut:
        asked = [calls.count(it) for it in (b"hear", b"join", b"remove")]
        least = [spoken.pings, 1, 1]
        faults += [] if asked[0] == least[0] and asked >= least else [
            f"its journal has {asked} calls, and {least} were answered"
        ]
        faults += [] if len(entries) == count else [f"its file has {len(entries)} entries of {count}"]
    wanted = spoken.pings - 1
    faults += [] if (judged, wire, refused) == (0, 0, 0) and unsent == wanted else [
        f"it counts {closing[0]!r} at {spoken.pings} pings"
    ]
    way = CUT if is_cut else UNSENT if unsent else CLOSED if spoken.tries > len(ASKED_LINES) else AS_EVER
    return way, faults


def of_a_daemon(failer, programs, name, pool):
    """A daemon of which the first call of that name fails, one of which the second does, and so on."""

    def tried(place, ports=PORTS_TRIED):
        try:
            return how_it_runs(failer, programs, name, place)
        except PortTaken as fault:
            return tried(place, ports - 1) if ports > 1 else (NOT_BEGUN, [str(fault)])
        except (DaemonFault, OSError, subprocess.SubprocessError, LookupError) as fault:
            return NOT_BEGUN, [f"{type(fault).__name__}: {fault}"]

    place, is_over = 0, False
    while not is_over:
        for number, ended in enumerate(pool.map(tried, range(place, place + 8)), place):
            is_over = is_over or not ended
            if ended:
                yield ended[0], [f"{name} {number}: {it}" for it in ended[1]]
        place += 8
        must(place < MOST, f"each of {MOST} daemons met a failure")


def of_a_broken_gate(failer, programs, name, first):
    """A line or a door that fails so many times in a row, from the first such call on: after fifteen the daemon goes on,
    and with the sixteenth it ends."""
    for count, way, wanted in ((15, AS_EVER, (0, b"stopped")), (16, BROKEN, (5, b"socket"))):
        try:
            met = how_it_endures(failer, programs, f"{name} {first} {count}")
            yield way, [] if met == (count, *wanted) else [f"after {count} times that {name} failed it ended {met}"]
        except (DaemonFault, OSError, subprocess.SubprocessError) as fault:
            yield way, [f"{type(fault).__name__}: {fault}"]


def how_it_endures(failer, programs, failing):
    """How many calls of a daemon failed, its status, and why it ended. Where it goes on it is stopped, once it has acked
    a ping."""
    with Machine(*programs) as machine:
        daemon, peer, numbers = machine.daemon(1, tick_ms=60_000), machine.socket(), itertools.count(1)
        peer.settimeout(0.2)
        daemon.launch(env={**os.environ, "LD_PRELOAD": failer, "FAIL": failing})
        until(
            lambda: daemon.child.poll() is not None or is_acked(daemon, peer, next(numbers)), "it acks a ping or ends"
        )
        if daemon.child.poll() is None:
            # Where it ends meanwhile, nobody is asked.
            with contextlib.suppress(OSError):
                daemon.ask(b"stop\n")
        stdout, stderr = daemon.child.communicate(timeout=20)
    closing = LIVES_AND_CLOSING.fullmatch(stdout)
    must(closing, f"it writes {stdout!r} and {stderr!r}")
    return stderr.count(FAILED), daemon.child.returncode, closing[2]
