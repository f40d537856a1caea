"""A daemon whose system gives it little memory, or little room for stacks. It runs, or says `no memory`; no signal ends
it."""

import os
import re
import resource
import subprocess

from tests.support.daemons import SECONDS, memory_of, must, until
from tests.support.datagrams import PING, datagram
from tests.support.parts import TOP, content
from tests.support.sayings import but_for_notices

MINUTE = 60_000
MEGABYTE = 2**20
# With less, the system loads no program.
LEAST_STEPPED, MOST_STEPPED, STEP = 2 * MEGABYTE, 12 * MEGABYTE, MEGABYTE // 4
# In KB. Linux gives 8,192 as a rule.
STACKS = (96, 200, 512, 1_300)
SILENT = [(2, "127.0.0.1:9")]
# Bytes of an entry by the documents, and how much more a daemon may take at most and between two lives.
ENTRY_BYTES, ENTRIES, WINDOW = 340, 50_000, 64
MOST_HELD = 15 * MEGABYTE


def with_memory(most):
    return lambda: resource.setrlimit(resource.RLIMIT_AS, (most, most))


def with_stack(most):
    return lambda: resource.setrlimit(resource.RLIMIT_STACK, (most, most))


def is_loaded(program, most):
    """Whether so much memory is enough for the program's image: it refuses an empty configuration then, or says that
    there is no memory."""
    words = {"input": b"", "capture_output": True, "preexec_fn": with_memory(most), "timeout": SECONDS}
    ran = subprocess.run([program, "check"], **words)
    return 0 <= ran.returncode < 126


def how_it_ends(daemon, most):
    """Status and texts of a daemon with so much memory, which is stopped if it runs."""
    daemon.launch(preexec_fn=with_memory(most))
    until(lambda: daemon.child.poll() is not None or daemon.answers(), f"a daemon with {most:,} bytes runs or ends")
    if daemon.child.poll() is None:
        daemon.ask(b"stop\n")
    stdout, stderr = daemon.child.communicate(timeout=SECONDS)
    return daemon.child.returncode, stdout, but_for_notices(stderr)


WANTED = [
    (0, b"ended stopped entries 0 judged 0 unsent 0 wire 0 refused 0\n", b""),
    (4, b"ended no memory entries 0 judged 0 unsent 0 wire 0 refused 0\n", b"no memory\n"),
    (4, b"", b"no memory\n"),
]


def endings(machine, amounts):
    """How a daemon ends with each of these amounts of memory with which its image can be loaded: it runs, or says
    `no memory` at its start or in its closing line."""
    daemon, found = machine.daemon(1, tick_ms=MINUTE), []
    for most in (it for it in amounts if is_loaded(machine.program, it)):
        found.append(how_it_ends(daemon, most))
        must(found[-1] in WANTED, f"with {most:,} bytes: {found[-1]}")
    return [it[0] for it in found]


def too_little_memory(machine):
    """With ever less memory."""
    found = endings(machine, [MEGABYTE * 2**it // 4 for it in range(12, 3, -1)])
    must(found and found[0] == 0, "it doesn't run with a gigabyte")
    print(f"  with a gigabyte, a half, a fourth and so on it ends with the statuses {found}")


def memory_in_small_steps(machine):
    """With hardly enough memory, a bit more each time."""
    found = endings(machine, range(LEAST_STEPPED, MOST_STEPPED, STEP))
    must(4 in found, f"with less than {MOST_STEPPED:,} bytes it ends with the statuses {found}")


def small_stacks(machine):
    """Whatever the limit of stacks, a daemon judges, changes its lives, and answers `stop`."""
    for kilobytes in STACKS:
        daemon = machine.daemon(kilobytes, members=SILENT, k=0, rtt=1, period=3, tick_ms=5, journal=50)
        daemon.start(preexec_fn=with_stack(kilobytes * 1024))
        until(lambda: daemon.lives_so_far() > 2, f"with a stack of {kilobytes} KB lives change")
        must(daemon.states() == {2: "failed"}, f"with a stack of {kilobytes} KB nobody is judged")
        must(daemon.stop().status == 0, f"with a stack of {kilobytes} KB it ends otherwise")


def environment_of_the_service():
    """What the service sets."""
    lines = re.findall(r"^Environment=(\w+)=(.*)$", content(f"{TOP}/contrib/swimd.service").decode(), re.MULTILINE)
    return {**os.environ, **dict(lines)}


class Pings:
    """Pings of somebody who has at most so many acks outstanding."""

    def __init__(self, daemon, peer):
        self.daemon, self.peer, self.number, self.outstanding = daemon, peer, 0, 0

    def until_lives(self, count):
        """Pings until so many lives have ended. The ping that meets a full journal isn't answered."""
        while self.daemon.lives_so_far() < count:
            for _ in range(WINDOW):
                self.number += 1
                text = datagram(PING, 9, 9, self.daemon.id, self.number)
                self.peer.sendto(text, self.daemon.address)
            self.outstanding += WINDOW
            while self.outstanding > count:
                self.peer.recv(100)
                self.outstanding -= 1


def lives_give_their_memory_back(machine):
    """As the service runs it, a daemon takes less than twice what its journal does, and holds little between two
    lives."""
    daemon, peer = machine.daemon(1, tick_ms=MINUTE, fence=0, journal=ENTRIES, journal_dir=None), machine.socket()
    daemon.start(env=environment_of_the_service())
    pings = Pings(daemon, peer)
    for lives in (1, 2, 3):
        pings.until_lives(lives)
        held = memory_of(daemon)
        must(held < MOST_HELD, f"behind {lives} lives it holds {held:,} bytes")
    most = memory_of(daemon, "VmHWM")
    must(most < 2 * ENTRY_BYTES * ENTRIES, f"it held {most:,} bytes")
    must(daemon.stop().status == 0, "it ends otherwise")
    print(f"  in lives of {ENTRIES:,} entries {most:,} bytes at most, and {held:,} between two")


LIMITS = [too_little_memory, memory_in_small_steps, small_stacks, lives_give_their_memory_back]
