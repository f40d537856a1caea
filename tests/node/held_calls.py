"""What a daemon has to do while one of its calls of the system is held back."""

import os
import select
import subprocess
import time

from tests.support.daemons import SECONDS, DaemonFault, Machine, must, until
from tests.support.datagrams import PING, datagram

TURNED_AWAY, NOT_HELD_UP = "who comes early is turned away", "nobody is held up"
# A disk that takes so many milliseconds for each write. A life has more entries than it takes meanwhile, and pings are
# answered at the latest after so many seconds.
SLOW_MS, JOURNAL, LIVES, WINDOW, MOST_SECONDS = 50, 20_000, 3, 64, 1.5


def may_connect(daemon):
    """A connection, if there is one: a socket may be bound and not listened at yet."""
    try:
        return daemon.connect()
    except OSError:
        return None


def met_early(daemon, go):
    """What somebody is answered who connects, and asks, before the control socket is its owner's alone."""
    with until(lambda: may_connect(daemon), "its socket is bound") as early:
        early.sendall(b"list\n")
        with open(go, "w"):
            daemon.ready()
        try:
            return early.recv(100)
        except ConnectionResetError:
            return b""


def of_an_early_connection(holder, programs):
    """A daemon whose change of its control socket's mode is held back: who connects meanwhile is closed and not
    answered, and who comes later is answered."""
    try:
        with Machine(*programs) as machine:
            daemon, go = machine.daemon(1, tick_ms=60_000), f"{machine.folder}/go"
            daemon.launch(env={**os.environ, "LD_PRELOAD": holder, "HOLD": go})
            answer = met_early(daemon, go)
            must(daemon.ask(b"list\n") == b".\n", "who comes later isn't answered")
            daemon.stop()
        yield TURNED_AWAY, [f"who came early is answered {answer!r}"] if answer else []
    except (DaemonFault, OSError, subprocess.SubprocessError) as fault:
        yield TURNED_AWAY, [f"{type(fault).__name__}: {fault}"]


def longest_wait(daemon, peer, lives):
    """Pings until so many lives have ended: the longest time between two acks."""
    longest, answered, number, end = 0.0, time.monotonic(), 0, time.monotonic() + 3 * SECONDS
    while daemon.lives_so_far() < lives:
        must(time.monotonic() < end, f"{lives} lives take more than {3 * SECONDS} seconds")
        for number in range(number + 1, number + WINDOW + 1):
            peer.sendto(datagram(PING, 9, 9, daemon.id, number), daemon.address)
        while select.select([peer], [], [], 0.01)[0]:
            peer.recv(100)
            now = time.monotonic()
            longest, answered = max(longest, now - answered), now
    return longest


def of_a_slow_disk(holder, programs):
    """A daemon whose disk is slower than its journal grows, and never hangs: no change of lives waits for it, and the
    lives whose files aren't whole are told as cut."""
    try:
        with Machine(*programs) as machine:
            daemon, peer = machine.daemon(1, tick_ms=60_000, fence=0, journal=JOURNAL), machine.socket()
            daemon.may_be_cut = True
            daemon.launch(env={**os.environ, "LD_PRELOAD": holder, "SLOW": str(SLOW_MS)})
            daemon.ready()
            longest = longest_wait(daemon, peer, LIVES)
            must(longest < MOST_SECONDS, f"for {longest:.1f} seconds no ping is answered")
            must(daemon.stop().status == 0 and daemon.cut, f"the lives {daemon.cut} are cut")
        yield NOT_HELD_UP, []
    except (DaemonFault, OSError, subprocess.SubprocessError) as fault:
        yield NOT_HELD_UP, [f"{type(fault).__name__}: {fault}"]
