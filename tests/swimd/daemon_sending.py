"""What a daemon sends, to whom and when: each relay is asked, also where another can't be, and ticks last as long as
they have to."""

import os
import select
import time

from tests.support.configurations import HOST
from tests.support.daemons import SECONDS, must
from tests.support.datagrams import ACK, PING, REQUEST, datagram, fields

MINUTE = 60_000
PERIODS = 8
# From a socket of the loopback nothing goes to another net.
NOWHERE = "192.0.2.1:7000"
# Seconds of a period of three ticks, and how many more or fewer it may seem to take where others work on this machine.
PERIOD, MOST_BESIDE, TRIES = 3, 0.15, 4
# The longest path that the system takes has 4,095 bytes, and a name in it 255.
LONG_PATHS = [41, 300, 4_000]


class Members:
    """Members that aren't daemons, each with its socket."""

    def __init__(self, machine, *ids):
        self.sockets = {id: machine.socket() for id in ids}

    def rows(self):
        return [(id, f"{HOST}:{it.getsockname()[1]}") for id, it in self.sockets.items()]

    def next(self):
        """The next datagram that one of them gets: which one, and its fields."""
        ready, _, _ = select.select(list(self.sockets.values()), [], [], SECONDS)
        must(ready, f"nobody gets anything for {SECONDS} seconds")
        return next((id, fields(it.recv(100))) for id, it in self.sockets.items() if it is ready[0])

    def period(self, daemon, aims):
        """A period in which the aim, one of these, is heard only when all others were asked: each once, and for that
        aim."""
        asked, pings = {}, {}
        while not asked or set(self.sockets) != set(asked) | set(pings):
            id, (kind, *message) = self.next()
            met = pings if kind == PING else asked
            must(kind in (PING, REQUEST) and id not in met, f"member {id} gets {kind} {message}")
            met[id] = message
        (aim, number), *others = {tuple(it[2:]) for it in [*asked.values(), *pings.values()]}
        must(not others and aim in aims, f"asked is {asked}, and pinged {pings}")
        must(set(pings) == {aim} & set(self.sockets), f"member {aim} is the aim, and pinged is {pings}")
        socket = next(iter(self.sockets.values()))
        socket.sendto(datagram(ACK, aim, daemon.id, aim, number), daemon.address)


def each_relay_is_asked(machine):
    """Where the one that is pinged doesn't answer at once, each of the other three gets one ping-req."""
    members = Members(machine, 2, 3, 4, 5)
    daemon = machine.started(members=members.rows(), k=3, period=20, tick_ms=40)
    for _ in range(PERIODS):
        members.period(daemon, members.sockets)
    closing = daemon.stop()
    must((closing.status, closing.judged, closing.unsent) == (0, 0, 0), f"it ended {closing}")


def other_relays_are_asked(machine):
    """Of three relays one can't be sent to, whichever is the first: the others are asked, and each datagram is
    counted."""
    members = Members(machine, 2, 3, 4)
    daemon = machine.started(members=[(5, NOWHERE), *members.rows()], k=3, period=20, tick_ms=40)
    for _ in range(PERIODS):
        members.period(daemon, {*members.sockets, 5})
    closing = daemon.stop()
    must((closing.status, closing.judged, closing.unsent) == (0, 0, PERIODS), f"it ended {closing}")


def ticks_last_as_long_as_they_have_to(machine):
    """From ping to ping three ticks of a second go by. One of four tries has to show it, as others work here."""
    members = Members(machine, 2)
    daemon = machine.started(members=members.rows(), k=0, rtt=1, period=3, tick_ms=1_000)
    last, took = None, []
    while len(took) < TRIES and not any(abs(it - PERIOD) <= MOST_BESIDE for it in took):
        _, (_, _, _, aim, number) = members.next()
        now = time.monotonic()
        took += [now - last] if last else []
        last = now
        members.sockets[2].sendto(datagram(ACK, aim, daemon.id, aim, number), daemon.address)
    must(any(abs(it - PERIOD) <= MOST_BESIDE for it in took), f"periods of {PERIOD} seconds take {took}")
    daemon.stop()


def long_paths_of_a_configuration(machine):
    """A configuration may stand at any path that the system takes."""
    for length in LONG_PATHS:
        daemon, folder = machine.daemon(1, tick_ms=MINUTE), machine.folder
        while length - len(folder) > 200:
            folder = f"{folder}/{'d' * 100}"
        os.makedirs(folder, exist_ok=True)
        daemon.file = f"{folder}/{'f' * (length - len(folder) - 1)}"
        daemon.write()
        must(len(daemon.file) == length, f"the path has {len(daemon.file)} bytes")
        must(
            daemon.start().stop() == (0, "stopped", 0, 0, 0, 0, 0), f"it ended otherwise with a path of {length} bytes"
        )


SENDING = [
    each_relay_is_asked, other_relays_are_asked, ticks_last_as_long_as_they_have_to, long_paths_of_a_configuration
]
