"""A daemon that is flooded: with a fence nobody else's datagrams are pushed out by the flood, and without one all are
handed on. Whoever floods does so from two processes, as fast as they can, in the name of a member that nobody knows."""

import multiprocessing
import re
import socket
import time

from tests.support.configurations import HOST
from tests.support.daemons import must, until
from tests.support.datagrams import ACK, PING, datagram, fields
from tests.support.tags import FIRST, key_texts, sealing
from tests.swimd.daemon_groups import Answerer
from tests.swimd.daemon_starting import told_lines

RATE, JOURNAL, PERIOD_SECONDS = 1_000, 100_000, 2
FLOODERS, BATCH, WINDOW, STRANGER = 2, 64, 50, 9
SILENT, LOUD, STEADY = 2, 3, 4
# How often each answer is sent: a member is judged where the system drops all of them.
ANSWERS = 30
# A member's verdict comes at the end of a period, and the table is asked for a little later.
SLACK_SECONDS = 1
# The fence lets in a burst of a second's datagrams, and the receiver's and the flood's seconds don't begin together.
SECONDS_MORE = 3


def shared_socket(port=0):
    """A socket from which others may send as well: that of a port may be bound more than once."""
    it = socket.socket(socket.AF_INET, socket.SOCK_DGRAM)
    it.setsockopt(socket.SOL_SOCKET, socket.SO_REUSEPORT, 1)
    it.bind((HOST, port))
    return it


def send_on(ports, address, texts, sent):
    """Sends the texts again and again from sockets of these ports, in turn, and counts how many it sent."""
    sockets = [shared_socket(port) for port in ports]
    for it in sockets:
        it.connect(address)
    while True:
        for it in sockets:
            for text in texts:
                try:
                    it.send(text)
                except OSError:
                    pass
            sent.value += len(texts)


class Flood:
    """Processes that send the texts to a daemon, until it is over. They send from these ports, or where there are none
    each from one of its own."""

    def __init__(self, daemon, texts, ports=(0,)):
        how = multiprocessing.get_context("fork")
        self.sent = [how.Value("Q", 0, lock=False) for _ in range(FLOODERS)]
        words = [(tuple(ports), daemon.address, texts, it) for it in self.sent]
        self.processes = [how.Process(target=send_on, args=it, daemon=True) for it in words]

    def __enter__(self):
        for it in self.processes:
            it.start()
        return self

    def __exit__(self, *_):
        for it in self.processes:
            it.terminate()
            it.join()

    def count(self):
        return sum(it.value for it in self.sent)


def pings(daemon, seal=bytes):
    return [seal(datagram(PING, STRANGER, STRANGER, daemon.id, number)) for number in range(1, BATCH + 1)]


class Group:
    """A daemon that knows a member which never answers, one that floods or in whose name others do, and one that
    answers each ping. The sockets of the first two can be shared with others, which send in their names. What comes
    while the receive buffer is full is dropped by the system, which is no affair of the fence: so each answer is sent
    some times."""

    def __init__(self, machine, seal=bytes, **values):
        self.silent, self.loud, self.steady = shared_socket(), shared_socket(), machine.socket()
        machine.sockets += [self.silent, self.loud]
        self.ports = {
            id: it.getsockname()[1] for id, it in ((SILENT, self.silent), (LOUD, self.loud), (STEADY, self.steady))
        }
        for id, it in ((LOUD, self.loud), (STEADY, self.steady)):
            Answerer(it, id, lambda *_: True, seal, ANSWERS)
        usual = {"k": 1, "rtt": 20, "period": 100, "tick_ms": PERIOD_SECONDS * 10, "journal": JOURNAL, "fence": RATE}
        self.daemon = machine.daemon(1, members=list(self.ports.items()), **{**usual, **values})

    def must_judge(self, flood):
        """The silent member is judged within 2n periods, the steady one isn't, and no life goes by. Says how long that
        took."""
        began, limit = time.monotonic(), 2 * len(self.ports) * PERIOD_SECONDS + SLACK_SECONDS
        until(lambda: self.daemon.states()[SILENT] == "failed", "the silent member is judged", limit)
        seconds, states = time.monotonic() - began, self.daemon.states()
        must(states[STEADY] == "up", f"a verdict on another member: {states}")
        must(self.daemon.lives_so_far() == 0, f"{self.daemon.lives_so_far()} lives went by")
        print(f"  {flood.count() / seconds:,.0f} datagrams a second; the silent member is judged after {seconds:.1f} s")
        return seconds


def fenced_told(daemon):
    """Of the lines on standard error those that tell of datagrams that come too fast: where they came from, and how
    many they were."""
    wanted = r"datagrams from (\S+) come faster than the fence lets in, fenced (\d+)"
    found = [re.fullmatch(wanted, it) for it in told_lines(daemon, daemon.told)]
    return [(it[1], int(it[2])) for it in found if it]


def must_have_fenced(group, seconds, buckets, ports=()):
    """How a daemon ends that was flooded for so many seconds: of so many buckets it heard no more than the rate,
    nothing failed, and it told once that it is flooded, from which of these ports if there are any."""
    closing = group.daemon.stop()
    must(closing[:2] == (0, "stopped") and closing[4:] == (0, 0, 0), f"it ended {closing}")
    ticks = (seconds + SECONDS_MORE) * 1000 / group.daemon.values["tick_ms"]
    most = buckets * RATE * (seconds + SECONDS_MORE) + ticks
    must(closing.entries <= most, f"{closing.entries:,} entries in {seconds:.1f} s")
    told = fenced_told(group.daemon)
    must(len(told) == 1 and told[0][1] > 0, f"it tells {group.daemon.told!r}")
    must(not ports or told[0][0] in {f"{HOST}:{it}" for it in ports}, f"it tells of {told}, and not of {ports}")


def a_flood_from_a_stranger(machine):
    """From addresses that are no member's: of all of them together no more pass than of one member."""
    group = Group(machine)
    daemon = group.daemon.start()
    with Flood(daemon, pings(daemon)) as flood:
        seconds = group.must_judge(flood)
        must(daemon.states()[LOUD] == "up", f"a verdict on a member that doesn't flood: {daemon.states()}")
    must_have_fenced(group, seconds, 1)


def a_flood_from_a_member(machine):
    """From a member's address: it may be judged itself, as its own datagrams are pushed out, but no other member is."""
    group = Group(machine)
    daemon = group.daemon.start()
    with Flood(daemon, pings(daemon), [group.ports[LOUD]]) as flood:
        seconds = group.must_judge(flood)
    must_have_fenced(group, seconds, 1, [group.ports[LOUD]])


def a_flood_in_the_names_of_members(machine):
    """From the addresses of two members, of whom one is dead, in a group without keys: the dead one is judged all the
    same."""
    group = Group(machine)
    daemon, ports = group.daemon.start(), [group.ports[SILENT], group.ports[LOUD]]
    with Flood(daemon, pings(daemon), ports) as flood:
        seconds = group.must_judge(flood)
    must_have_fenced(group, seconds, 2, ports)


def a_flood_of_recorded_datagrams(machine):
    """Of datagrams with a tag by the group's key, which somebody recorded and sends again from an address of his own:
    pings of a member, and acks of the dead one from an earlier run."""
    seal = sealing(FIRST)
    group = Group(machine, seal, keys=key_texts(FIRST))
    daemon = group.daemon.start()
    acks = [seal(datagram(ACK, SILENT, daemon.id, SILENT, number)) for number in range(1, BATCH + 1)]
    recorded = [it for pair in zip(pings(daemon, seal), acks) for it in pair]
    with Flood(daemon, recorded) as flood:
        seconds = group.must_judge(flood)
        must(daemon.states()[LOUD] == "up", f"a verdict on a member that doesn't flood: {daemon.states()}")
    must_have_fenced(group, seconds, 1)


def forgeries_and_a_fence(machine):
    """In a group with keys: what comes too fast is counted as fenced, whatever its tag is; of the rest what has none is
    counted as forged, and makes no entry. The line of each is told once."""
    group = Group(machine, sealing(FIRST), keys=key_texts(FIRST))
    daemon = group.daemon.start()
    with Flood(daemon, pings(daemon), [group.ports[LOUD]]) as flood:
        seconds = group.must_judge(flood)
    closing = daemon.stop()
    ticks = (seconds + SECONDS_MORE) * 1000 / daemon.values["tick_ms"]
    must(closing.entries <= ticks + 100 and closing.wire == 0, f"it ended {closing}")
    told = [it for it in told_lines(daemon, daemon.told) if it.startswith("datagrams from ")]
    address = f"{HOST}:{group.ports[LOUD]}"
    wanted = [rf"datagrams from {address} have no tag by one of our keys, forged \d+"]
    wanted += [rf"datagrams from {address} come faster than the fence lets in, fenced \d+"]
    must(len(told) == 2 and all(any(re.fullmatch(it, line) for line in told) for it in wanted), f"it tells {told}")


def without_a_fence(machine):
    """With `fence = 0` all are handed on, as fast as they are answered: more than a fence of the usual rate lets in
    within a second."""
    daemon, peer, count = machine.started(1, tick_ms=60_000, fence=0), machine.socket(), 4 * RATE
    for first in range(1, count, WINDOW):
        for number in range(first, first + WINDOW):
            peer.sendto(datagram(PING, STRANGER, STRANGER, 1, number), daemon.address)
        found = [fields(peer.recv(100))[4] for _ in range(WINDOW)]
        must(found == list(range(first, first + WINDOW)), f"the pings from {first} on are answered by {found}")
    closing = daemon.stop()
    must(closing == (0, "stopped", count, 0, 0, 0, 0), f"it ended {closing}")
    must(fenced_told(daemon) == [], f"it tells {daemon.told!r}")


def the_rate_is_kept(machine):
    """Of pings that come slower than the rate each is answered, and none is told of; of a burst as many as the rate
    are, and a few that come while the bucket fills."""
    daemon, peer, rate = machine.started(1, tick_ms=60_000, fence=50), machine.socket(), 50
    for number in range(1, rate + 1):
        peer.sendto(datagram(PING, STRANGER, STRANGER, 1, number), daemon.address)
        must(fields(peer.recv(100)) == (ACK, 1, STRANGER, 1, number), f"ping {number} is answered otherwise")
        time.sleep(2 / rate)
    time.sleep(1)
    began = time.monotonic()
    for number in range(1, 4 * rate + 1):
        peer.sendto(datagram(PING, STRANGER, STRANGER, 1, number), daemon.address)
    peer.settimeout(0.5)
    answered, seconds = 0, 0.0
    try:
        while True:
            peer.recv(100)
            answered, seconds = answered + 1, time.monotonic() - began
    except OSError:
        pass
    must(rate <= answered <= rate * (1 + seconds) + 1, f"of a burst {answered} are answered within {seconds:.3f} s")
    closing = daemon.stop()
    must(closing == (0, "stopped", rate + answered, 0, 0, 0, 0), f"it ended {closing}")
    must(len(fenced_told(daemon)) == 1, f"it tells {daemon.told!r}")


FENCES = [
    a_flood_from_a_stranger,
    a_flood_from_a_member,
    a_flood_in_the_names_of_members,
    a_flood_of_recorded_datagrams,
    forgeries_and_a_fence,
    without_a_fence,
    the_rate_is_kept,
]
