"""A daemon whose system gives it too few descriptors, as clients take them. The detector goes on, nobody is judged who
answers, and `stop` is answered."""

import contextlib
import os
import re
import resource
import select
import time

from tests.support.daemons import SECONDS, connected, introduced, must, until
from tests.support.datagrams import ACK, PING, datagram, fields
from tests.support.sayings import LIVES_AND_CLOSING, TIME, but_for_notices
from tests.support.watchers import Watcher, hear
from tests.swimd.daemon_connections import is_closed
from tests.swimd.daemon_starting import must_say, refusal

MINUTE = 60_000
FEW_DESCRIPTORS = 40
CLIENTS = 64
# So many operators are let in however many watch.
OPERATORS = 4
MOST_SECONDS = 1.0
# A period of half a second.
TIMES = {"tick_ms": 20, "rtt": 5, "period": 25}
TURNED_AWAY = re.compile(
    TIME + rb" connections are turned away, as too few descriptors are left, refused (\d+)\n"
)


def limited(most):
    """What a child does before it becomes a daemon that may have so many descriptors."""
    return lambda: resource.setrlimit(resource.RLIMIT_NOFILE, (most, most))


def with_few_descriptors(machine):
    """Two daemons at work, of which the first may have few descriptors, and tells events. Each is told of the other when
    both are there: so nobody is judged who came late."""
    daemon, other = machine.daemon(1, **TIMES, events=f"{machine.folder}/1.events"), machine.daemon(2, **TIMES)
    return introduced([daemon.start(preexec_fn=limited(FEW_DESCRIPTORS)), other.start()])


def must_be_up(daemon, other):
    states = daemon.states()
    must(states == {other.id: "up"}, f"member {daemon.id} lists {states}")


def left(clients):
    """Those of these connections that are still open. What they were told is thrown away."""
    return [it for it in clients if not is_closed(it)]


def let_in(clients):
    """Those of these connections that were let in: they stay open while the others are closed, one after the other."""
    stay, since = left(clients), time.monotonic()
    while time.monotonic() < since + MOST_SECONDS:
        time.sleep(0.05)
        now = left(clients)
        stay, since = now, since if now == stay else time.monotonic()
    return stay


def stopped(daemon):
    """Stops it, and says how many connections it told it had turned away. All else that it tells is as ever."""
    began = time.monotonic()
    must(daemon.ask(b"stop\n") == b"stopping\n", f"member {daemon.id} doesn't stop")
    stdout, stderr = daemon.child.communicate(timeout=SECONDS)
    took = time.monotonic() - began
    must(took < 2 * MOST_SECONDS, f"`stop` takes {took:.1f} seconds")
    found = LIVES_AND_CLOSING.fullmatch(daemon.read + stdout)
    must(found and found[2] == b"stopped" and daemon.child.returncode == 0, f"it ends {stdout[-200:]!r}")
    told = daemon.said + stderr
    rest = but_for_notices(TURNED_AWAY.sub(b"", told))
    must(rest == b"", f"it tells {rest!r}")
    return [int(it) for it in TURNED_AWAY.findall(told)]


def soon(daemon, line=b"list\n"):
    """What it answers, which is to be at once."""
    began = time.monotonic()
    answer = daemon.ask(line)
    took = time.monotonic() - began
    must(took < MOST_SECONDS, f"{line!r} is answered after {took:.1f} seconds")
    return answer


def watchers_that_take_all_descriptors(machine):
    """As many watch as are let in: the others are turned away, and operators are served as ever."""
    daemon, other = with_few_descriptors(machine)
    watchers = [connected(daemon.values["events"]) for _ in range(CLIENTS)]
    until(lambda: TURNED_AWAY.search(daemon.told_so_far()), "it tells that it turns some away", SECONDS)
    stay = let_in(watchers)
    must(0 < len(stay) < CLIENTS // 2, f"{len(stay)} may watch")
    held = [daemon.connect() for _ in range(OPERATORS - 1)]
    for it in held:
        it.sendall(b"gap 9\n")
        must(it.recv(100) == b"gap none\n", "an operator isn't served")
    end = time.monotonic() + 2
    while time.monotonic() < end:
        must(soon(daemon).endswith(b".\n"), "`list` isn't answered")
        must_be_up(daemon, other)
        must_be_up(other, daemon)
    must(left(stay) == stay, "one who watched was turned away later")
    for it in held:
        it.close()
    counts = stopped(daemon)
    must(len(counts) == 1 and 0 < counts[0] <= CLIENTS, f"it tells {counts}")
    must(other.stop().status == 0, "the other one ended otherwise")


def operators_that_take_all_descriptors(machine):
    """Those that are let in are served, and the others are turned away; who watches is let in all the same. Once they
    left, others are served."""
    daemon, other = with_few_descriptors(machine)
    operators = [daemon.connect() for _ in range(CLIENTS)]
    stay = let_in(operators)
    must(OPERATORS <= len(stay) < CLIENTS // 2, f"{len(stay)} operators are let in")
    for it in stay:
        it.sendall(b"list\n")
        must(it.recv(100).endswith(b" up\n.\n"), "an operator isn't served")
    watcher = Watcher(daemon.values["events"])
    hear([watcher], lambda: "." in watcher.lines, "who watches is told the table")
    must_be_up(other, daemon)
    for it in operators:
        it.close()
    until(lambda: daemon.answers(), "once they left, another is served")
    must_be_up(daemon, other)
    counts = stopped(daemon)
    must(counts and counts[0] <= CLIENTS, f"it tells {counts}")
    must(other.stop().status == 0, "the other one ended otherwise")


def no_descriptor_at_all(machine):
    """Where no connection can be taken, whoever connects waits until one can, and the daemon answers pings as ever."""
    daemon, peer = machine.started(members=[(2, "10.0.0.2:7000")], tick_ms=MINUTE), machine.socket()
    soft, hard = resource.prlimit(daemon.child.pid, resource.RLIMIT_NOFILE)
    resource.prlimit(daemon.child.pid, resource.RLIMIT_NOFILE, (3, hard))
    with daemon.connect() as waiting:
        waiting.sendall(b"list\n")
        # Sixteen faults in a row of another kind would have ended it by now.
        for number in range(1, 31):
            peer.sendto(datagram(PING, 9, 9, 1, number), daemon.address)
            must(fields(peer.recv(100)) == (ACK, 1, 9, 1, number), f"ping {number} is answered otherwise")
            time.sleep(0.1)
        must(not select.select([waiting], [], [], 0)[0], "it is answered without a descriptor")
        resource.prlimit(daemon.child.pid, resource.RLIMIT_NOFILE, (soft, hard))
        answer = waiting.recv(100)
        must(answer in (b"2 10.0.0.2:7000 up\n.\n", b""), f"it is answered {answer!r}")
    must(soon(daemon) == b"2 10.0.0.2:7000 up\n.\n", "it is answered otherwise then")
    stopped(daemon)


def too_few_for_a_start(machine):
    """What is missing is told."""
    daemon = machine.daemon(1, events=f"{machine.folder}/1.events", tick_ms=MINUTE)
    paths = {"bind events": daemon.values["events"], "bind control": daemon.control}
    found = set()
    # With fewer its libraries aren't loaded.
    for most in (4, 5, 6):
        stderr = but_for_notices(refusal(daemon, preexec_fn=limited(most)))
        first = stderr.split(b"\n")[0].decode()
        must(first in paths, f"with {most} descriptors it says {stderr!r}")
        must_say(stderr, first, f"  {paths[first]}: too many open files")
        found.add(first)
        with contextlib.suppress(FileNotFoundError):
            os.remove(daemon.values["events"])
    must(found == set(paths), f"it is refused by {found}")


SHORTAGES = [
    watchers_that_take_all_descriptors,
    operators_that_take_all_descriptors,
    no_descriptor_at_all,
    too_few_for_a_start,
]
