"""Groups of daemons: who is listed as what, where members fail, are cut off, come back, or are flooded."""

import contextlib
import os
import shutil
import threading
import time

from tests.support.daemons import ONE_ARENA, introduced, memory_of, must, stop_all, until
from tests.support.datagrams import ACK, PING, REQUEST, datagram, fields, version_of
from tests.support.parts import leave_out, reference

FLOOD_SECONDS = 10
BETWEEN_ANSWERS = 0.01
MOST_GROWTH = 2**21
# So many pings a second leave room in the longest journal.
MOST_PINGS = 75_000


class Answerer(threading.Thread):
    """A member that isn't a daemon: it answers the pings that it is told to, each in its version, and keeps which came,
    and all bytes that did. What it sends for the text of an ack is told by `seal`, and how often by `times`."""

    def __init__(self, socket, id, answers, seal=bytes, times=1):
        super().__init__(daemon=True)
        self.socket, self.id, self.answers, self.pings, self.versions = socket, id, answers, [], set()
        self.port, self.seal, self.times, self.came = socket.getsockname()[1], seal, times, []
        self.start()

    def run(self):
        # It ends where its socket is closed.
        with contextlib.suppress(OSError):
            while True:
                self.hear(*self.socket.recvfrom(100))

    def hear(self, text, source):
        kind, sender, initiator, target, number = fields(text)
        self.came.append(text)
        if kind == PING and target == self.id:
            self.pings.append((sender, initiator))
            self.versions.add((sender, version_of(text)))
            if self.answers(sender, initiator):
                self.answer(self.seal(datagram(ACK, self.id, initiator, self.id, number, version_of(text))), source)

    def answer(self, text, to):
        self.socket.sendto(text, to)
        for _ in range(self.times - 1):
            time.sleep(BETWEEN_ANSWERS)
            self.socket.sendto(text, to)


def all_up(daemons):
    ids = {it.id for it in daemons}
    return all(it.states() == {id: "up" for id in ids - {it.id}} for it in daemons)


def must_stay_up(daemons, periods):
    """Looks again and again, for about so many periods, that nobody lists anybody as failed."""
    end = time.monotonic() + periods * daemons[0].period_seconds
    while time.monotonic() < end:
        must(all_up(daemons), f"a verdict on a member that answers: {[it.states() for it in daemons]}")


def was_probed(daemon, id):
    """Whether it probed the member twice, and so has a gap of it."""
    return daemon.ask(b"gap %d\n" % id) != b"gap none\n"


def must_be_quiet(closing, judged):
    """It was stopped, nothing failed, and no datagram was garbage. It judged so many, or one of a member that was
    stopped before it, too."""
    good = closing[:2] == (0, "stopped") and closing[4:] == (0, 0, 0) and closing.judged >= judged
    must(good, f"it ended {closing}, with {judged} to be judged")


def two_members(machine):
    """They hear one another. Their entries are one join, their ticks, their acks, and the pings of the other."""
    began, period = time.monotonic(), 9
    daemons = machine.group(2, period=period)
    for it in daemons:
        until(lambda: was_probed(it, 3 - it.id), f"member {it.id} probes the other twice")
    must(all_up(daemons), f"their tables are {[it.states() for it in daemons]}")
    numbers = [int(it.ask(b"gap %d\n" % (3 - it.id)).split()[2]) for it in daemons]
    closings = stop_all(daemons)
    ticks = (time.monotonic() - began) / 0.02 + 2
    for number, closing in zip(numbers, closings):
        least, most = (number - 1) * (period + 1) + 2, ticks + 3 * (ticks / period + 2)
        must(least <= closing.entries <= most, f"{closing.entries} entries in {ticks:.0f} ticks")
        must_be_quiet(closing, 0)


def five_members_of_which_one_is_killed(machine):
    daemons = machine.group(5)
    killed, others = daemons[2], daemons[:2] + daemons[3:]
    for it in daemons:
        until(lambda: was_probed(it, 1 if it.id != 1 else 2), f"member {it.id} probes somebody twice")
    must(all_up(daemons), "not all are up before")
    killed.kill()
    wanted = lambda it: {other.id: "failed" if other is killed else "up" for other in daemons if other is not it}
    for it in others:
        until(lambda: it.states()[killed.id] == "failed", f"member {it.id} judges the killed one")
    must(all(it.states() == wanted(it) for it in others), f"their tables are {[it.states() for it in others]}")
    entries = [it.ask(b"gap 1\ngap 2\nremove 3\nlist\n").count(b"\n") for it in others]
    must(entries == [7] * 4, "a failed member can't be removed")
    for closing in stop_all(others):
        must_be_quiet(closing, 1)


def an_ack_through_a_relay(machine):
    """Member 3 answers relays alone: member 1 keeps it. Then it doesn't answer them either, and 1 judges it, but not
    2."""
    is_cut = threading.Event()
    direct = lambda sender, initiator: initiator != 1 or (sender != 1 and not is_cut.is_set())
    third = Answerer(machine.socket(), 3, direct)
    second = machine.started(2, members=[(3, third.port)])
    first = machine.started(1, members=[(2, second.port), (3, third.port)])
    until(lambda: third.pings.count((2, 1)) >= 10, "ten pings through the relay")
    must(first.states() == {2: "up", 3: "up"}, f"member 1 lists {first.states()}")
    is_cut.set()
    until(lambda: first.states()[3] == "failed", "member 1 judges a member that is cut off")
    must(first.states()[2] == "up" and second.states() == {3: "up"}, "a verdict on another member")
    must_be_quiet(first.stop(), 1)


def requests_are_relayed(machine):
    """A ping-req is passed on to its target, and the ack to who asked, once."""
    target, asker = machine.socket(), machine.socket()
    daemon = machine.started(1, members=[(3, target.getsockname()[1])], tick_ms=60_000)
    asker.sendto(datagram(REQUEST, 2, 2, 3, 9), daemon.address)
    text, source = target.recvfrom(100)
    must(fields(text) == (PING, 1, 2, 3, 9) and source == daemon.address, f"the target gets {text.hex()}")
    for _ in range(2):
        target.sendto(datagram(ACK, 3, 2, 3, 9), daemon.address)
    must(fields(asker.recv(100)) == (ACK, 1, 2, 3, 9), "the asker gets another ack")
    asker.sendto(datagram(PING, 2, 2, 1, 10), daemon.address)
    must(fields(asker.recv(100)) == (ACK, 1, 2, 1, 10), "the second ack is forwarded too")
    closing = daemon.stop()
    must(closing.entries == 4 and closing[4:] == (0, 0, 0), f"it ended {closing}")


def a_member_that_comes_back(machine):
    daemons = machine.group(3)
    killed, others = daemons[1], [daemons[0], daemons[2]]
    killed.kill()
    for it in others:
        until(lambda: it.states()[2] == "failed", f"member {it.id} judges the killed one")
    killed.start().join(*others)
    for it in others:
        it.join(killed)
        must(it.states()[2] == "up", f"member {it.id} doesn't list who joined")
    must_stay_up(daemons, 8)
    for closing, judged in zip(stop_all(daemons), (1, 0, 1)):
        must_be_quiet(closing, judged)


def a_group_with_another_program(machine):
    """Two daemons beside two of tests/reference, which is an ordinary program for the same format: all hear one
    another, and those of both kinds that are killed are judged by those of both kinds."""
    if not shutil.which("rustc"):
        leave_out("rustc, the Rust compiler, is not on PATH, so no group with another program was run")
        return
    ordinary = reference()
    daemons = [machine.daemon(id) for id in range(1, 5)]
    for it in daemons[:2]:
        it.program = ordinary
    introduced([it.start() for it in daemons])
    must_stay_up(daemons, 8)
    killed, others = daemons[1:3], [daemons[0], daemons[3]]
    for it in killed:
        it.kill()
    for it in others:
        wanted = {id: "failed" if id in (2, 3) else "up" for id in range(1, 5) if id != it.id}
        until(lambda: it.states() == wanted, f"member {it.id} judges both that were killed")
    for closing in stop_all(others):
        must_be_quiet(closing, 2)


def a_group_that_changes_lives(machine):
    """Each journal is full every few seconds. One member is killed: it is judged by all, and nobody else is, in
    whatever life. The end of a life loses a datagram. So that no probe is lost with all its relays, all others are
    asked, and journals of different lengths aren't full at the same moment."""
    lengths = {id: 60 + 10 * id for id in range(1, 6)}
    daemons = [machine.daemon(id, tick_ms=50, k=3, journal=length) for id, length in lengths.items()]
    introduced([it.start() for it in daemons])
    for it in daemons:
        until(lambda: it.lives_so_far() >= 1, f"member {it.id} has a second life")
    must(all_up(daemons), f"a verdict on a member that answers: {[it.states() for it in daemons]}")
    killed, others = daemons[2], daemons[:2] + daemons[3:]
    killed.kill()
    for it in others:
        until(lambda: it.states()[killed.id] == "failed", f"member {it.id} judges the killed one", 60)
    lives = [it.lives_so_far() for it in others]
    for it, count in zip(others, lives):
        until(lambda: it.lives_so_far() > count + 1, f"member {it.id} has two more lives")
    wanted = lambda it: {other.id: "failed" if other is killed else "up" for other in daemons if other is not it}
    must(all(it.states() == wanted(it) for it in others), f"their tables are {[it.states() for it in others]}")
    for it, closing in zip(others, stop_all(others)):
        judged = sum(life.judged for life in it.lives) + closing.judged
        must(closing.status == 0 and judged >= 1, f"member {it.id} ended {closing} after {it.lives}")
        must(
            all(life[1] == lengths[it.id] and life[3:] == (0, 0, 0) for life in it.lives),
            f"the lives of member {it.id} are {it.lives}",
        )


def memory_of_lives(machine):
    """A life that ended gives its memory back: after many there isn't more of it than after some."""
    how = {"env": {**os.environ, **ONE_ARENA}}
    daemon, sender = machine.started(how=how, tick_ms=60_000, journal=10_000, fence=0), machine.socket()
    number, found = 0, []
    for lives in (10, 40):
        while daemon.lives_so_far() < lives:
            for number in range(number + 1, number + 101):
                sender.sendto(datagram(PING, 9, 9, 1, number), daemon.address)
            time.sleep(0.002)
        found.append(memory_of(daemon, "VmHWM"))
    print(f"  in ten lives of 10,000 entries {found[0]:,} bytes at most, in forty {found[1]:,}")
    must(found[1] < found[0] + MOST_GROWTH, "it grows from life to life")
    daemon.kill()


def flood(socket, daemon, seconds):
    """Garbage and pings, as fast as the pings are answered. Says how many of each were sent, and how often an ack of
    fifty didn't come."""
    count, lost, began = 0, 0, time.monotonic()
    while time.monotonic() < began + seconds:
        for number in range(1, 51):
            socket.sendto(datagram(PING, 9, 9, daemon.id, count + number), daemon.address)
            socket.sendto(b"garbage that is no datagram"[: number % 24], daemon.address)
        count += 50
        try:
            for _ in range(50):
                socket.recv(100)
        except OSError:
            lost += 1
        time.sleep(max(0.0, began + count / MOST_PINGS - time.monotonic()))
    return count, lost


def a_flood(machine):
    """Ten seconds of it, as fast as one sender keeps it up: nobody is judged, all garbage is counted, all pings
    answered."""
    daemons = machine.group(3, rtt=10, period=30, fence=0)
    sender = machine.socket()
    count, lost = flood(sender, daemons[0], FLOOD_SECONDS)
    print(f"  {count:,} pings and as much garbage in {FLOOD_SECONDS} seconds; {lost} times an ack didn't come")
    must(all_up(daemons), f"a false verdict: {[it.states() for it in daemons]}")
    closing = daemons[0].stop()
    must(lost > 0 or closing.wire == count, f"{closing.wire} of {count} datagrams of garbage were counted")
    must(lost > 0 or closing.entries >= count, f"{closing.entries} entries after {count} pings")
    must(closing.judged == 0 and closing.status == 0, f"it ended {closing}")


def receive_buffer():
    try:
        with open("/proc/sys/net/core/rmem_default") as file:
            return int(file.read())
    except OSError:
        return 0


def a_burst_of_pings(machine):
    """1,024 pings at once, more than a receive buffer of the usual size holds. Those that it held are answered."""
    daemon, sender, answered = machine.started(tick_ms=60_000, fence=0), machine.socket(), set()

    def collect():
        while True:
            try:
                answered.add(fields(sender.recv(100))[4])
            except OSError:
                return

    threading.Thread(target=collect, daemon=True).start()
    for number in range(1, 1_025):
        sender.sendto(datagram(PING, 9, 9, 1, number), daemon.address)

    def is_behind():
        """A ping behind the burst is sent until one was answered. Its ack comes behind those of the burst."""
        sender.sendto(datagram(PING, 9, 9, 1, 5_000), daemon.address)
        return 5_000 in answered

    until(is_behind, "a ping behind the burst")
    count = len(answered - {5_000})
    print(f"  of a burst of 1,024 pings {count} were answered; a receive buffer has {receive_buffer():,} bytes here")
    must(count >= min(1_024, receive_buffer() // 1_280), f"only {count} were answered")
    closing = daemon.stop()
    must(closing.entries >= count and closing[4:] == (0, 0, 0), f"it ended {closing} after {count} acks")


GROUPS = [
    two_members,
    five_members_of_which_one_is_killed,
    an_ack_through_a_relay,
    requests_are_relayed,
    a_member_that_comes_back,
    a_group_with_another_program,
    a_group_that_changes_lives,
    memory_of_lives,
    a_burst_of_pings,
    a_flood,
]
