"""Members that come back: a failed member is knocked at, and whoever shows that it is there again is joined, without an
operator. Between daemons stands a relay of datagrams, which a test can cut, one pair and one direction at a time."""

import collections
import contextlib
import select
import threading
import time

from tests.support.configurations import HOST
from tests.support.daemons import free_ports, must, stop_all, until
from tests.support.datagrams import ACK, PING, datagram, fields
from tests.support.journals import journals
from tests.support.tags import FIRST, key_texts, sealed, sealing
from tests.swimd.daemon_groups import Answerer, all_up

QUICK = {"tick_ms": 10, "rtt": 3, "period": 12, "k": 1}
SLACK_SECONDS = 1.5
CUTS, ROUNDS, RECORDED_PERIODS = 10, 3, 64
SOON, MOST_TIMES = 16, 64
# What stands in a journal file behind a join that the daemon made by itself.
OWN_JOIN = "# rejoin"


class Wires(threading.Thread):
    """Carries the datagrams between members. By each wire one of them knows the other: what it sends there arrives from
    the address by which the other knows it. What goes by a wire that is cut is lost."""

    def __init__(self, machine, ports):
        super().__init__(daemon=True)
        self.ports = ports
        pairs = [(one, other) for one in ports for other in ports if one != other]
        self.ends = {pair: machine.socket() for pair in pairs}
        self.pairs = {it: pair for pair, it in self.ends.items()}
        self.cut, self.sent = set(), collections.defaultdict(list)
        self.start()

    def run(self):
        # It ends where the sockets are closed.
        with contextlib.suppress(OSError, ValueError):
            while True:
                for it in select.select(list(self.pairs), [], [], 0.1)[0]:
                    self.carry(it)

    def carry(self, socket):
        one, other = self.pairs[socket]
        text, source = socket.recvfrom(100)
        if source != (HOST, self.ports[one]):
            return
        self.sent[one, other].append(text)
        if (one, other) not in self.cut:
            with contextlib.suppress(OSError):
                self.ends[other, one].sendto(text, (HOST, self.ports[other]))

    def known(self, one):
        """The others, as that member knows them."""
        return [(other, self.ends[one, other].getsockname()[1]) for other in self.ports if other != one]

    def part(self, some):
        """Cuts each wire between these and the others."""
        self.cut = {pair for pair in self.ends if (pair[0] in some) != (pair[1] in some)}

    def heal(self):
        self.cut = set()


def wired(machine, count, seed=0, **values):
    """So many daemons that run, behind wires."""
    ports = dict(enumerate(free_ports(count), 1))
    wires = Wires(machine, ports)
    usual = {**QUICK, **values}
    seed_of = lambda id: f"{seed * 1_000 + id:064x}"
    daemons = [machine.daemon(id, port, wires.known(id), seed=seed_of(id), **usual) for id, port in ports.items()]
    for it in daemons:
        it.launch()
    for it in daemons:
        it.ready()
    return daemons, wires


def all_up_within(daemons, periods, what):
    """All tables show all others as up within so many periods, and a little more. Says how many it took."""
    began, seconds = time.monotonic(), periods * daemons[0].period_seconds
    until(lambda: all_up(daemons), what, seconds + SLACK_SECONDS)
    return (time.monotonic() - began) / daemons[0].period_seconds


def judged_by(daemons, id):
    return all(it.states()[id] == "failed" for it in daemons)


def periods_of_a_round(count):
    """Within so many periods each of a group's other members is probed."""
    return 2 * (count - 1) - 1


def killed_and_started_again(machine):
    """All take it back, and it takes them, within a round and the periods between knocks."""
    every = 2
    daemons, _ = wired(machine, 3, rejoin=every)
    until(lambda: all_up(daemons), "all are up before")
    killed, others = daemons[1], [daemons[0], daemons[2]]
    killed.kill()
    until(lambda: judged_by(others, killed.id), "the killed one is judged")
    killed.start()
    took = all_up_within(daemons, periods_of_a_round(3) + every, "it is up again everywhere")
    print(f"  up again everywhere after {took:.1f} periods")
    stop_all(daemons)


def stopped_and_continued(machine):
    """A member that stands still for three rounds is judged, and is up again everywhere soon after it goes on."""
    daemons, _ = wired(machine, 3, rejoin=1)
    still, others = daemons[2], daemons[:2]
    still.stand_still()
    try:
        until(lambda: judged_by(others, still.id), "who stands still is judged")
        time.sleep(ROUNDS * 2 * still.period_seconds)
    finally:
        still.go_on()
    took = all_up_within(daemons, periods_of_a_round(3) + 1, "it is up again everywhere")
    print(f"  up again everywhere after {took:.1f} periods")
    stop_all(daemons)


def a_group_cut_in_two_heals(machine):
    """Two and three, for three rounds: then all are up again everywhere within 4 rounds of knocks, and nobody was told
    anything. Ten times, each with other seeds."""
    took = []
    for seed in range(CUTS):
        daemons, wires = wired(machine, 5, seed, rejoin=1)
        wires.part({1, 2})
        side = lambda id: {1, 2} if id in (1, 2) else {3, 4, 5}
        is_cut = lambda it: all((state == "failed") == (id not in side(it.id)) for id, state in it.states().items())
        until(lambda: all(is_cut(it) for it in daemons), "each side judges the other")
        time.sleep(ROUNDS * 4 * daemons[0].period_seconds)
        wires.heal()
        took.append(all_up_within(daemons, 4 * 3, f"all are up again, with seed {seed}"))
        stop_all(daemons)
    print(f"  up again everywhere after {', '.join(f'{it:.1f}' for it in took)} periods")


def a_wire_cut_one_way(machine):
    """Where one hears the other and isn't heard, it isn't taken back before the wire is mended."""
    daemons, wires = wired(machine, 2, rejoin=1)
    first, second = daemons
    wires.cut = {(2, 1)}
    until(lambda: first.states()[2] == "failed", "who isn't heard is judged")
    until(lambda: second.states()[1] == "failed", "who doesn't get its acks judges, too")
    time.sleep(6 * first.period_seconds)
    must(first.states()[2] == "failed", "a member is up that isn't heard")
    wires.heal()
    all_up_within(daemons, 6, "both are up again")
    stop_all(daemons)


def must_stay_failed(daemon, periods, what):
    """Looks again and again, for about so many periods, that member 2 isn't up."""
    end = time.monotonic() + periods * daemon.period_seconds
    while time.monotonic() < end:
        must(daemon.states()[2] == "failed", f"{what}: it is up")
        time.sleep(0.01)


class Silent:
    """A member that isn't a daemon and answers nothing, and a daemon that judged it."""

    def __init__(self, machine, **values):
        self.socket = machine.socket()
        self.port = self.socket.getsockname()[1]
        self.daemon = machine.started(1, members=[(2, self.port)], **{**QUICK, **values})
        until(lambda: self.daemon.states()[2] == "failed", "who is silent is judged")
        self.verdict = int(self.daemon.table()[2].state.split(" ")[1])

    def knock(self):
        """The next knock: a ping of the daemon's own for a period after the verdict."""
        while True:
            kind, sender, initiator, target, number = fields(self.socket.recv(100))
            must((kind, sender, initiator, target) == (PING, 1, 1, 2), "no ping of its own comes")
            if number > self.verdict:
                return number

    def is_up(self):
        return self.daemon.states()[2] == "up"

    def must_stay_failed(self, periods, what):
        must_stay_failed(self.daemon, periods, what)


def who_never_answers_is_knocked_at(machine):
    """At every third start, with the number of the period that runs, and it is never joined."""
    silent = Silent(machine, rejoin=3)
    numbers = [silent.knock() for _ in range(8)]
    wanted = list(range(numbers[0], numbers[0] + 3 * 8, 3))
    must(numbers == wanted and numbers[0] % 3 == 0, f"the knocks have the numbers {numbers}")
    must(not silent.is_up(), "it is up")
    closing = silent.daemon.stop()
    must(closing.judged == 1 and closing[4:] == (0, 0, 0), f"it ended {closing}")


def knocks_in_turn(machine):
    """Of several failed members each is knocked at in its turn."""
    sockets = {id: machine.socket() for id in (2, 3, 4)}
    members = [(id, it.getsockname()[1]) for id, it in sockets.items()]
    daemon = machine.started(1, members=members, rejoin=1, **QUICK)
    until(lambda: set(daemon.states().values()) == {"failed"}, "all are judged")
    last = max(int(row.state.split(" ")[1]) for row in daemon.table().values())
    found = {}
    while len(found) < 12:
        for it in select.select(list(sockets.values()), [], [])[0]:
            _, sender, initiator, target, number = fields(it.recv(100))
            must((sender, initiator) == (1, 1), "no ping of its own comes")
            if number > last + 1:
                found[number] = target
    turns = [found[it] for it in sorted(found)]
    wanted = [2 + (turns[0] - 2 + at) % 3 for at in range(12)]
    must(turns == wanted, f"they are knocked at in the turns {turns}")
    daemon.stop()


def a_stranger_is_not_believed(machine):
    """Acks in a failed member's name from another address join nobody, and no ping does; its own ack does."""
    silent, stranger = Silent(machine, rejoin=1), machine.socket()
    for _ in range(5):
        number = silent.knock()
        stranger.sendto(datagram(ACK, 2, 1, 2, number), silent.daemon.address)
        stranger.sendto(datagram(PING, 2, 2, 1, number), silent.daemon.address)
    silent.must_stay_failed(3, "a stranger spoke in its name")
    # Acks of no knock, of others' probes, of itself in others' names, and pings of its own and for others.
    for text in (
        datagram(ACK, 2, 1, 2, number + 1_000),
        datagram(ACK, 2, 3, 2, number),
        datagram(ACK, 3, 1, 2, number),
        datagram(PING, 2, 3, 1, number),
        *(datagram(PING, 2, 2, 1, it) for it in (1, number, number + 1)),
    ):
        silent.socket.sendto(text, silent.daemon.address)
    silent.must_stay_failed(3, "no datagram shows that it is there")
    silent.socket.sendto(datagram(ACK, 2, 1, 2, number), silent.daemon.address)
    until(silent.is_up, "it is up after an ack of a knock", 2)
    silent.daemon.stop()


def acks_of_no_knock_are_not_believed(machine):
    """Where it is knocked at in each third period, an ack with the number of another period joins nobody, though that
    is above the verdict's."""
    silent = Silent(machine, rejoin=3)
    for _ in range(4):
        number = silent.knock()
        for other in (number - 2, number - 1, number + 1, number + 2):
            silent.socket.sendto(datagram(ACK, 2, 1, 2, other), silent.daemon.address)
    silent.must_stay_failed(3, "it was knocked at in no such period")
    silent.socket.sendto(datagram(ACK, 2, 1, 2, number), silent.daemon.address)
    until(silent.is_up, "it is up after an ack of a knock", 2)
    silent.daemon.stop()


def what_was_recorded_is_not_believed(machine):
    """In a group with keys a member is judged, comes back, and is judged again. While it is dead, what it may have sent
    before is sent again from its address, sealed as it was: acks of all probes and knocks up to the verdict, and pings
    of its own. It stays failed, and is up again in its turn once it answers a knock."""
    is_dead = [True]
    member = Answerer(machine.socket(), 2, lambda *_: not is_dead, sealing(FIRST))
    usual = {**QUICK, "members": [(2, member.port)], "keys": key_texts(FIRST), "rejoin": 1}
    daemon = machine.started(1, **usual)
    state = lambda: daemon.states()[2]
    until(lambda: state() == "failed", "who is dead is judged")
    is_dead.clear()
    until(lambda: state() == "up", "who answers a knock is up again")
    probed = len(member.came) + ROUNDS
    until(lambda: len(member.came) >= probed, "it is probed again")
    is_dead.append(True)
    until(lambda: state() == "failed", "who is dead is judged again")
    verdict = int(daemon.table()[2].state.split(" ")[1])
    asked = [it for it in (fields(text)[4] for text in list(member.came)) if it <= verdict]
    must(asked[-1] == verdict, f"it was judged in {verdict}, and was last pinged in {asked[-1]}")
    texts = [datagram(ACK, 2, 1, 2, it) for it in asked]
    texts += [datagram(PING, 2, 2, 1, it) for it in (1, 2, *asked[-4:])]
    for _ in range(RECORDED_PERIODS):
        for text in texts:
            member.socket.sendto(sealed(FIRST, text), daemon.address)
        must_stay_failed(daemon, 1, "what is recorded is sent again")
    is_dead.clear()
    began = time.monotonic()
    until(lambda: state() == "up", "who answers a knock is up again", daemon.period_seconds + SLACK_SECONDS)
    print(f"  up again after {(time.monotonic() - began) / daemon.period_seconds:.1f} periods")
    closing = daemon.stop()
    must(closing.judged == 2 and closing[4:] == (0, 0, 0), f"it ended {closing}")


def verdicts_and_joins(daemon):
    """The periods of the verdicts on member 2 and of its joins, in order, by the daemon's journal file."""
    (file,) = journals(daemon.values["journal_dir"], daemon.id)
    period, found = 0, []
    for line in file.text.decode().split("\n"):
        words = line.split(" ")
        if words[0] == "=":
            if words[2] == "started":
                found += [("verdict", period)] if words[4] == "2" else []
                period += 1
            elif words[2] == "joined":
                found.append(("join", period))
    return found


def who_flaps_waits(machine):
    """A member answers knocks and no probes. Whoever is judged again soon after a join waits for twice as many knocks,
    and none is joined with fewer."""
    numbers, peer = [], machine.socket()
    daemon = machine.started(1, members=[(2, peer.getsockname()[1])], rejoin=1, **QUICK)
    end = time.monotonic() + 70 * daemon.period_seconds
    peer.settimeout(0.2)
    while time.monotonic() < end:
        with contextlib.suppress(OSError):
            number = fields(peer.recv(100))[4]
            state = daemon.table()[2].state
            if state != "up" and number > int(state.split(" ")[1]):
                numbers.append(number)
                peer.sendto(datagram(ACK, 2, 1, 2, number), daemon.address)
    daemon.stop()
    times, joined, waits = 1, None, []
    for what, period in verdicts_and_joins(daemon):
        if what == "verdict":
            times = min(MOST_TIMES, 2 * times) if joined is not None and period - joined <= SOON else times
            judged = period
        else:
            knocks = sum(judged < it <= period for it in numbers)
            must(times == 1 or knocks >= times, f"after {knocks} knocks it is joined, and not after {times}")
            joined = period
            waits.append(times)
    must(waits[:4] == [1, 2, 4, 8], f"it waited for {waits} knocks")
    must(waits == [2**it for it in range(len(waits))] and len(waits) <= 6, f"it waited for {waits} knocks")
    print(f"  joined again after {', '.join(map(str, waits))} knocks")


def a_file_tells_own_joins(machine):
    """Behind the answer to a join of the daemon's own stands a comment, in no other place, and so not behind that of an
    operator's join."""
    silent, operators = Silent(machine, rejoin=1), machine.socket()
    silent.socket.sendto(datagram(ACK, 2, 1, 2, silent.knock()), silent.daemon.address)
    until(silent.is_up, "it is up after an ack of a knock", 2)
    answer = silent.daemon.ask(f"join 3 {HOST}:{operators.getsockname()[1]}\n".encode())
    must(answer.startswith(b"joined "), f"an operator's join is answered {answer!r}")
    silent.daemon.stop()
    (file,) = journals(silent.daemon.values["journal_dir"], silent.daemon.id)
    lines = file.text.decode().split("\n")
    joins = {line.split(" ")[1]: at for at, line in enumerate(lines) if line.startswith("join ")}
    must(joins.keys() == {"2", "3"}, f"the file has joins of {joins.keys()}")
    own = [at for at, line in enumerate(lines) if line == OWN_JOIN]
    must(own == [joins["2"] + 2], f"the joins stand in the lines {joins}, and {OWN_JOIN} in {own}")


def without_the_key_nobody_comes_back(machine):
    """Without `rejoin`, and with 0, a failed member is sent nothing and isn't joined, whatever it sends."""
    for values in ({}, {"rejoin": 0}):
        silent = Silent(machine, **values)
        silent.socket.settimeout(0.05)
        with contextlib.suppress(OSError):
            while True:
                silent.socket.recv(100)
        silent.socket.sendto(datagram(PING, 2, 2, 1, 77), silent.daemon.address)
        must(fields(silent.socket.recv(100)) == (ACK, 1, 2, 1, 77), "its ping is answered otherwise")
        for number in range(1, 10):
            silent.socket.sendto(datagram(ACK, 2, 1, 2, number), silent.daemon.address)
        silent.must_stay_failed(8, "without `rejoin`")
        try:
            must(False, f"it is sent {silent.socket.recv(100).hex()}")
        except OSError:
            pass
        silent.daemon.stop()


RETURNS = [
    a_group_cut_in_two_heals,
    killed_and_started_again,
    stopped_and_continued,
    a_wire_cut_one_way,
    who_never_answers_is_knocked_at,
    knocks_in_turn,
    a_stranger_is_not_believed,
    acks_of_no_knock_are_not_believed,
    what_was_recorded_is_not_believed,
    who_flaps_waits,
    a_file_tells_own_joins,
    without_the_key_nobody_comes_back,
]
