"""What a daemon answers, sends and judges is the same without journal files, with them, and where they can't be made or
written."""

import itertools
import select

from tests.support.daemons import must, until
from tests.support.datagrams import ACK, PING, REQUEST, datagram, fields
from tests.support.journals import in_one_folder
from tests.swimd.daemon_journal_faults import FEW_BYTES, MINUTE, limited

SEED = "00112233445566778899aabbccddeeff" * 2


class Talk:
    """A conversation with a daemon whose lives are short and whose first tick is a minute away: what it is answered is
    the same whenever it is held. It ends each part by a ping; where that or what came before met a full journal, by
    another."""

    def __init__(self, machine, id, how, **values):
        self.peer, self.numbers, self.heard, self.lives = machine.socket(), itertools.count(1_000), [], 0
        self.at = f"127.0.0.1:{self.peer.getsockname()[1]}"
        members = [(5, self.at), (6, self.at)]
        self.daemon = machine.daemon(id, members=members, tick_ms=MINUTE, journal=9, seed=SEED, **values)
        self.daemon.may_be_cut = True
        self.daemon.start(**how)

    def send(self, *texts):
        for it in texts:
            self.peer.sendto(it, self.daemon.address)
        self.end_of_part()

    def end_of_part(self):
        """Hears what comes up to the ack of a ping. What a life was answered before its end comes before that of the
        next one."""
        while True:
            number, me = next(self.numbers), self.daemon.id
            self.peer.sendto(datagram(PING, 5, 5, me, number), self.daemon.address)
            until(lambda: self.is_heard(number) or self.daemon.lives_so_far() > self.lives,
                  f"ping {number} is answered")
            if self.daemon.lives_so_far() == self.lives:
                return
            self.lives = self.daemon.lives_so_far()

    def is_heard(self, number):
        """Hears one datagram, if it is there: whether it is that ack. The daemon's own id is another one in each
        conversation."""
        if not select.select([self.peer], [], [], 0.02)[0]:
            return False
        kind, _, initiator, _, found = fields(self.peer.recv(100))
        self.heard += [] if found >= 1_000 else [(kind, initiator, found)]
        return found == number

    def ask(self, line):
        """Where the journal was full the line is lost, and its answer says so."""
        self.heard.append(self.daemon.ask(line).replace(self.at.encode(), b"AT"))
        self.end_of_part()


def talked(machine, id, how=None, **values):
    """All that a daemon answers and sends, and what its lives tell."""
    it = Talk(machine, id, how or {}, **values)
    for number in range(1, 13):
        it.send(datagram(PING, 5, 5, id, number), datagram(REQUEST, 5, 5, 6, number))
        it.send(datagram(ACK, 6, 5, 6, number), b"none")
        at = it.at.encode()
        it.ask(b"join %d %s\n" % (number + 100, at) if number % 3 else b"remove 6\njoin 6 %s\n" % at)
        it.ask(b"gap 5\nlist\n")
    return it.heard, it.daemon.lives_so_far(), it.daemon.stop(), it.daemon.lives


def probed(machine, id, how=None, **values):
    """Whom a daemon probes in some lives, with which numbers: nobody answers, so each is judged in its turn."""
    peer = machine.socket()
    at = f"127.0.0.1:{peer.getsockname()[1]}"
    members, times = [(it, at) for it in range(20, 32)], {"k": 2, "rtt": 1, "period": 3, "tick_ms": 10}
    daemon = machine.daemon(id, members=members, journal=14, seed=SEED, **times, **values)
    daemon.may_be_cut = True
    daemon.start(**(how or {}))
    sent = [fields(peer.recv(100)) for _ in range(30)]
    until(lambda: all(it == "failed" for it in daemon.states().values()), "all are judged")
    table = {it: row.state for it, row in daemon.table().items()}
    must(daemon.stop().status == 0, "it ended otherwise")
    return [(kind, target, number) for kind, _, _, target, number in sent], table


def the_same_whatever_fails(machine):
    """What a daemon without files answers, sends and judges, one with files does, and one whose files can't be made or
    written."""
    file, few = f"{machine.folder}/file", {"preexec_fn": lambda: limited(FEW_BYTES // 2)}
    with open(file, "w"):
        pass
    kinds = [{"journal_dir": None}, {}, {"journal_dir": f"{machine.folder}/none"}, {"journal_dir": file}, {"how": few}]
    for play in (talked, probed):
        # The ids differ, so that files of the same second have other names.
        found = [play(machine, id, **it) for id, it in enumerate(kinds, 11 if play is talked else 41)]
        for it, kind in zip(found[1:], kinds[1:]):
            must(it == found[0], f"with {kind} {play.__name__} is {it}, and without files {found[0]}")
        must(len(found[0][0]) >= 30, f"there is little to compare: {found[0]}")


JOURNAL_ANSWERS = [in_one_folder(the_same_whatever_fails)]
