"""Random conversations with a daemon whose first tick is a minute away: datagrams of some members, of both versions,
and control lines, each the same for its seed. What it has to send and answer is what the reference answers to the same
calls as a script.
"""

import random
import subprocess

from tests.generators.random_configs import seed_text
from tests.models.hearing_model import walked
from tests.support.configurations import HOST
from tests.support.daemons import DaemonFault, must, talk, until
from tests.support.datagrams import ACK, PING, REQUEST, datagram

MINUTE = 60_000
MEMBERS = 5
EVENTS = 150
MARKER = 99


def random_datagram(r, me, ports):
    """Mostly one that is answered; now and then one that is dropped, or none at all. What a ping-req of version 2 tells
    is the port of some member, mostly of its target."""
    ids, version = list(ports), r.choice([1, 2])
    id, other, number = r.choice(ids), r.choice(ids), r.randint(1, r.choice([3, 3, 100]))
    kind, *rest = r.choice(
        [
            (PING, id, id, me),
            (PING, id, r.choice([id, other]), r.choice([me, other])),
            (REQUEST, id, id, other),
            (REQUEST, id, id, other),
            (REQUEST, id, r.choice([id, other, me]), r.choice([other, me, 77])),
            (ACK, id, other, id),
            (ACK, id, other, id),
            (ACK, id, r.choice([other, me]), r.choice([id, 77])),
        ]
    )
    at = ports[r.choice([other, other, id])] if (kind, version) == (REQUEST, 2) else None
    text = datagram(kind, *rest, number, version, at)
    return text if r.random() < 0.9 else spoiled(r, text)


def request(r, number, ports):
    """A request of the first member about any, in either version."""
    (first, *_), target, version = ports, r.choice(list(ports)), r.choice([1, 2])
    return datagram(REQUEST, first, first, target, number, version, ports[target] if version == 2 else None)


def spoiled(r, text):
    """Bytes that are nearly a datagram, or another one. The address stays as it is."""
    place = r.choice([0, 1, 2, 2, 3, r.randint(0, 23)])
    cut = [text[:place], text + bytes(r.randint(1, 100)), text[:24], text[:24] + bytes(6), text[:28] + bytes(2)]
    cut.append(text[:place] + bytes([r.choice([0, 1, 2, 3, 255])]) + text[place + 1 :])
    return r.choice(cut + [text[:8] + bytes(4) + text[12:], text[:16] + bytes(8) + text[24:]])


class Conversation:
    """A daemon's opening, the sockets of its members, and what happens: datagrams of one of them, and control lines."""

    def __init__(self, machine, seed):
        r = random.Random(seed)
        self.sockets = {id: machine.socket() for id in r.sample(range(2, 50), MEMBERS)}
        ids = list(self.sockets)
        self.sockets[MARKER] = machine.socket()
        self.addresses = {id: f"{HOST}:{it.getsockname()[1]}" for id, it in self.sockets.items()}
        members = [(id, self.addresses[id]) for id in r.sample(ids, r.randint(0, MEMBERS))]
        self.limit = r.choice([1_000_000, 1_000_000, 100])
        chooser, version = seed_text(r), r.choice([1, 2])
        ports = {id: self.sockets[id].getsockname()[1] for id in ids}
        # More requests than may wait, in one conversation of five.
        self.events = [(ids[0], request(r, number, ports)) for number in range(100)] if r.random() < 0.2 else []
        for number in range(EVENTS):
            self.events.append(self.random_event(r, ports))
            if isinstance(self.events[-1], str):
                # Lines come by another thread than datagrams: those before it have to be through.
                self.events.insert(-1, (MARKER, datagram(PING, MARKER, MARKER, 1, 1_000 + number)))
        self.events.append((MARKER, datagram(PING, MARKER, MARKER, 1, 9_999)))
        self.head = [
            f"open 1 1 3 10 0 {self.limit}",
            f"wire {version}",
            f"seed {chooser}",
            *(f"row {id} {at}" for id, at in members),
        ]
        self.daemon = machine.started(
            1, members=members, seed=chooser, journal=self.limit, tick_ms=MINUTE, wire=version
        )

    def random_event(self, r, ports):
        id = r.choice(list(ports))
        if r.random() < 0.85:
            return id, random_datagram(r, 1, ports)
        return r.choice(
            [f"join {id} {self.addresses[id]}", f"join {id} {self.addresses[id]}", f"remove {id}", f"gap {id}"]
        )

    def script(self):
        """The same as a script of the reference."""
        lines = [it if isinstance(it, str) else f"hear {self.addresses[it[0]]} {it[1].hex()}" for it in self.events]
        return "".join(f"{line}\n" for line in self.head + lines).encode()

    def wanted(self, reference):
        """For each event the line that answers it, and what is sent."""
        ran = subprocess.run([reference], input=self.script(), capture_output=True, timeout=60)
        must(ran.returncode == 0, f"the reference refuses the conversation: {ran.stderr!r}")
        unlike, self.cases = walked(self.script(), ran.stdout, "")
        must(not unlike, f"the reference answers otherwise than the model: {unlike[:3]}")
        answers = []
        for line in ran.stdout.decode().splitlines():
            if line.startswith("> "):
                answers[-1][1].append(line[2:].split(" "))
            else:
                answers.append((line, []))
        return answers

    def play(self, answers):
        """Plays it up to its end, or up to where the journal is full."""
        for event, (answer, sent) in zip(self.events, answers):
            if isinstance(event, str):
                with self.daemon.connect() as connection:
                    found = talk(connection, [event.encode() + b"\n"])
                must(found.decode() == f"{answer}\n", f"{event} is answered {found!r}, and not {answer}")
            else:
                self.sockets[event[0]].sendto(event[1], self.daemon.address)
            if answer == "journal full":
                return
            for peer, text in sent:
                self.receive(peer, text, event)

    def receive(self, peer, text, event):
        id = next(it for it, address in self.addresses.items() if address == peer)
        found = self.sockets[id].recv(100).hex()
        must(found == text, f"behind {event} member {id} gets {found}, and not {text}")

    def must_have_ended(self, answers):
        """The lines of its lives, and that nothing else was sent. Behind a full journal nothing was played."""
        calls = [answer for answer, _ in answers]
        is_full = "journal full" in calls
        calls = calls[: calls.index("journal full")] if is_full else calls
        wire = sum(it.startswith("wire") for it in calls)
        entries = sum(not it.startswith(("wire", "gap")) for it in calls)
        # A `stop` that comes while a life ends by its full journal is one of that life.
        until(lambda: self.daemon.lives_so_far() >= is_full, "the first life ends")
        closing, counts = self.daemon.stop(), (entries, 0, 0, wire, 0)
        lives, wanted = ([(0, *counts)], (0,) * 5) if is_full else ([], counts)
        must(self.daemon.lives == lives, f"its lives are {self.daemon.lives}, and not {lives}")
        must(closing == (0, "stopped", *wanted), f"it ended {closing}, and not {wanted}")
        for id, it in self.sockets.items():
            it.setblocking(False)
            try:
                raise DaemonFault(f"member {id} was sent {it.recv(100).hex()} beside")
            except BlockingIOError:
                pass
