"""Random courses of a daemon whose members are played here: some answer its pings, some only through a relay, some
never. Whom it pings and whom it asks, in which order, with which numbers and in which version, is what the reference
sends that plays the same ticks and acks as a script.

In every second course the journal is full every few periods, so that life follows life: the call that meets the full
journal is in no life, and the next one begins with the members that are known, up or failed, and the last number. What
the lives tell in the end, and which members failed in which period, is what the reference's run with lives says.

All members share one socket, so that what is sent comes in its order. An ack is on its way as soon as the ping has
come, and has a tick of fifty milliseconds to be in time. The first of several requests to relays is answered.
"""

import random
import re
import subprocess

from tests.generators.random_configs import seed_text
from tests.support.configurations import HOST
from tests.support.daemons import must, until
from tests.support.datagrams import ACK, PING, datagram, fields, version_of

TICKS = {"rtt": 2, "period": 6, "tick_ms": 50}
PERIODS = 12
DIRECT, RELAYED, NEVER = "direct", "relayed", "never"


class Course:
    def __init__(self, machine, seed):
        r = random.Random(seed)
        self.socket = machine.socket()
        self.peer = f"{HOST}:{self.socket.getsockname()[1]}"
        ids = r.sample(range(2, 100), r.randint(2, 10))
        self.answers = {id: r.choice([DIRECT, DIRECT, RELAYED, NEVER]) for id in ids}
        self.k, self.last, self.chooser = r.randint(0, 4), r.choice([0, 7, 2**63 - 1]), seed_text(r)
        self.limit, self.version = r.randint(8, 30) if seed % 2 else 1_000_000, r.choice([1, 2])
        values = {
            "k": self.k, "last": self.last, "seed": self.chooser, "journal": self.limit, "wire": self.version, **TICKS
        }
        self.answered = set()
        self.daemon = machine.daemon(1, members=[(id, self.peer) for id in ids], **values)

    def opening(self):
        yield f"open 1 {self.k} {TICKS['rtt']} {TICKS['period']} {self.last} {self.limit}"
        yield f"wire {self.version}"
        yield f"seed {self.chooser}"
        yield from (f"row {id} {self.peer}" for id in self.answers)

    def played(self, reference, lines):
        script = "".join(f"{line}\n" for line in lines)
        ran = subprocess.run([reference, "--lives"], input=script.encode(), capture_output=True, timeout=60)
        must(ran.returncode == 0, f"the reference refuses the course: {ran.stderr!r}")
        return ran.stdout.decode().splitlines()

    def wanted(self, reference):
        """All that is sent in so many ticks. After each tick, what it sent is looked up, and who answers that,
        answers."""
        lines, sent = list(self.opening()), []
        for _ in range(PERIODS * TICKS["period"]):
            lines.append("tick")
            all_sent = [line.split(" ")[2] for line in self.played(reference, lines) if line.startswith("> ")]
            for text in all_sent[len(sent) :]:
                ack = self.ack(bytes.fromhex(text))
                lines += [f"hear {self.peer} {ack.hex()}"] if ack else []
            sent = all_sent
        self.answered.clear()
        self.told = self.played(reference, [*lines, "table"])
        return sent

    def ack(self, text):
        """What a datagram is answered with in its version, if it is."""
        kind, _, _, target, number = fields(text)
        if self.answers[target] != (DIRECT if kind == PING else RELAYED) or (target, number) in self.answered:
            return None
        self.answered.add((target, number))
        return datagram(ACK, target, 1, target, number, version_of(text))

    def play(self, wanted):
        self.daemon.start()
        for place, text in enumerate(wanted):
            found = self.socket.recv(100)
            must(found.hex() == text, f"datagram {place} is {found.hex()}, and not {text}, with members {self.answers}")
            ack = self.ack(found)
            if ack:
                self.socket.sendto(ack, self.daemon.address)

    def must_have_ended(self):
        """Those that never answer were judged, if they were probed; nobody else was."""
        states = self.daemon.states()
        for id, state in states.items():
            answers = self.answers[id] == DIRECT or (self.answers[id] == RELAYED and self.k and self.has_relays(states))
            must(state == "up" or not answers, f"member {id}, which answers, is judged: {states}")
        self.must_have_failed()
        ended = self.told.count("journal full")
        until(lambda: self.daemon.lives_so_far() >= ended, f"{ended} lives end")
        must(self.daemon.stop().status == 0, "it ended otherwise")
        self.must_have_lived()

    def must_have_failed(self):
        """Who failed in these periods is listed so soon, with the same number."""
        rows = [re.fullmatch(r"(\d+) \S+ (failed \d+)", line) for line in self.told]
        failed = {int(it[1]): it[2] for it in rows if it}

        def are_listed():
            table = self.daemon.table()
            return all(id in table and table[id].state == state for id, state in failed.items())

        until(are_listed, f"these rows are listed: {failed}")

    def must_have_lived(self):
        """The lives that ended in these periods had all their entries, and as many judgements."""
        lives = "\n".join(self.told).split("journal full\n")[:-1]
        wanted = [(self.limit, len(re.findall(r"^started judged \d", it, re.MULTILINE))) for it in lives]
        found = [(it.entries, it.judged) for it in self.daemon.lives[: len(lives)]]
        must(found == wanted, f"its lives are {found}, and not {wanted}")

    def has_relays(self, states):
        """Whether there was somebody to be asked all the time: another one is listed still."""
        return sum(it == "up" for it in states.values()) > 1
