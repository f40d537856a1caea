"""Where datagrams of daemons were lost, as `swimsim --trace` tells it from their journal files. Between each two
daemons stands a socket of the test, which forwards what comes from the one to the other, or doesn't."""

import os
import re
import select
import subprocess
import threading
import time

from tests.support.configurations import HOST
from tests.support.daemons import SECONDS, free_ports, must, stop_all, until
from tests.support.datagrams import ACK, PING, REQUEST, fields

NAMES = {PING: "ping", REQUEST: "ping-req", ACK: "ack"}
ONE, LAST, COUNT = 1, 5, 5
TIMES = {"k": 2, "rtt": 4, "period": 16, "tick_ms": 20}
LINE = re.compile(r"  (ping|ping-req|ack) (\d+) -> (\d+): (.*)")
# What becomes of a datagram that comes only when its initiator's next probe begins; others are lost, or aren't.
LATE = "late"


class Wires(threading.Thread):
    """The sockets between daemons. `drops` is asked of each datagram whether it is lost, or LATE, with its fields, who
    sent it and to whom it goes."""

    def __init__(self, machine, ids, drops):
        super().__init__(daemon=True)
        self.drops, self.ports, self.gone, self.late = drops, {}, [], []
        self.sockets = {(a, b): machine.socket() for a in ids for b in ids if a != b}
        self.by_socket = {it: pair for pair, it in self.sockets.items()}

    def address(self, a, b):
        """Where the one sends what is for the other."""
        return f"{HOST}:{self.sockets[a, b].getsockname()[1]}"

    def run(self):
        while True:
            try:
                ready, _, _ = select.select(list(self.by_socket), [], [], 0.2)
                for it in ready:
                    self.forward(it, *it.recvfrom(100))
            except (OSError, ValueError):
                # The sockets are closed.
                return

    def forward(self, wire, text, source):
        a, b = self.by_socket[wire]
        sender, to = (a, b) if source[1] == self.ports[a] else (b, a)
        fate = self.drops(fields(text), sender, to)
        self.gone.append((fields(text), sender, to, fate))
        if not fate:
            wire.sendto(text, (HOST, self.ports[to]))
        if fate == LATE:
            self.late.append((wire, text, to))
        elif self.begins_later(*fields(text)):
            for late, held, receiver in self.late:
                late.sendto(held, (HOST, self.ports[receiver]))
            self.late = []

    def begins_later(self, kind, sender, initiator, *_):
        """Whether a probe begins of the initiator of those that are late."""
        return kind == PING and sender == initiator and initiator in {fields(it)[2] for _, it, _ in self.late}


def group(machine, drops):
    """Five daemons that know one another, each by the sockets between them."""
    ids = range(ONE, COUNT + 1)
    wires = Wires(machine, ids, drops)
    daemons = [machine.daemon(id, port, **TIMES) for id, port in zip(ids, free_ports(COUNT))]
    wires.ports = {it.id: it.port for it in daemons}
    wires.start()
    for it in daemons:
        it.start()
    for it in daemons:
        for other in daemons:
            if other is not it:
                answer = it.ask(f"join {other.id} {wires.address(it.id, other.id)}\n".encode())
                must(answer.startswith(b"joined "), f"a join is answered {answer!r}")
    until(lambda: have_pinged(wires, ids), "each pings each other one")
    return daemons, wires


def have_pinged(wires, ids):
    """Whether each pinged each other one, and was heard."""
    pairs = {(sender, to) for (kind, _, initiator, *_), sender, to, fate in list(wires.gone)
             if kind == PING and sender == initiator and not fate}
    return len(pairs) == len(ids) * (len(ids) - 1)


def is_failed(daemon, id):
    return daemon.states().get(id) == "failed"


def traces(machine, *words):
    """What `--trace` tells of the files of all daemons, by judgement."""
    files = sorted(os.path.join(folder, it) for folder, _, names in os.walk(machine.journals) for it in names)
    ran = subprocess.run(
        [machine.simulator, *words, "--trace", *files], stdout=subprocess.PIPE, stderr=subprocess.PIPE, timeout=SECONDS
    )
    must(ran.returncode == 0, f"status {ran.returncode}: {ran.stderr!r}")
    parts = re.split(r"(?m)^(?=\d+ judged )", ran.stdout.decode())
    return parts[1:]


def lost_acks_are_traced(machine):
    """A probe of the first daemon is lost on each of its paths: each datagram is told as what became of it."""
    lost = {}

    def drops(fields, sender, to):
        kind, _, initiator, target, number = fields
        if not lost.get("armed") or initiator != ONE:
            return False
        if sender == initiator and kind == PING:
            lost.setdefault("probe", (target, number))
        if lost.get("probe") != (target, number):
            return False
        # The ack to the initiator, and what relays send on: so the target answers, and nobody hears it.
        return kind == ACK and to == initiator

    daemons, wires = group(machine, drops)
    lost["armed"] = True
    until(lambda: "probe" in lost and is_failed(daemons[0], lost["probe"][0]), "a verdict on whose acks are lost")
    stop_all(daemons)
    target, number = lost["probe"]
    head = f"1 judged {target} in period {number}\n"
    text = next(it for it in traces(machine, "--judged", str(target)) if it.startswith(head))
    for kind, sender, to, told in LINE.findall(text):
        met = {is_lost for it, a, b, is_lost in wires.gone
               if (NAMES[it[0]], a, b, *it[2:]) == (kind, int(sender), int(to), ONE, target, number)}
        wanted = {True: "lost", False: "heard at"}[met.pop()] if met else "not sent"
        must(wanted in told, f"{kind} {sender} -> {to} is told as {told!r}, and not {wanted}")
    must(f"  so {target} was alive: it answered " in text, f"it is told {text}")


def must_end(machine, id, *ends):
    """What is told of each judgement of that member, which is one of these."""
    found = traces(machine, "--judged", str(id))
    must(found, f"no judgement of member {id}")
    for text in found:
        must(any(f"  so {id} {end}" in text for end in ends), f"it is told {text}")


def a_cut_is_traced(machine):
    """Nothing comes to a daemon any more, whose clock goes on."""
    cut = []
    daemons, _ = group(machine, lambda fields, sender, to: bool(cut) and to == LAST)
    cut.append(True)
    until(lambda: all(is_failed(it, LAST) for it in daemons[:-1]), "verdicts on who hears nothing")
    time.sleep(3 * daemons[0].period_seconds)
    stop_all(daemons)
    must_end(machine, LAST, "was cut off: no ping reached it on ")


def a_kill_is_traced(machine):
    """A daemon is killed: its journal has too few ticks."""
    daemons, _ = group(machine, lambda *_: False)
    daemons[-1].kill()
    until(lambda: all(is_failed(it, LAST) for it in daemons[:-1]), "verdicts on who was killed")
    stop_all(daemons[:-1])
    must_end(machine, LAST, "had ended: no ping reached it on ", "was not reached: no ping reached it on ")


def a_standstill_is_traced(machine):
    """A daemon is stopped by a signal for some periods, and answers too late when it goes on."""
    daemons, _ = group(machine, lambda *_: False)
    daemons[-1].stand_still()
    until(lambda: all(is_failed(it, LAST) for it in daemons[:-1]), "verdicts on who stands still")
    daemons[-1].go_on()
    time.sleep(3 * daemons[0].period_seconds)
    stop_all(daemons)
    stood = "was alive but stood still: it answered "
    # A probe that came just before it stood still leaves no later ping by which to tell that it did.
    must_end(machine, LAST, stood, "was alive: it answered ")
    told = traces(machine, "--judged", str(LAST))
    must(any(f"  so {LAST} {stood}" in it for it in told), f"that it stood still isn't told: {told}")


TRACES = [lost_acks_are_traced, a_cut_is_traced, a_kill_is_traced, a_standstill_is_traced]
