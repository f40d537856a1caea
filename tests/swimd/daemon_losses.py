"""Each kind of loss between daemons, as `swimsim --trace` tells it: what became of each datagram of the probe, exactly,
and what follows."""

import re
import time
from typing import NamedTuple

from tests.support.configurations import HOST
from tests.support.daemons import must, stop_all, until
from tests.support.datagrams import ACK, PING, REQUEST, datagram
from tests.support.losses import LOSSES, name_of
from tests.support.networks import Leg, Probe
from tests.swimd.daemon_traces import LATE, LINE, NAMES, ONE, group, is_failed, traces

LOST, PASSES = True, False
SENT = r"sent at entry \d+ of {0}(?: \(\d+\))?"
# What is told of a datagram of these fates.
TOLD = {
    LOST: SENT + "; lost: {1} never heard it",
    LATE: SENT + r"; heard at entry \d+ of {1}, dropped 6 stray, as the period ended at entry \d+",
    PASSES: SENT + r"; heard at entry \d+ of {1}, {2}",
}


class Judged(NamedTuple):
    """A probe of the first daemon after which its target was judged, and whom it asked."""

    probe: Probe
    relays: list


class Plan:
    """What a network does with the datagrams of the first daemon's next probe: `broken` has the fates of those that
    don't pass, by their names (tests/support/losses.py). A fate that is a function is called with whom it goes to."""

    def __init__(self, broken):
        self.broken, self.probe, self.relays = broken, None, []

    def __call__(self, fields, sender, to):
        kind, _, *names = fields
        probe = Probe(*names)
        if self.probe is None and (kind, sender, probe.initiator) == (PING, ONE, ONE):
            self.probe = probe
        if self.probe != probe:
            return PASSES
        if kind == REQUEST and to not in self.relays:
            self.relays.append(to)
        fate = self.broken.get(name_of(Leg(kind, sender, to), probe, self.relays), PASSES)
        return fate(to) if callable(fate) else fate


def judged(daemons, wires, broken):
    """A verdict of the first daemon, on whose probe that was lost."""
    wires.drops = plan = Plan(broken)
    until(lambda: plan.probe and is_failed(daemons[ONE - 1], plan.probe.target), f"a verdict, where {broken} are lost")
    return Judged(plan.probe, plan.relays)


def must_tell(text, found, wires, wanted):
    """What is told of a judgement is what the network did, and ends so: T stands for the target there, and A and B for
    the relays."""
    lines = {Leg(kind, int(sender), int(to)): told for kind, sender, to, told in LINE.findall(text)}
    fates = {Leg(NAMES[fields[0]], sender, to): fate for fields, sender, to, fate in list(wires.gone)
             if Probe(*fields[2:]) == found.probe}
    must(lines.keys() == fates.keys(), f"the ways are {fates}, and it is told {text}")
    for leg, fate in fates.items():
        answer = "answered" if leg.kind == "ping" else "forwarded"
        must(re.fullmatch(TOLD[fate].format(leg.sender, leg.to, answer), lines[leg]), f"{leg}: it is told {text}")
    for letter, id in zip("TAB", [found.probe.target, *found.relays]):
        wanted = wanted.replace(letter, str(id))
    if ": it stood still\n" in text:
        # A daemon may stand still by itself, on a machine at work.
        wanted = wanted.replace(" was alive:", " was alive but stood still:").replace(" was cut off:", " stood still:")
    end = text.splitlines()[-1]
    # Of two relays the one may be asked before the other is, which the network can't know.
    must(sorted(end.split("; ")) == sorted(f"  so {wanted}".split("; ")), f"it ends with {end!r}, and not {wanted!r}")


def trace_of(machine, found):
    head = f"{ONE} judged {found.probe.target} in period {found.probe.number}\n"
    return next(it for it in traces(machine, "--judged", str(found.probe.target)) if it.startswith(head))


def chosen_losses_are_traced(machine):
    """Each kind of loss, one after the other in one group: who was judged is listed again before the next."""
    daemons, wires = group(machine, lambda *_: PASSES)
    all_found = []
    for broken, wanted in LOSSES.values():
        fates = {name: LOST if later is None else LATE for name, later in broken.items()}
        found = judged(daemons, wires, fates)
        all_found.append((found, wanted))
        target = found.probe.target
        until(lambda: not wires.late, "what is late comes")
        answer = daemons[ONE - 1].ask(f"join {target} {wires.address(ONE, target)}\n".encode())
        must(answer.startswith(b"joined "), f"a join is answered {answer!r}")
    stop_all(daemons)
    for found, wanted in all_found:
        must_tell(trace_of(machine, found), found, wires, wanted)


def a_relay_that_is_down_is_traced(machine):
    """A relay is killed when it is asked, and the rest is lost."""
    daemons, wires = group(machine, lambda *_: PASSES)
    dead = []

    def killed(id):
        daemons[id - 1].kill()
        dead.append(id)
        return LOST

    found = judged(daemons, wires, {("ack",): LOST, ("request", 0): killed, ("request", 1): LOST})
    stop_all([it for it in daemons if it.id not in dead])
    lost = "lost ack T -> 1; lost ping-req 1 -> A; lost ping-req 1 -> B"
    wanted = f"T was alive: it answered 1 ping of this probe; {lost}"
    must_tell(trace_of(machine, found), found, wires, wanted)


def a_forged_ack_is_traced(machine):
    """An ack comes that nobody sent."""
    daemons, wires = group(machine, lambda *_: PASSES)
    found = judged(daemons, wires, {("ping",): LOST, ("request", 0): LOST, ("request", 1): LOST})
    target, number = found.probe.target, found.probe.number
    forged = datagram(ACK, target, ONE, target, number)
    wires.sockets[ONE, target].sendto(forged, (HOST, daemons[ONE - 1].port))
    ack = f"ack {target} -> {ONE}"
    time.sleep(2 * daemons[ONE - 1].period_seconds)
    stop_all(daemons)
    text = trace_of(machine, found)
    stray = rf"  {ack}: never sent by {target}; heard at entry \d+ of {ONE}, dropped 6 stray, as the period ended at .*"
    must(re.search(f"^{stray}$", text, re.MULTILINE), f"it is told {text}")
    end = f"  so the journals contradict each other: {ack} arrived, but {target} never sent it\n"
    must(text.endswith(end), f"it is told {text}")


LOSS_TESTS = [chosen_losses_are_traced, a_relay_that_is_down_is_traced, a_forged_ack_is_traced]
