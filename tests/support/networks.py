"""Groups of members over a network in which a test says what becomes of each datagram. Each member is a run of swimsim
that is told its calls one by one: nothing here waits for a clock, and the same seed makes the same group. What was told
and answered is the journal file of that member, and the network keeps what became of each datagram."""

import itertools
import re
import subprocess
from typing import NamedTuple, Optional

from tests.support.datagrams import ACK, PING, REQUEST, fields

LIMIT = 1_000_000
# The address of a member, in the network that its id is one of.
ADDRESS = "10.0.0.{}:7000"


class Probe(NamedTuple):
    """What a probe is known by."""

    initiator: int
    target: int
    number: int


class Leg(NamedTuple):
    """A way that a datagram of a probe goes."""

    kind: int
    sender: int
    to: int


class Sent:
    """A datagram: what it is of, the entry that sent it, and the entries that heard it with what they answered."""

    def __init__(self, leg, probe, entry, text):
        self.leg, self.probe, self.entry, self.text, self.heard = leg, probe, entry, text, []


class Member:
    """A member, and the journal file that it makes."""

    def __init__(self, program, id, others, k, rtt, period, seed):
        self.id, self.calls = id, []
        rows = [f"row {it} {ADDRESS.format(it)}\n" for it in others]
        self.lines = [f"open {id} {k} {rtt} {period} 0 {LIMIT}\n", *rows, f"seed {seed:064x}\n"]
        self.child = subprocess.Popen([program], stdin=subprocess.PIPE, stdout=subprocess.PIPE)
        self.write("".join(self.lines))
        self.lines = ["journal 1\n", *self.lines[:-1], self.lines[-1].replace("\n", " 0\n")]

    @property
    def entries(self):
        return len(self.calls)

    def write(self, text):
        self.child.stdin.write(text.encode())
        self.child.stdin.flush()

    def read(self):
        return self.child.stdout.readline().decode().rstrip("\n")

    def call(self, line):
        """Tells it a call, and answers the answer and the datagrams that it sends, each with its address."""
        self.write(f"{line}\n")
        answer = self.read()
        self.lines += [f"{line}\n", f"= {self.entries} {answer}\n"]
        self.calls.append(line)
        sends = [self.read().split(" ")[1:] for _ in range(sent_by(answer))]
        return answer, [(int(peer.split(":")[0].rsplit(".", 1)[1]), text) for peer, text in sends]

    def file(self):
        return "".join(self.lines)

    def end(self):
        self.child.stdin.close()
        self.child.stdout.close()
        self.child.wait()


def sent_by(answer):
    """How many datagrams follow an answer."""
    words = answer.split(" ")
    if words[0] == "started":
        return int(words[4] != "-")
    if words[0] == "asked":
        return 0 if words[4] == "-" else len(words[4].split(","))
    return int(words[0] == "sent")


class Judgement(NamedTuple):
    """Who was judged, with the entries of its probe, its ask and the judgement."""

    probe: Probe
    probed: int
    asked: Optional[int]
    relays: list
    judged: int


class Group:
    """Members, and what became of each datagram. `fate` is asked of each what becomes of it, and answers how many steps
    later it comes, each time that it does."""

    def __init__(self, program, count, fate, k=2, rtt=2, period=8, seed=1):
        ids = range(1, count + 1)
        self.members = {
            id: Member(program, id, [it for it in ids if it != id], k, rtt, period, seed * 1_000 + id) for id in ids
        }
        self.rtt, self.period, self.fate = rtt, period, fate
        self.step, self.waiting, self.sent, self.judgements = 0, [], [], []
        # What runs of each member's period: its probe, its entry, and the ask of it.
        self.running = {}
        self.standing_still, self.dead = set(), set()

    def __enter__(self):
        return self

    def __exit__(self, *_):
        for it in self.members.values():
            it.end()

    def files(self):
        return [(f"{id}", it.file()) for id, it in self.members.items()]

    def send(self, id, entry, to, text):
        """A datagram leaves a member."""
        kind, sender, initiator, target, number = fields(bytes.fromhex(text))
        one = Sent(Leg(kind, sender, to), Probe(initiator, target, number), entry, text)
        self.sent.append(one)
        self.waiting += [(self.step + later, one) for later in self.fate(self, one)]

    def call(self, id, line):
        member = self.members[id]
        entry = member.entries
        answer, sends = member.call(line)
        for to, text in sends:
            self.send(id, entry, to, text)
        return entry, answer

    def tick(self, id):
        entry, answer = self.call(id, "tick")
        words = answer.split(" ")
        if words[0] == "asked":
            relays = [] if words[4] == "-" else [int(it) for it in words[4].split(",")]
            self.running[id] = (*self.running[id][:2], entry, relays)
        if words[0] == "started":
            if words[2] != "-":
                self.judgements.append(Judgement(*self.running[id], entry))
            if words[4] != "-":
                self.running[id] = (Probe(id, int(words[4]), int(words[5])), entry, None, [])

    def deliver(self):
        """What is due comes, and what is sent for that, in turn."""
        while True:
            due = [it for it in self.waiting if it[0] <= self.step and it[1].leg.to not in self.standing_still]
            if not due:
                return
            self.waiting.remove(due[0])
            one = due[0][1]
            if one.leg.to in self.members and one.leg.to not in self.dead:
                one.heard.append(self.call(one.leg.to, f"hear {ADDRESS.format(one.leg.sender)} {one.text}"))

    def run(self, steps):
        for _ in range(steps):
            self.step += 1
            for id in self.members:
                if id not in self.standing_still | self.dead:
                    self.tick(id)
                    self.deliver()


KINDS = {PING: "ping", REQUEST: "ping-req", ACK: "ack"}
DROPPED = {"4": "unlisted", "5": "table full", "6": "stray", "7": "no request"}


def shown(leg):
    return f"{KINDS[leg.kind]} {leg.sender} -> {leg.to}"


def plural(count, word):
    return f"{count} {word}{'' if count == 1 else 's'}"


class Known:
    """What the network did with the datagrams of a probe after which somebody was judged, and what `--trace` has to
    tell of it where the files of all members are given."""

    def __init__(self, group, judgement):
        self.group, self.judgement, self.probe = group, judgement, judgement.probe

    def legs(self):
        """The ways of its datagrams, in the order in which they are told."""
        initiator, target, _ = self.probe
        yield Leg(PING, initiator, target)
        yield Leg(ACK, target, initiator)
        for relay in self.judgement.relays:
            yield from [Leg(REQUEST, initiator, relay), Leg(PING, relay, target)]
            yield from [Leg(ACK, target, relay), Leg(ACK, relay, initiator)]

    def have_met(self, id):
        """Whether a ping of the initiator's own came to that member, or one of that member's own to it."""
        pairs = [(self.probe.initiator, id), (id, self.probe.initiator)]
        return id == self.probe.initiator or any(
            it.heard for it in self.group.sent if it.leg.kind == PING and it.leg.sender == it.probe.initiator
            and it.leg[1:] in pairs
        )

    def line(self, leg):
        """What has to be told of a datagram, and what of it in the last line, if anything."""
        sent = [it for it in self.group.sent if (it.probe, it.leg) == (self.probe, leg)]
        if not sent:
            return ("not sent" if self.have_met(leg.sender) else f"no journal of {leg.sender} was given"), None
        heard = sorted(hearing for it in sent for hearing in it.heard)
        entries = sorted({it.entry for it in sent})
        text = "sent at " + " and at ".join(f"entry {it} of {leg.sender}" for it in entries)
        if not heard and not self.have_met(leg.to):
            return f"{text}; no journal of {leg.to} was given", None
        if not heard:
            return f"{text}; lost: {leg.to} never heard it", "lost"
        text += "; heard at " + ", and at ".join(
            f"entry {entry} of {leg.to}, {self.answered(leg, entry, answer)}" for entry, answer in heard
        )
        is_dropped = all(answer.startswith("dropped") for _, answer in heard)
        return text, ("late" if leg.to == self.probe.initiator else "dropped") if is_dropped else None

    def answered(self, leg, entry, answer):
        if answer == "sent":
            return "answered" if leg.kind == PING else "forwarded"
        if answer == "heard":
            return "counted"
        text = f"{answer} {DROPPED[answer.split(' ')[1]]}"
        is_late = leg.to == self.probe.initiator and entry > self.judgement.judged
        return f"{text}, as the period ended at entry {self.judgement.judged}" if is_late else text

    def clock(self):
        """How the clock of the target went: the line of that, and one of `ran`, `stood still` and `ended`."""
        initiator, target, number = self.probe
        leg = Leg(PING, initiator, target)
        pings = [it for it in self.group.sent if it.leg == leg and it.probe.initiator == initiator]
        beats = sorted((entry, it.probe.number) for it in pings for entry, _ in it.heard)
        earlier = list(itertools.takewhile(lambda it: it[1] < number, beats))
        if not earlier:
            return "", None
        member, (entry, before) = self.group.members[target], earlier[-1]
        later = beats[len(earlier) :]
        end, after = later[0] if later else (member.entries, number)
        had, due = sum(line == "tick" for line in member.calls[entry:end]), (after - before) * self.group.period
        if not later and due + self.group.period <= had + self.group.rtt:
            due, how = due + self.group.period, "ran"
        elif due <= had + self.group.rtt:
            how = "ran" if later else None
        else:
            how = "stood still" if later else "ended"
        told = {"ran": "it kept running", "stood still": "it stood still", "ended": "its journal ends"}
        text = f"  clock of {target}: {had} ticks from entry {entry} of {target} on, where {initiator} had {due}: "
        return (f"{text}{told[how]}\n", how) if how else ("", None)

    def broken(self):
        """Where its ways broke, as the last line tells it."""
        lines = [(leg, self.line(leg)[1]) for leg in self.legs()]
        return "".join(f"; {what} {shown(leg)}" for leg, what in lines if what)

    def conclusion(self, how):
        initiator, target, _ = self.probe
        if not self.have_met(target):
            return f"no journal of {target} was given: it is unknown whether a ping reached it"
        pings = [it for it in self.group.sent if it.probe == self.probe and it.leg.kind == PING and it.leg.to == target]
        answers = sum(answer == "sent" for it in pings for _, answer in it.heard)
        if answers:
            still = " but stood still" if how == "stood still" else ""
            return f"{target} was alive{still}: it answered {plural(answers, 'ping')} of this probe{self.broken()}"
        words = {None: "was not reached", "ran": "was cut off", "stood still": "stood still", "ended": "had ended"}
        paths = plural(1 + len(self.judgement.relays), "path")
        return f"{target} {words[how]}: no ping reached it on {paths}{self.broken()}"

    def text(self):
        initiator, target, number = self.probe
        clock, how = self.clock()
        told = [(leg, self.line(leg)[0]) for leg in self.legs()]
        lines = "".join(f"  {shown(leg)}: {text}\n" for leg, text in told if text != "not sent")
        return f"{initiator} judged {target} in period {number}\n{lines}{clock}  so {self.conclusion(how)}\n"

    def as_json(self, names):
        """The same as an object, where the files have these names by member."""
        initiator, target, number = self.probe
        entry = lambda id, place, **more: {"file": names[id], "entry": place, **more}
        datagrams = [self.datagram(leg, entry) for leg in self.legs()]
        judged = entry(initiator, self.judgement.judged)
        found = {"initiator": initiator, "target": target, "period": number, "judged": judged}
        line, how = self.clock()
        if how:
            numbers = re.match(r"  clock of \d+: (\d+) ticks from entry (\d+) .* had (\d+): ", line)
            had, place, due = map(int, numbers.groups())
            words = {"ran": "running", "stood still": "still", "ended": "ended"}
            found["clock"] = {"is": words[how], "ticks": had, "due": due, "since": entry(target, place)}
        count = int(re.search(r"(\d+) (?:pings?|paths?)\b", self.conclusion(how) + " 0 pings")[1])
        so = {"so": "not reached", "paths": count}
        if "was alive" in self.conclusion(how):
            so = {"so": "alive", "answers": count}
        elif self.conclusion(how).startswith("no journal"):
            so = {"so": "no journal"}
        return {**found, "datagrams": datagrams, **so}

    def datagram(self, leg, entry):
        """The object of a datagram."""
        text, what = self.line(leg)
        sent = [it for it in self.group.sent if (it.probe, it.leg) == (self.probe, leg)]
        heard = sorted(hearing for it in sent for hearing in it.heard)
        fate = {None: "passed", "lost": "lost", "late": "dropped", "dropped": "dropped"}[what]
        if "no journal of" in text:
            fate = "unknown"
        return {
            "kind": KINDS[leg.kind], "from": leg.sender, "to": leg.to,
            "fate": "unsent" if text == "not sent" else fate,
            "sent": [entry(leg.sender, it) for it in sorted({it.entry for it in sent})],
            "heard": [entry(leg.to, place, answer=answer) for place, answer in heard],
        }
