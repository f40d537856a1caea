"""What a member that plays a script has to answer to what it hears, and what it has to send, in which version and
where: worked out apart from the crates, after docs/FORMATS.md and docs/PROTOCOL.md, from the script and the first line
of each other answer.

`walked(script, output, errors)` says what isn't so, and which cases of the two versions of a datagram were met.
"""

import re
from collections import Counter
from typing import NamedTuple

from tests.models.datagram_model import BYTES_WITH_ADDRESS, fault_of

PING, REQUEST, ACK = 1, 2, 3
WAITING = 64
EVENT = re.compile("(tick|hear|join|remove|table|gap)( |$)")
FAULT = re.compile(r"line (\d+): (\w+)")

LISTED, FAILED, UNKNOWN, MYSELF = (
    f"a ping-req of version 2 about {it}" for it in (
        "a listed member", "one that failed", "one that isn't known", "this member"
    )
)
AGAIN = "a request that waits is asked again in the other version"
FORWARDED = [f"an ack is sent on in version {it}" for it in (1, 2)]
ACKED = [f"a ping of version {it} is acked" for it in (1, 2)]
PROBED = [f"a probe in version {it}" for it in (1, 2)]
ASKED = [f"relays are asked in version {it}" for it in (1, 2)]
FAULTS = [f"wire {it}" for it in range(1, 9)]
BEFORE, BEHIND, TWICE = "`wire` before `open`", "`wire` behind an event line", "two `wire` lines"
TOLD = ["`wire 1`", "`wire 2`", "`wire 3`", "`wire`", TWICE, BEHIND, BEFORE]
HEARD = [LISTED, FAILED, UNKNOWN, MYSELF, AGAIN, *FORWARDED, *ACKED, *FAULTS]
CASES = [*HEARD, *PROBED, *ASKED, *TOLD]


class Heard(NamedTuple):
    """What a datagram says."""

    version: int
    kind: int
    sender: int
    initiator: int
    target: int
    number: int
    at: str

    @property
    def key(self):
        return self.initiator, self.target, self.number


def read(text):
    numbers = [int.from_bytes(text[place : place + 4], "big") for place in (4, 8, 12)]
    at = (
        f"{'.'.join(map(str, text[24:28]))}:{int.from_bytes(text[28:], 'big')}"
        if len(text) == BYTES_WITH_ADDRESS
        else ""
    )
    return Heard(text[2], text[3], *numbers, int.from_bytes(text[16:24], "big"), at)


def sent(peer, version, kind, sender, key, at=None):
    """The line of a message that is sent."""
    ids = b"".join(it.to_bytes(4, "big") for it in (sender, *key[:2]))
    text = b"SW" + bytes([version, kind]) + ids + key[2].to_bytes(8, "big")
    if at:
        ip, port = at.split(":")
        text += bytes(map(int, ip.split("."))) + int(port).to_bytes(2, "big")
    return f"> {peer} {text.hex()}"


class Asker(NamedTuple):
    """Who waits for an ack, the version in which it asked last, and the tick at which it is forgotten."""

    peer: str
    version: int
    due: int


class Member:
    """A member: whom it knows and where, and who waits for acks."""

    def __init__(self, lines):
        words = next(line for line in lines if line.startswith("open ")).split(" ")
        self.me, self.period = int(words[1]), int(words[4])
        header = lines[: next((at for at, line in enumerate(lines) if EVENT.match(line)), len(lines))]
        rows = [line.split(" ") for line in header if line.startswith("row ")]
        self.up = {int(row[1]): row[2] for row in rows if len(row) == 3}
        self.failed = {int(row[1]) for row in rows if len(row) > 3}
        self.version = 2 if "wire 2" in header else 1
        self.waiting, self.ticks, self.met = {}, 0, []

    def answer(self, line, answer):
        """What an event has to be answered that is answered so: as much of it as is known here."""
        word, *arguments = line.split(" ")
        if answer[0] == "journal full":
            return answer
        if word == "hear":
            return self.hear(arguments[0], bytes.fromhex(arguments[1]), answer)
        if word == "join" and answer[0].startswith("joined "):
            self.up[int(arguments[0])] = arguments[1]
            self.failed.discard(int(arguments[0]))
        elif word == "remove" and answer[0] == "removed":
            self.up.pop(int(arguments[0]), None)
            self.failed.discard(int(arguments[0]))
        return self.tick(answer[0]) if word == "tick" else answer

    def tick(self, answer):
        if answer.startswith("refused "):
            return [answer]
        self.ticks += 1
        self.waiting = {key: it for key, it in self.waiting.items() if it.due > self.ticks}
        words = answer.split(" ")
        if words[0] == "started" and words[2] != "-":
            self.failed.add(int(words[2]))
            del self.up[int(words[2])]
        if words[0] == "started" and words[4] != "-":
            self.met.append(PROBED[self.version - 1])
            key = self.me, int(words[4]), int(words[5])
            return [answer, sent(self.up[key[1]], self.version, PING, self.me, key)]
        return [answer, *self.asks(words)] if words[0] == "asked" else [answer]

    def asks(self, words):
        """What relays are sent that are asked for an aim. Of version 2 it says where that is."""
        relays = [] if words[4] == "-" else map(int, words[4].split(","))
        key = self.me, int(words[1]), int(words[2])
        at = self.up[key[1]] if self.version == 2 else None
        lines = [sent(self.up[it], self.version, REQUEST, self.me, key, at) for it in relays]
        self.met += [ASKED[self.version - 1]] if lines else []
        return lines

    def hear(self, source, text, answer):
        fault = fault_of(text)
        if fault:
            self.met.append(f"wire {fault}")
            return [f"wire {fault}"]
        it = read(text)
        if it.kind == PING:
            return self.hear_ping(source, it)
        return self.hear_request(source, it) if it.kind == REQUEST else self.hear_ack(it, answer)

    def hear_ping(self, source, it):
        if it.target != self.me:
            return ["dropped 1"]
        self.met.append(ACKED[it.version - 1])
        return ["sent", sent(source, it.version, ACK, self.me, it.key)]

    def hear_request(self, source, it):
        if it.initiator != it.sender or it.initiator == self.me:
            return ["dropped 2"]
        if it.target == self.me:
            self.met += [MYSELF] if it.version == 2 else []
            return ["dropped 3"]
        at = self.up.get(it.target) or it.at
        if not at:
            return ["dropped 4"]
        before = self.waiting.pop(it.key, None)
        if len(self.waiting) == WAITING:
            return ["dropped 5"]
        self.waiting[it.key] = Asker(source, it.version, self.ticks + self.period)
        self.met += [AGAIN] if before and before.version != it.version else []
        self.met += [
            LISTED if it.target in self.up else FAILED if it.target in self.failed else UNKNOWN
        ] if it.version == 2 else []
        return ["sent", sent(at, it.version, PING, self.me, it.key)]

    def hear_ack(self, it, answer):
        """Whether it is one of the aim, isn't known here."""
        if it.initiator == self.me:
            return answer if answer in (["heard"], ["dropped 6"]) else ["heard, or dropped 6"]
        asker = self.waiting.pop(it.key, None)
        if not asker:
            return ["dropped 7"]
        self.met.append(FORWARDED[asker.version - 1])
        return ["sent", sent(asker.peer, asker.version, ACK, self.me, it.key)]


def answered(lines, output):
    """Each event line that was answered, with the lines of its answer."""
    given, end = output.splitlines(), 0
    for line in filter(EVENT.match, lines):
        if end == len(given):
            return
        start = end
        while line == "table" and given[end] != ".":
            end += 1
        end += 1
        while end < len(given) and given[end].startswith("> "):
            end += 1
        yield line, given[start:end]


def of_the_header(lines, errors):
    """What isn't so of lines that tell a version, and which were met, up to the line with a fault."""
    fault = FAULT.match(errors)
    last = int(fault[1]) if fault else len(lines)
    told, has_event, is_open, met = 0, False, False, []
    for number, line in enumerate(lines[:last], 1):
        is_open, has_event = is_open or line.startswith("open "), has_event or bool(EVENT.match(line))
        if line.split(" ")[0] != "wire":
            continue
        wanted, case = fault_of_line(line, told, has_event, is_open)
        found = fault[2] if fault and number == last else None
        told, met = told + 1, met + case
        if wanted != found and found != "long":
            return [f"`{line[:100]}` is told as {found}, and not as {wanted}"], met
    return [], met


def fault_of_line(line, told, has_event, is_open):
    """The fault of a line whose first word is that of a version, or None, and its case, if it is one. So many stand
    before it."""
    out_of_place = BEFORE if not is_open else BEHIND if has_event else TWICE if told else None
    if out_of_place:
        return "word", [out_of_place]
    case = [f"`{line}`"] if f"`{line}`" in TOLD else []
    if line in ("wire 1", "wire 2"):
        return None, case
    return "extra" if line.split(" ")[1:2] in (["1"], ["2"]) else "number", case


def walked(script, output, errors):
    """What isn't so, and how often each case was met."""
    lines = script.decode("latin-1").split("\n")
    said, told = of_the_header(lines, errors)
    met = Counter(told)
    if output:
        member = Member(lines)
        for line, answer in answered(lines, output.decode()):
            wanted = member.answer(line, answer)
            said += [] if answer == wanted else [f"`{line}` is answered {answer}, and by a model {wanted}"]
        met.update(member.met)
    return said, met
