"""Journal files of a group for tests/bench/swimsim: each of ten members probes another one in each period, and a probe
in sixteen is lost, with the requests to relays. Who was judged is listed again."""

import subprocess

from tests.bench.bench_scripts import ACK, PING, hear

MEMBERS, PERIOD, ONE_LOST_IN = 10, 5, 16
HEAD = "open {id} 2 1 {period} 0 {entries}\n"


class Member:
    """A member of which the answers are known up to the last period's end, and whose file is written."""

    def __init__(self, program, path, id, entries):
        self.id, self.entries, self.left, self.waiting = id, 0, entries, []
        self.file = open(path, "w", encoding="ascii")
        self.child = subprocess.Popen([program], stdin=subprocess.PIPE, stdout=subprocess.PIPE, text=True)
        rows = "".join(f"row {it} 10.0.0.{it}:7000\n" for it in range(1, MEMBERS + 1) if it != id)
        # As a journal file it may be longer than a script.
        head = f"journal 1\n{HEAD.format(id=id, period=PERIOD, entries=entries)}{rows}seed {id:064x} 0\n"
        for it in (self.child.stdin, self.file):
            it.write(head)

    def tell(self, lines):
        """Tells it calls, as many as its file has room for, and answers the last answer."""
        lines = lines[: self.left]
        self.left -= len(lines)
        self.child.stdin.write("".join(lines))
        self.child.stdin.flush()
        return [self.answer(line) for line in lines][-1:]

    def answer(self, line):
        text = self.child.stdout.readline()
        while text.startswith("> "):
            text = self.child.stdout.readline()
        self.file.write(f"{line}= {self.entries} {text}")
        self.entries += 1
        return text

    def end(self):
        self.child.stdin.close()
        self.child.stdout.close()
        self.child.wait()
        self.file.close()


def period(members, number):
    """A period of all: each begins it, and hears what the others' probes come to."""
    heard, acked = {it.id: [] for it in members}, {}
    for member in members:
        words = (member.tell([*member.waiting, "tick\n"]) or [""])[0].split(" ")
        member.waiting = []
        if words[:1] != ["started"]:
            continue
        if words[2] != "-":
            member.waiting.append(f"join {words[2]} 10.0.0.{words[2]}:7000\n")
        if words[4] != "-" and (number + member.id) % ONE_LOST_IN:
            target = int(words[4])
            heard[target].append(hear(member.id, PING, member.id, member.id, target, number))
            acked[member.id] = hear(target, ACK, target, member.id, target, number)
    for member in members:
        member.waiting += [*heard[member.id], *([acked[member.id]] if member.id in acked else [])]
        member.waiting += ["tick\n"] * (PERIOD - 1)


def write_judged(program, path, entries):
    """Writes the file of a member that hears pings, and judges one when its first period ends: who that is, and the
    period."""
    member, ticks, chunk = Member(program, path, 1, entries), 2 * PERIOD, 1_000
    for first in range(1, entries - ticks + 1, chunk):
        numbers = range(first, min(first + chunk, entries - ticks + 1))
        member.tell([hear(2, PING, 2, 2, 1, it) for it in numbers])
    answers = [member.tell(["tick\n"])[0].split() for _ in range(ticks)]
    member.end()
    # The first start begins period 1, and the next one tells whom that period judged.
    _, (_, _, judged, *_) = (words for words in answers if words[:1] == ["started"])
    return int(judged), 1


def write(program, folder, entries):
    """Writes the files, each of that many entries, and answers their paths."""
    paths = [f"{folder}/{id}.swim" for id in range(1, MEMBERS + 1)]
    members = [Member(program, path, id, entries) for id, path in enumerate(paths, 1)]
    number = 0
    while any(it.left for it in members):
        number += 1
        period(members, number)
    for it in members:
        it.end()
    return paths
