"""Random scripts rich in `gap` lines: at least a tenth of their lines. Members leave in them, are judged and come back,
and those that are gone are asked for too. Each is the same for its seed.

`widest_gaps(script, output)` tells which `gap` lines aren't answered as they have to be, by a walk through all that was
answered before each: a second way to that answer, beside the programs'.
"""

import random
import re

from tests.generators.detector_scripts import churning, planned
from tests.generators.growing_scripts import LARGEST_ID, Script, joined, scripted


def returning(r):
    """Few members. Each period one of them may leave, be judged or come back. Now and then the journal is full at
    last."""
    limit = r.randint(0, 150) if r.random() < 0.1 else None
    script = Script(r, k=r.choice([0, 1]), rtt=1, period=3, limit=limit, rows=r.randint(1, 5))
    pool = [*script.members, *r.sample(range(140, 150), 2)]
    if r.random() < 0.3:
        script.chooser.append(f"seed {r.getrandbits(256):064x}")
    else:
        scripted(script, orders=r.randint(0, 20), places=r.randint(0, 20))
    for _ in range(r.randint(10, 50)):
        script.tick()
        if r.random() < 0.8:
            script.ack_all()
        step = r.random()
        if step < 0.2:
            script.remove(r.choice(pool))
        elif step < 0.5:
            script.join(r.choice(pool))
        elif step < 0.55:
            again = r.choice(pool)
            script.remove(again)
            script.join(again)
        script.tick(2)
    return script


def passing(r):
    """Many members, each of whom stays for some periods. Their ids come in no order."""
    script = Script(r, k=0, rtt=1, period=3, rows=r.randint(0, 2))
    scripted(script, places=r.randint(0, 20))
    staying = list(script.members)
    for id in r.sample(range(200, LARGEST_ID), r.randint(5, 40)):
        script.join(id)
        staying.append(id)
        for _ in range(r.choice([0, 1, 1, 2, 3])):
            script.tick()
            script.ack_all()
            script.tick(2)
        if len(staying) > r.randint(1, 4):
            script.remove(staying.pop(r.randint(0, len(staying) - 1)))
    script.tick(r.choice([1, 4, 7]))
    return script


KINDS = [returning, passing, returning, planned, returning, churning]
NAMED = re.compile(r"(?:row|join|remove) (\d+)")


def with_gaps(r, script):
    """The lines of the script, and among its events so many `gap` lines that they are a tenth of all lines."""
    lines = script.lines()
    named = [int(id) for line in lines for id in NAMED.findall(line)[:1] or "0"]
    places = range(len(lines) - len(script.events), len(lines) + 1)
    for place in sorted((max(r.choices(places, k=3)) for _ in range(len(lines) // 9 + 1)), reverse=True):
        ids = [id for id in named[:place] if id] if r.random() < 0.95 else []
        lines.insert(place, f"gap {r.choice(ids or [script.me, 199, LARGEST_ID])}")
    return lines


def gap_script(seed):
    """The kind and the script of that seed."""
    r = random.Random(f"gaps {seed}")
    kind = KINDS[seed % len(KINDS)]
    return f"{kind.__name__} with gaps", joined(with_gaps(r, kind(r)))


class Walk:
    """What was answered: who left, who was probed in which period while how many were listed, and who joined."""

    def __init__(self, listed):
        self.listed = set(listed)
        self.steps = []

    def leave(self, id):
        self.listed.discard(id)
        self.steps.append(("leave", id))

    def take(self, line, answer):
        """A call and the first line of its answer."""
        words = line.split()
        if answer.startswith("joined "):
            self.listed.add(int(words[1]))
            self.steps.append(("join", int(words[1])))
        elif answer == "removed":
            self.leave(int(words[1]))
        elif answer.startswith("started "):
            judged, probed = answer.split()[2], answer.split()[4:]
            if judged != "-":
                self.leave(int(judged))
            if probed != ["-"]:
                self.steps.append(("probe", *map(int, probed), len(self.listed)))

    def widest(self, id):
        """The widest gap of the member, the first of equals."""
        last, gaps = None, []
        for what, *rest in self.steps:
            if what == "join" and last:
                last = (last[0], last[1] + 1)
            elif what == "leave" and rest[0] == id:
                last = None
            elif what == "probe" and rest[0] == id:
                gaps += [(last[0], rest[1], last[1])] if last else []
                last = (rest[1], rest[2])
        widest = max(gaps, key=lambda gap: gap[1] - gap[0], default=None)
        return "gap {} {} {}".format(*widest) if widest else "gap none"


def widest_gaps(script, output):
    """The `gap` lines that aren't answered as a walk tells, and how they should be."""
    lines = script.decode().splitlines()
    events = [line for line in lines if re.match("(tick|hear|join|remove|table|gap)( |$)", line)]
    walk = Walk(int(line.split()[1]) for line in lines if line.startswith("row "))
    answers = iter(line for line in output.decode().splitlines() if not line.startswith("> "))
    said = []
    for line in events:
        answer = next(answers, "nothing")
        while line == "table" and answer not in (".", "nothing"):
            answer = next(answers, "nothing")
        wanted = walk.widest(int(line.split()[1])) if line.startswith("gap ") else answer
        said += [] if answer == wanted else [f"`{line}` is answered `{answer}`, and by a walk `{wanted}`"]
        walk.take(line, answer)
    return said
