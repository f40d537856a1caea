"""Random journal files of swimsim, each the same for its seed.

`told(seed, play)` makes one of what `play` writes for its calls: behind event lines stands what their entries were
answered, each as it was or, in half of them, one otherwise. `spoiled(seed)` makes one that may have any fault.
"""

import random
from typing import NamedTuple

from tests.generators.broken_scripts import broken, misspelt, noisy
from tests.generators.cut_scripts import answers
from tests.generators.detector_scripts import ANSWERED, mixed, seeded
from tests.generators.growing_scripts import Script, joined
from tests.generators.version_scripts import asking_about_anybody, telling_versions

KINDS = [*ANSWERED, seeded, asking_about_anybody]
FIRST = "journal 1"
LIVES = [0, 1, 2, 3, 2**32 - 1, 2**32, 2**64 - 1]


class Told(NamedTuple):
    """A journal file, and what it has to write."""

    kind: str
    script: bytes
    stdout: bytes
    stderr: bytes
    status: int


def with_seed(r, script):
    """The same, half of them with a seed in the place of their orders and places, and the seed with a life or
    without."""
    if r.random() < 0.5:
        script.chooser = [f"seed {r.randbytes(32).hex()}"]
    lives = ["", "", *(f" {life}" for life in [*LIVES, r.randrange(2**64)])]
    script.chooser = [line + r.choice(lives) if line.startswith("seed ") else line for line in script.chooser]
    return script


def with_failed(r, script):
    """The same, some of whose members failed in periods that were used before, where there are such."""
    numbers = lambda: r.choice([1, script.last, r.randint(1, script.last)])
    if script.last:
        fails = lambda line: line.startswith("row ") and r.random() < 0.3
        script.header = [f"{line} failed {numbers()}" if fails(line) else line for line in script.header]
    return script


def makes_entry(event, answer):
    return event.split(" ")[0] not in ("table", "gap") and not answer[0].startswith(("wire ", "journal full"))


def otherwise(r, place, reply, before):
    """The text of an entry with something else in it."""
    texts = [
        f"{place + 1} {reply}", f"0{place} {reply}", f"{place}  {reply}", f"{place} {reply} ", f"{place} {reply}"[:-1]
    ]
    texts += [f"{place} {reply.upper()}", f"{place}", "", f"{place} {reply}\r"]
    texts += [f"{place - 1} {before}"] if place else []
    texts += [f"{place} {before}"] if before != reply else []
    return r.choice(texts)


def told(seed, play):
    """`play` answers what is written on standard output for a script, and whether it had no fault."""
    r = random.Random(seed)
    kind = KINDS[seed % len(KINDS)]
    script = with_failed(r, with_seed(r, kind(r)))
    lines = [FIRST, *script.lines()]
    stdout, is_good = play(joined(lines))
    if not is_good:
        raise ValueError(f"the script of seed {seed} has a fault")
    parts = list(zip(script.events, answers(script.events, stdout)))
    entries = [at for at, part in enumerate(parts) if makes_entry(*part)]
    wrong = r.choice(entries) if entries and r.random() < 0.5 else len(parts)
    made, written, place, reply = lines[: len(lines) - len(parts)], [], -1, ""
    for at, (event, answer) in enumerate(parts[: wrong + 1]):
        made, written = [*made, event], written + answer
        if makes_entry(event, answer):
            place, before, reply = place + 1, reply, answer[0]
        if place >= 0 and at < wrong and r.random() < 0.8:
            made += r.choice([[], [], ["# a comment"], [""]]) + [f"= {place} {reply}"]
    if wrong == len(parts):
        return Told(kind.__name__, joined(made), joined(written), b"", 0)
    made.append("= " + otherwise(r, place, reply, before))
    fault = f"line {len(made)}: differs\n"
    return Told(kind.__name__, joined(made + script.events[wrong + 1 :]), joined(written), fault.encode(), 1)


TEXTS = [
    "= 0 quiet", "= 0 started judged - probe -", "= ", "=", "=0", "= none", "= 1 heard", FIRST, "journal", "journal 2"
]
LIVES_OF_ANY_KIND = ["", " ", " 1", " 0", " 01", " x", " 18446744073709551616", " 1 2", " 1 "]
STATES_OF_ANY_KIND = [
    "", " ", " up", " failed", " failed ", " failed 1", " failed 1", " failed 0", " failed 01", " failed x"
]
STATES_OF_ANY_KIND += [" failed 18446744073709551616", " failed 18446744073709551615", " failed 1 2", " Failed 1"]


def spoiled(seed):
    """The kind of the script and the file."""
    r = random.Random(seed)
    kind = r.choice([broken, misspelt, noisy, mixed, seeded, telling_versions])
    made = kind(r)
    made = made.lines() if isinstance(made, Script) else made
    lines = (made if isinstance(made, bytes) else joined(made)).decode("latin-1").split("\n")
    lines = [
        line + r.choice(LIVES_OF_ANY_KIND) if line.startswith("seed ") and r.random() < 0.7 else line for line in lines
    ]
    lines = [
        line + r.choice(STATES_OF_ANY_KIND) if line.startswith("row ") and r.random() < 0.2 else line for line in lines
    ]
    for _ in range(r.choice([0, 1, 1, 2, 4])):
        lines.insert(r.randint(0, len(lines)), r.choice(TEXTS))
    first = r.choice([[FIRST]] * 8 + [["", FIRST], ["# a comment", FIRST], [FIRST + " "], [FIRST, FIRST], []])
    return kind.__name__, "\n".join(first + lines).encode("latin-1")
