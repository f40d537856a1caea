"""Random sessions of control lines, each the same for its seed: `random_life(seed)` gives what a daemon starts from,
and what comes on its connections, one after the other, each cut into pieces. Only the last may end the daemon."""

import random
from typing import NamedTuple

from tests.generators.random_configs import BAD_PEERS, LARGEST_ID, seed_text

SESSIONS = 20
BAD_IDS = ["", "0", "01", "-1", "+1", "x", "4294967296", "1.0", "9" * 30, "\xb2", "2\t", "1\r"]
BAD_LINES = [
    "", " ", " list", "lis", "List", "LIST", "list\r", "list\t", "\xff", "\x00", "joi 5 1.2.3.4:5", "stop!", "tick"
]
BAD_LINES += [
    "table", "stop stop", "gap", "join", "remove", "join ", "gap  2", "list ", "a" * 127, "a" * 128, "list" + " " * 124
]
BAD_LINES += ["reload ", "reload swimd.toml", "reloaded", "Reload"]


class Life(NamedTuple):
    seed: int
    me: int
    members: list
    chooser: str
    limit: int
    sessions: list


def an_id(r, ids):
    return r.choice([r.choice(ids), r.choice(ids), r.choice(ids), r.randint(1, 200), LARGEST_ID])


def a_peer(r):
    return f"10.{r.randint(0, 255)}.0.{r.randint(0, 255)}:{r.randint(1, 65_535)}"


def a_line(r, ids):
    id = an_id(r, ids)
    step = r.random()
    if step < 0.35:
        return f"join {id} {a_peer(r)}"
    if step < 0.5:
        return f"remove {id}"
    if step < 0.65:
        return "list" if step < 0.58 else "reload" if step < 0.6 else f"gap {id}"
    return a_bad_line(r, id)


def a_bad_line(r, id):
    """A line that mostly is bad, often in two ways."""
    number, peer = r.choice([*BAD_IDS, str(id)]), r.choice([*BAD_PEERS, a_peer(r)]).replace("\n", "")
    line = r.choice(
        [f"join {number} {peer}", f"join {id} {peer}", f"remove {number}", f"gap {number}", r.choice(BAD_LINES)]
    )
    if r.random() < 0.2:
        line = line.rsplit(" ", 1)[0]
    return line + r.choice([""] * 8 + [" ", " x", "  ", "\r", " ".ljust(128)])


def a_session(r, ids, may_stop):
    lines = [a_line(r, ids) for _ in range(r.choice([0, 1, 2, 5, 20]))]
    end = r.random()
    if end < 0.3:
        lines.append(
            r.choice(["list", "lis", "a" * 128, "stop", f"gap {r.choice(ids)}", "x"]) if end < 0.15 else "b" * 129
        )
    elif end < 0.4 and lines:
        lines.insert(r.randint(0, len(lines) - 1), "c" * r.randint(129, 300))
    elif may_stop and end < 0.7:
        lines.insert(r.randint(0, len(lines)), "stop")
    text = "\n".join(lines).encode("utf-8")
    return text if 0.1 < end < 0.3 or not text else text + b"\n"


def pieces(r, text):
    """The text in pieces: whole, byte by byte, or cut at some places."""
    way = r.random()
    if way < 0.4:
        return [text]
    cuts = range(1, len(text)) if way < 0.5 else sorted(r.sample(range(len(text) + 1), min(len(text), r.randint(0, 5))))
    return [text[start:end] for start, end in zip([0, *cuts], [*cuts, len(text)])]


def without_end(text):
    """The text with no line that ends the daemon."""
    return b"\n".join(b"list" if line == b"stop" else line for line in text.split(b"\n"))


def random_life(seed):
    r = random.Random(seed)
    me = r.choice([1, 1, 7, LARGEST_ID])
    others = [id for id in range(1, 400) if id != me]
    ids = r.sample(others, r.choice([0, 2, 3, 8, 127, 128]))
    known = [me, *ids, *r.sample(others, 4)]
    limit = r.choice([1, 2, 10, 30, 1_000_000, 1_000_000, 1_000_000, 1_000_000])
    sessions = [a_session(r, known, may_stop=False) for _ in range(SESSIONS - 1)]
    sessions = [without_end(it) for it in sessions] + [a_session(r, known, may_stop=True)]
    members = [(id, a_peer(r)) for id in ids]
    return Life(seed, me, members, seed_text(r), limit, [pieces(r, it) for it in sessions])
