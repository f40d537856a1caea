"""The player of docs/CHECKING.md, as it stands there, beside swimsim: on files of ticks of a member that knows one
other and asks no relays, as they are, with one answer changed, and with a call too many."""

import os
import subprocess
import sys
import tempfile

from tests.support.documents import code_in

SECONDS = 60
MOST = 2**64 - 1
# rtt, period, last, limit and ticks; and what stands behind the other member's address, or before its row.
FILES = [
    (1, 3, 0, 100, 12, ""),
    (1, 3, 0, 100, 12, "", "wire 2"),
    (2, 7, 41, 100, 30, ""),
    (2, 7, 41, 100, 30, "", "wire 1"),
    (1, 3, MOST - 1, 100, 12, ""),
    (1, 3, MOST, 100, 5, ""),
    (1, 5, 9, 11, 11, ""),
    (1, 4, 9, 100, 20, " failed 3"),
    (1, 4, 9, 100, 20, None),
]
MOST_LINES = 60


def ran(words, text):
    return subprocess.run(words, input=text, capture_output=True, text=True, timeout=SECONDS)


def told_file(program, rtt, period, last, limit, ticks, state, *version):
    """A journal file of that many ticks, with what swimsim answers."""
    head = [
        f"open 1 0 {rtt} {period} {last} {limit}", *version, *([] if state is None else [f"row 2 10.0.0.2:7000{state}"])
    ]
    head = ["journal 1", "# a comment", *head, "seed " + "5" * 64 + " 0"]
    played = ran([program], "\n".join([*head, *["tick"] * ticks, ""]))
    answers = [it for it in played.stdout.splitlines() if not it.startswith("> ")]
    return head + [line for at, it in enumerate(answers) for line in ("tick", f"= {at} {it}")]


def others_of(lines):
    """The same file with something wrong: an answer changed, one left out with its call, a number changed, an answer
    too early."""
    last = len(lines) - 1
    yield [*lines[:-1], lines[-1] + "x"]
    yield [*lines[:-3], *lines[-1:]]
    yield [*lines[: last - 2], lines[last - 2].replace("= ", "= 1", 1), *lines[last - 1 :]]
    yield [line.replace("judged -", "judged 2") for line in lines]
    yield [line.replace("quiet", "asked 2 1 by -") for line in lines]
    yield [*lines[:4], "= 0 quiet", *lines[4:]]


def by_the_player_of_a_document(program):
    """Both play the same files without a fault, and refuse the same others."""
    code, said = code_in("CHECKING.md"), []
    if code.count("\n") > MOST_LINES:
        said.append(f"the player has {code.count(chr(10))} lines, and more than {MOST_LINES}")
    with tempfile.TemporaryDirectory(prefix="swimsim-") as folder:
        paths = f"{folder}/player.py", f"{folder}/1-0-0.swim"
        with open(paths[0], "w") as file:
            file.write(code)
        for values in FILES:
            lines = told_file(program, *values)
            for place, it in enumerate([lines, *(other for other in others_of(lines) if other != lines)]):
                text = "\n".join(it) + "\n"
                with open(paths[1], "w") as file:
                    file.write(text)
                statuses = ran([sys.executable, *paths], "").returncode, ran([program, paths[1]], "").returncode
                wanted = (int(place > 0),) * 2
                said += [
                    f"{values}, change {place}: the player and swimsim end with {statuses}"
                ] if statuses != wanted else []
            os.remove(paths[1])
    return said
