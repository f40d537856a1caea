"""Misuses of two nodes: each of misuses/ has to be refused by the compiler, with one error, in the line that it
changes, before anything is proved. So none is an edit, of which the prover has to be asked."""

import os
import re

from tests.edits.edits import Edit

MISUSES = f"{os.path.dirname(os.path.abspath(__file__))}/misuses"
# The crate that they are misuses in: the least one with two nodes.
MISUSES_OF = "swim_node_pairs"
# What the compiler calls the error: another type than the one that is wanted there, or a value that was moved before.
ANOTHER_TYPE, MOVED = "mismatched-types", "borrow-e0382"
WANTED = {
    "closes_with_a_seat_of_another.edit": ANOTHER_TYPE,
    "learns_news_of_another.edit": ANOTHER_TYPE,
    "uses_a_seat_twice.edit": MOVED,
}
ERROR = re.compile(r"(?:\./)?(\S+?):(\d+):\d+: error\[([\w-]+)\]: .*")


def accepted(room, path):
    """What isn't as wanted of a misuse that was planted and checked."""
    edit = Edit(path, room.texts)
    texts, wanted = edit.planted(room.texts), WANTED[edit.name]
    places = {(file, str(line_of(new, texts[file]))) for file, _, new in edit.pairs}
    lines = room.check(texts).lines
    errors = [it for it in map(ERROR.fullmatch, lines) if it]
    proved = [it for it in lines if it.startswith(("logic=", "fn "))]
    found = {(it[1], it[2]) for it in errors}
    is_refused = errors and {it[3] for it in errors} == {wanted} and found == places and not proved
    return [] if is_refused else [f"it isn't refused as {wanted} in {sorted(places)}, but: {lines[:5]}"]


def line_of(text, whole):
    """The number of the line in which a text stands."""
    return whole[: whole.index(text)].count("\n") + 1
