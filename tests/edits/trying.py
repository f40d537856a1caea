"""Tries the edits of a crate: together, the first of each function where it stands, the others in copies of their
functions (copies.py), and those of functions that have no copy together where they change different ones.

A function is proved against the contracts of what it calls, and not against their bodies. So such edits don't see one
another, and one among others is refused exactly where an error stands inside the function that it changed or in that
function's own answers. One of which no such error is told is tried alone: refused is then what the prover refuses
wherever.
"""

from typing import NamedTuple

from tests.edits.checks import BAD_EDIT, REFUSED, Check
from tests.edits.copies import with_copies
from tests.edits.edits import BadEdit, Edit
from tests.edits.functions import with_holes


class Tried(NamedTuple):
    """An edit with what came of it (refused, not refused or a bad edit), the error or the reason, and what the trial
    was."""

    name: str
    ending: str
    why: str
    how: str


class Beside(NamedTuple):
    """Which edits were tried beside one another, and by which errors some of them were refused."""

    tried: set
    refused: dict


def try_edits(room, paths):
    """Tries the edits of these paths in the room of their crate, and gives what came of each."""
    tried, edits = [], []
    for path in paths:
        try:
            edits.append(Edit(path, room.texts))
        except BadEdit as fault:
            tried.append(Tried(path.rpartition("/")[2], BAD_EDIT, str(fault), "read"))
    beside = try_beside(room, edits)
    tried += [Tried(it.name, REFUSED, why, f"one of {len(beside.tried)}") for it, why in beside.refused.items()]
    others = [it for it in edits if it not in beside.refused]
    alone = [it for it in others if it in beside.tried or not it.function]
    left = [it for it in others if it not in alone]
    while left:
        batch, texts = together(left, room.texts)
        left = [it for it in left if it not in batch]
        errors = refusals(room, texts, [it.function for it in batch]) if len(batch) > 1 else {}
        refused = [it for it in batch if it.function in errors]
        tried += [Tried(it.name, REFUSED, errors[it.function], f"one of {len(batch)} together") for it in refused]
        alone += [it for it in batch if it not in refused]
    return sorted([*tried, *(try_alone(room, it, beside) for it in alone)])


def try_beside(room, edits):
    """Tries by one check the first edit of each function, where it stands, and the others in copies. Where a copy of
    the function as it is stands beside them, an error of a copy tells something only if none is told of that one. Where
    the check doesn't reach the prover, as an edit isn't read or typed, half of them is tried after the other."""
    own = [it for it in edits if it.function]
    first, texts = together(own, room.texts)
    texts, copies, bases = with_copies(room.name, texts, room.texts, [it for it in own if it not in first])
    said = checked(room, texts, sorted([*(it.function for it in first), *copies.values(), *bases.values()]))
    if said.is_told:
        refused = {it: said.refusal(room.name, it.function) for it in first}
        unclear = {it for it, base in bases.items() if said.refusal(room.name, base)}
        clear = [it for it in copies if it.function not in unclear]
        refused.update({it: said.refusal(room.name, copies[it]) for it in clear})
        return Beside({*first, *copies}, {it: why for it, why in refused.items() if why})
    if len(own) < 2:
        return Beside(set(), {})
    one, other = (try_beside(room, it) for it in (own[::2], own[1::2]))
    return Beside(one.tried | other.tried, {**one.refused, **other.refused})


def together(edits, texts):
    """The first edit of each function, but for one whose old text stands twice then, and the crate's texts with all of
    them."""
    first = {}
    for edit in (it for it in edits if it.function not in first):
        try:
            texts = edit.planted(texts)
            first[edit.function] = edit
        except BadEdit:
            pass
    return list(first.values()), texts


def checked(room, texts, functions):
    """What a check says of these functions, the others being taken at the word of their contracts."""
    only = [word for it in functions for word in ("--only", it)]
    return room.check(with_holes(room.name, texts, functions), "--allow-holes", *only) if only else Check([])


def refusals(room, texts, functions):
    """The errors that are told of these functions."""
    said = checked(room, texts, functions)
    return {it: error for it in functions for error in [said.refusal(room.name, it)] if error}


def try_alone(room, edit, beside):
    """Tries one edit: what it was planted in by itself, unless that was tried; and where no error is told there, the
    whole crate."""
    texts = edit.planted(room.texts)
    for error in refusals(room, texts, [] if edit in beside.tried else edit.near).values():
        return Tried(edit.name, REFUSED, error, "alone")
    return Tried(edit.name, *room.check(texts).ending(), "alone, in the whole crate")
