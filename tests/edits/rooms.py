"""The rooms in which the edits of a crate are tried: one or more a crate, the checks in a room one after the other."""

import os

from tests.edits.checks import REFUSED, Room, texts_of
from tests.edits.edits import edits_of, in_rooms
from tests.edits.misuses import MISUSES, MISUSES_OF, accepted
from tests.edits.samples import SAMPLES, SAMPLES_OF, told_otherwise
from tests.edits.trying import try_edits
from tests.support.parts import timed

# About so many edits of a crate have a room. Each room reads the libraries below and checks the crate's definitions and
# lemmas anew, which takes what some fifteen edits do.
EDITS_A_ROOM = 60


def try_in_room(crates, name, paths, folder):
    """Tries some of a crate's edits: lines that tell of them, and what is complained of each."""
    room = Room(crates, name, folder)
    tried, seconds = timed(try_edits, room, paths)
    lines = [f"edit {name}/{it.name}: {it.ending} ({it.how}): {it.why[:200]}" for it in tried]
    longest = max(room.seconds, default=0)
    lines += [
        f"{name}: {len(tried)} edits in {len(room.seconds)} checks and {seconds:.0f} s, the longest {longest:.0f} s"
    ]
    return lines, [
        *((f"edit {name}/{it.name}", [] if it.ending == REFUSED else [f"{it.ending}: {it.why}"]) for it in tried),
        (f"the driver's names in {name}", [f"no function has the name {it}" for it in sorted(room.misnamed)]),
    ]


def try_driver(crates, name, folder):
    """Tries the edits by which this driver itself is tested, and what the compiler has to refuse, in the crates for
    that."""
    room = Room(crates, name, folder)
    samples = try_edits(room, edits_of(SAMPLES)) if name == SAMPLES_OF else []
    misuses = edits_of(MISUSES) if name == MISUSES_OF else []
    told = [(f"the driver, on {it.name}", told_otherwise(it)) for it in samples]
    return [], [*told, *((f"misuse {os.path.basename(it)}", accepted(room, it)) for it in misuses)]


def trials_of(crates, name, folder):
    """What tries a crate's edits, a room each."""
    rooms = in_rooms(edits_of(f"{crates.folder(name)}/edits"), texts_of(crates.folder(name)), EDITS_A_ROOM)
    trials = [
        lambda at=at, paths=paths: try_in_room(crates, name, paths, f"{folder}/{name}-{at}")
        for at, paths in enumerate(rooms)
    ]
    return trials + [lambda: try_driver(crates, name, f"{folder}/{name}")] * (name in (SAMPLES_OF, MISUSES_OF))
