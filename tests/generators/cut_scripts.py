"""Random scripts that are cut in two at each event line. The second part is played by a detector that goes on from what
the first one leaves: the same parameters, the members known then, up or failed, ascending by id, and the last period
number that was used. What is drawn in it is told anew.

That detector is played twice. The reference goes on within one run (`reference --cut N`). And a journal file is written
whose header is that opening, which swimsim and the reference play: its rows are those that swimsim's own `table` shows
at the cut.

`cut_everywhere` plays all cuts of the script of a seed, and says what isn't as it has to be.
"""

import random
from typing import NamedTuple

from tests.generators.detector_scripts import churning, crowded, growing_from_nobody, mixed, near_the_last_number
from tests.generators.detector_scripts import planned, relaying, seeded, with_a_small_journal
from tests.generators.gap_scripts import returning
from tests.generators.growing_scripts import Script, joined
from tests.generators.version_scripts import asking_about_anybody
from tests.models.draws import Draws
from tests.models.hearing_model import ASKED, FAILED, walked

MOST_EVENTS = 40
SHOWN_BYTES = 400
KNOWN_MEMBERS = 128
SHOWN, REMOVED, BACK = (f"a member that failed before: {it}" for it in ("shown", "removed", "joined again"))
FULL, ORDERED = "a join at a table that is full with those that failed before", "a first round of all that are left"
# What has to be met after a cut.
CASES = [SHOWN, REMOVED, BACK, FULL, ORDERED, FAILED, *ASKED]


def filled(r):
    """As many members as may be known, some of which fail, are removed and come back, while others want to join."""
    script = Script(r, rows=KNOWN_MEMBERS, k=r.choice([0, 1]), rtt=1, period=3)
    strangers = [id for id in range(300, 310) if id != script.me]
    for _ in range(MOST_EVENTS):
        step = r.random()
        if step < 0.5:
            script.tick(3)
        elif step < 0.8:
            script.join(r.choice([*strangers, *script.members[:3]]))
        else:
            script.remove(r.choice([*script.members[:5], 200]))
    return script


KINDS = [
    mixed, churning, planned, growing_from_nobody, crowded, relaying, near_the_last_number, with_a_small_journal, seeded
]
KINDS += [returning, filled, churning, asking_about_anybody]


class Left(NamedTuple):
    """What the first part leaves: rows as a table shows them, by id, and the last number."""

    rows: dict
    last: int

    def up(self):
        return sorted(id for id, row in self.rows.items() if row[2] == "up")

    def failed(self):
        return {id for id, row in self.rows.items() if row[2] != "up"}


def cut_script(seed):
    """The kind and the script of that seed. Its last line is `table`."""
    kind = KINDS[seed % len(KINDS)]
    script = kind(random.Random(f"cuts {seed}"))
    script.events = [*script.events[: MOST_EVENTS - 1], "table"]
    return kind.__name__, script


def opening(script, last):
    return f"open {script.me} {script.k} {script.rtt} {script.period} {last} {script.limit}"


def with_tables(script):
    """The table is shown before each event. That makes no entry."""
    return [
        opening(script, script.last),
        *script.header,
        *script.chooser,
        *(it for event in script.events for it in ("table", event)),
    ]


def answers(events, output):
    """The lines that each event is answered with."""
    lines, found, end = output.decode().splitlines(), [], 0
    for event in events:
        start = end
        while event == "table" and lines[end] != ".":
            end += 1
        end += 1
        while end < len(lines) and lines[end].startswith("> "):
            end += 1
        found.append(lines[start:end])
    return found


def all_left(script, output):
    """What is left at each cut, from the tables before each event."""
    last, found = script.last, []
    both = answers([it for event in script.events for it in ("table", event)], output)
    for table, answer in zip(both[::2], both[1::2]):
        found.append(Left({int(row.split()[0]): row.split(" ", 2) for row in table[:-1]}, last))
        last += answer[0].startswith("started ")
    return found


def named(event):
    """The member of a join or a removal."""
    return int(event.split(" ")[1])


def second_script(script, left, events):
    """A journal file, as its rows tell who failed."""
    rows = [f"row {' '.join(row).replace(' up', '')}" for _, row in sorted(left.rows.items())]
    version = ["wire 2"] * (script.version == 2)
    return ["journal 1", opening(script, left.last), *version, *rows, *script.chooser, *events]


def note_cases(left, events, found, met):
    """Which cases are met by these events and their answers."""
    failed = left.failed()
    for event, answer in zip(events, found):
        if event == "table":
            met.update([SHOWN] if failed else [])
        elif event.startswith("join ") and answer == ["refused 3"]:
            met.update([FULL] if failed else [])
        elif event.startswith("remove ") and answer == ["removed"] and named(event) in failed:
            failed.discard(named(event))
            met.add(REMOVED)
        elif event.startswith("join ") and answer[0].startswith("joined ") and named(event) in failed:
            failed.discard(named(event))
            met.add(BACK)


def first_round(script, ids):
    """The order of the first round, if nothing was drawn before."""
    seeds = [line.split(" ")[1] for line in script.chooser if line.startswith("seed ")]
    orders = [line.split(" ")[1] for line in script.chooser if line.startswith("order ")]
    if seeds:
        return Draws(bytes.fromhex(seeds[0])).order(ids)
    order = [int(id) for id in orders[0].split(",")] if orders else ids
    return order if sorted(order) == ids else ids


def begins_otherwise(script, left, events, found, met):
    """What isn't as the opening says: period numbers go on, the first start judges nobody, and its round is one of all
    that are up, ascending until an order is drawn."""
    starts = [answer[0].split() for answer in found if answer[0].startswith("started ")]
    numbers = [(place, int(it[5])) for place, it in enumerate(starts, 1) if len(it) == 6]
    said = [f"start {place} has the number {number}" for place, number in numbers if number != left.last + place]
    said += [f"the first start is {starts[0]}"] if starts and starts[0][2] != "-" else []
    first = next((place for place, answer in enumerate(found) if answer[0].startswith("started ")), None)
    ids, changes = left.up(), ("joined ", "removed")
    if first is not None and ids and not any(answer[0].startswith(changes) for answer in found[:first]):
        met.add(ORDERED)
        wanted = str(first_round(script, ids)[0])
        said += [f"the first aim is {starts[0][4]}, and not {wanted}"] if starts[0][4] != wanted else []
    return said


def cut_at(run, program, reference, script, place, left, met):
    """What isn't as it has to be at one cut."""
    events = script.events[place:]
    whole = joined([opening(script, script.last), *script.header, *script.chooser, *script.events])
    cut = run([reference, "--cut", str(place)], whole).stdout.partition(b"cut\n")[2]
    within = answers(events, cut)
    note_cases(left, events, within, met)
    second = joined(second_script(script, left, events))
    written, right = run([program], second), run([reference], second)
    said = [] if written == right and right.status == 0 else ["swimsim and the reference write different answers"]
    for event, found, it in zip(events, within, answers(events, right.stdout)):
        if found != it:
            said.append(f"`{event}` is answered {str(found)[:SHOWN_BYTES]}, and not {str(it)[:SHOWN_BYTES]}")
    said += begins_otherwise(script, left, events, within, met)
    unlike, cases = walked(second, right.stdout, right.stderr.decode())
    met.update(cases)
    said += unlike
    return [f"cut at {place}: {it}" for it in said] + ([f"second script:\n{second.decode()}"] if said else [])


def cut_everywhere(run, program, reference, seed):
    """The name of the script, what isn't as it has to be, and which cases were met. `run` gives what a program
    writes."""
    kind, script = cut_script(seed)
    first = joined(with_tables(script))
    written, right = run([program], first), run([reference], first)
    met = set()
    if written != right or right.status != 0:
        return f"cuts of seed {seed}, {kind}", ["swimsim and the reference show different tables"], met
    cuts = (cut_at(run, program, reference, script, *it, met) for it in enumerate(all_left(script, written.stdout)))
    return f"cuts of seed {seed}, {kind}", next((said for said in cuts if said), []), met
