"""How often the calls of an open node ask for memory, and for how much: crates/node_bench, with each request told.

A run of many calls asks for more than one of few. What it asks for beyond that is known from what a call keeps:

- the box that the cell of its entry is set to, once a call. It has no bytes, and the least request is one of 1 byte;
- what grows by doubling, and so once between few and many calls: the calls of its seat, of 176 bytes each; the
  journal's slots, of 16; but for ticks in which nothing was to be done, the journal's entries, of 104; and the two
  lists of notes, one of the seat and one under the lock, whose notes have no bytes.

So nothing else asks: neither the lock, nor the detector's answer, nor the publication of a change. Joins and removals,
each of which is published, ask for exactly what as many pings ask for, from the opening of the node to its end: the
writer's queue and both copies of the published table stay as they were when the node was opened.
"""

from collections import Counter

FEW, MANY = 1_024, 2_048
CALL, SLOT, ENTRY, CELL, NO_BYTES = 176, 16, 104, 8, 1
LISTS_OF_NOTES = 2
# What is done, and what grows with it.
CALLS = {"hear": [CALL, SLOT, ENTRY], "tick": [CALL, SLOT], "change": [CALL, SLOT, ENTRY]}


def of_calls(asked, growing):
    """What isn't as it has to be in the requests of few and of many calls."""
    few, many = map(Counter, asked)
    # There are as many cells as there may be entries, from the start on: many in the place of few.
    wanted = Counter([*(size * MANY for size in growing), CELL * MANY]) + Counter(
        {NO_BYTES: MANY - FEW + LISTS_OF_NOTES}
    )
    less = Counter([CELL * FEW])
    said = [] if few - many == less else [f"fewer calls ask for {dict(few - many)} beyond more"]
    return said + (
        [] if many - few == wanted else [f"more calls ask for {dict(many - few)} beyond, and not {dict(wanted)}"]
    )


def counted_calls(refuser, program):
    """Of each kind of call, its name and what isn't as it has to be."""
    asked = {mode: [refuser.requests([program, mode, str(count), "0"]) for count in (FEW, MANY)] for mode in CALLS}
    for mode, growing in CALLS.items():
        yield f"requests of {mode}", of_calls(asked[mode], growing)
        print(f"  {mode}: {len(asked[mode][1]) - len(asked[mode][0]):,} requests by {MANY - FEW:,} calls more")
    same = asked["hear"] == asked["change"]
    yield "requests of joins and removals", [] if same else ["they aren't those of as many pings, one by one"]
