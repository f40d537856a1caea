"""Journal files of one daemon after the other, over lives and starts, that `swimsim --verify` is given."""

from tests.swimsim.verified_files import one, ONE, ONE_TELLS, SEED, THREE, TWO, TWO_TELLS, Verified


def lives():
    """Files of one daemon, whose second life goes on from what the first left."""
    both = lambda one, two: [("one", one), ("two", two)]
    yield Verified("two lives", both(ONE, TWO), 0, ONE_TELLS + TWO_TELLS)
    three_tells = TWO_TELLS.replace("two", "three")
    three = [*both(ONE, TWO), ("three", THREE)]
    yield Verified("three lives", three, 0, ONE_TELLS + TWO_TELLS + three_tells)
    stderr = "swimsim: two: does not follow three: the last period number isn't the one that was left\n"
    yield Verified("two lives, swapped", three[:0:-1], 1, three_tells + TWO_TELLS, stderr)
    stderr = "swimsim: three: does not follow one: the last period number isn't the one that was left\n"
    yield Verified("three lives without the second", three[::2], 1, ONE_TELLS + three_tells, stderr)
    breaks = {
        "it is another member's": ("open 1 1", "open 9 1"),
        "another number of relays is asked": ("open 1 1", "open 1 2"),
        "the timeout or the period is another": ("1 3 2 4", "1 4 2 4"),
        "the version of its own messages is another": ("open 1 1 1 3 2 4\n", "open 1 1 1 3 2 4\nwire 2\n"),
        "the members aren't those that were left": (" failed 1", " failed 2"),
        "the last period number isn't the one that was left": ("1 3 2 4", "1 3 3 4"),
        "the journal may have another number of entries": ("1 3 2 4", "1 3 2 5"),
        "the seed is another": ("seed 0", "seed 1"),
        "its life isn't the next": (f"{SEED} 1", f"{SEED} 2"),
    }
    for why, (old, new) in breaks.items():
        stderr = f"swimsim: two: does not follow one: {why}\n"
        yield Verified(f"two lives: {why}", both(ONE, TWO.replace(old, new, 1)), 1, ONE_TELLS + TWO_TELLS, stderr)
    address = TWO.replace("10.0.0.2:7000", "10.0.0.2:7001")
    stderr = "swimsim: two: does not follow one: the members aren't those that were left\n"
    yield Verified("two lives: an address", both(ONE, address), 1, ONE_TELLS + TWO_TELLS, stderr)
    unseeded = TWO.replace(f"seed {SEED} 1\n", "")
    yield Verified("two lives, one without a seed", both(ONE, unseeded), 0, ONE_TELLS + TWO_TELLS)
    header = "".join(TWO.splitlines(True)[:4])
    empty = "two: entries 0 confirmed 0 periods 0 judged 0\n"
    yield Verified("a second life without a call", both(ONE, header), 0, ONE_TELLS + empty)
    stderr = "swimsim: two: does not follow one: its life isn't the next\n"
    yield Verified(
        "another second life without a call",
        both(ONE, header.replace(f"{SEED} 1", f"{SEED} 7")),
        1,
        ONE_TELLS + empty,
        stderr,
    )
    yield Verified("a second life whose header is cut", both(ONE, header[: header.index("row")]), 0, ONE_TELLS + empty)
    yield Verified(
        "the same, in the midst of a line",
        both(ONE, header[: header.index("seed") + 9]),
        0,
        ONE_TELLS + empty + "cut before entry 0\n",
    )
    cut = ONE_TELLS.splitlines(True)[0].replace("4 confirmed 4 periods 2 judged 1", "4 confirmed 3 periods 1 judged 0")
    stderr = "swimsim: two: does not follow one: what one left isn't known, as it isn't whole\n"
    shorter = "".join(ONE.splitlines(True)[:-1])
    yield Verified("a first life that is cut", both(shorter, TWO), 1, cut + "cut behind entry 2\n" + TWO_TELLS, stderr)
    yield Verified(
        "a second life that is cut", both(ONE, TWO + "ti"), 0, ONE_TELLS + TWO_TELLS + "cut behind entry 0\n"
    )


def starts():
    """Files of one daemon that was started again: the header of a start's first life tells LIFE 0."""
    again = ("again", ONE)
    anew = "again: a new start\n" + ONE_TELLS.replace("one:", "again:")
    yield Verified("two starts", [("one", ONE), again], 0, ONE_TELLS + anew)
    files = [("one", ONE), ("two", TWO), again]
    yield Verified("a start behind two lives", files, 0, ONE_TELLS + TWO_TELLS + anew)
    later = ("later", TWO)
    tells = ONE_TELLS + TWO_TELLS + anew + TWO_TELLS.replace("two", "later")
    yield Verified("two starts of two lives", [*files, later], 0, tells)
    killed = [("one", ONE), ("two", TWO + "ti"), again]
    yield Verified(
        "a start behind a life that is cut", killed, 0, ONE_TELLS + TWO_TELLS + "cut behind entry 0\n" + anew
    )
    other = ONE.replace("open 1 1 1 3 0 4", "open 1 1 1 3 7 4").replace("probe 2 1", "probe 2 8")
    other = ("again", other.replace("asked 2 1 ", "asked 2 8 "))
    tells = anew.replace("period 1:", "period 8:").replace("of period 1 ", "of period 8 ")
    yield Verified("a start with another last number", [("one", ONE), other], 0, ONE_TELLS + tells)
    wrong = ONE.replace("quiet", "quie")
    faulty = "one: entries 3 confirmed 2 periods 1 judged 0\n"
    stderr = "swimsim: one: line 10: differs, behind entry 1\n"
    yield Verified("a start behind a life with a fault", [("one", wrong), again], 1, faulty + anew, stderr)
    foreign = "swimsim: one: it is no journal file: its first line isn't `journal 1`\n"
    yield Verified("a start behind what is no journal file", [("one", "notes\n"), again], 1, anew, foreign)
    stderr = "swimsim: later: does not follow again: its life isn't the next\n"
    skipped = TWO.replace(f"{SEED} 1", f"{SEED} 2")
    yield Verified(
        "a life that isn't the next of its start", [("one", ONE), again, ("later", skipped)], 1,
        ONE_TELLS + anew + TWO_TELLS.replace("two", "later"), stderr
    )
    unseeded = ONE.replace(f"seed {SEED} 0\n", "")
    stderr = "swimsim: again: does not follow one: the members aren't those that were left\n"
    tells = ONE_TELLS + ONE_TELLS.replace("one:", "again:")
    yield Verified("a life that tells no seed begins no start", [("one", ONE), ("again", unseeded)], 1, tells, stderr)
    shorter, header = "".join(ONE.splitlines(True)[:-1]), "".join(ONE.splitlines(True)[:2])
    cut = ONE_TELLS.splitlines(True)[0].replace("4 confirmed 4 periods 2 judged 1", "4 confirmed 3 periods 1 judged 0")
    tells = cut + "cut behind entry 2\nagain: entries 0 confirmed 0 periods 0 judged 0\n"
    yield Verified("a header that is cut, behind a life that is", [("one", shorter), ("again", header)], 0, tells)
    tells = cut + "cut behind entry 2\nagain: entries 0 confirmed 0 periods 0 judged 0\ncut before entry 0\n"
    yield Verified("an empty file behind a life that is cut", [("one", shorter), ("again", "")], 0, tells)
