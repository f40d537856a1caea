"""Small journal files that `swimsim --verify` is given, worked out by hand, with what it has to tell of them."""

from typing import NamedTuple

FIRST = "journal 1\n"
ROWS = ["row 2 10.0.0.2:7000\n", "row 3 10.0.0.3:7000\n"]
HEAD = [FIRST, "open 1 1 1 3 0 1000\n", *ROWS]
HEAD_2 = [FIRST, "open 1 1 1 3 0 1000\n", "wire 2\n", *ROWS]
SEED = "0" * 64


def ack(member, number, version=1):
    """An ack of that member for a probe of member 1 in the period of that number."""
    return f"hear 10.0.0.{member}:7000 5357{version:02x}03{member:08x}00000001{member:08x}{number:016x}\n"


def told(*calls):
    """The lines of calls, each with its answer behind it."""
    return [line for place, (call, answer) in enumerate(calls) for line in (call, f"= {place} {answer}\n")]


TICK = "tick\n"
STARTED, ASKED, QUIET = (TICK, "started judged - probe 2 1"), (TICK, "asked 2 1 by 3"), (TICK, "quiet")
JUDGED = (TICK, "started judged 2 probe 3 2")
WHOLE = [*HEAD, *told(STARTED, ASKED, QUIET, JUDGED)]
EVIDENCE = "judged 2 in period 1: probed at entry 0, relays 3 asked at entry 1, no ack of period 1 until entry 3\n"
TELLS = "a: entries 4 confirmed 4 periods 2 judged 1\n" + EVIDENCE


class Verified(NamedTuple):
    """Files by their names, in their order, and the status with what is written."""

    name: str
    files: list
    status: int
    stdout: str
    stderr: str = ""


def one(name, lines, status, stdout, stderr=""):
    return Verified(name, [("a", "".join(lines))], status, stdout, stderr)


LIFE = f"row 2 10.0.0.2:7000\nseed {SEED} 0\n"
ALONE = told(STARTED, (TICK, "asked 2 1 by -"), QUIET, (TICK, "started judged 2 probe -"))
NEXT = "row 2 10.0.0.2:7000 failed 1\n"
ONE = "".join([FIRST, "open 1 1 1 3 0 4\n", LIFE, *ALONE])
TWO = "".join([FIRST, "open 1 1 1 3 2 4\n", NEXT, f"seed {SEED} 1\n", *told((TICK, "started judged - probe -"))])
# The life behind it begins with period 4, as that one used 3.
THREE = "".join([FIRST, "open 1 1 1 3 3 4\n", NEXT, f"seed {SEED} 2\n", *told((TICK, "started judged - probe -"))])
ONE_TELLS = "one: entries 4 confirmed 4 periods 2 judged 1\n"
ONE_TELLS += "judged 2 in period 1: probed at entry 0, no relays asked at entry 1, no ack of period 1 until entry 3\n"
TWO_TELLS = "two: entries 1 confirmed 1 periods 1 judged 0\n"
