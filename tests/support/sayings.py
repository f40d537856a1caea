"""What a daemon says: on standard output how each life ended and it itself, and on standard error what it tells
people."""

import re
from typing import NamedTuple

COUNTS = rb"entries (\d+) judged (\d+) unsent (\d+) wire (\d+) refused (\d+)( journal cut)?\n"
LIFE = re.compile(rb"life (\d+) " + COUNTS)
LIVES_AND_CLOSING = re.compile(rb"((?:life [^\n]*\n)*)ended (no memory|socket|stopped) " + COUNTS)
# What a daemon tells people: warnings before it begins, and while it runs lines with the time.
TIME = rb"\d{4}-\d\d-\d\dT\d\d:\d\d:\d\d\.\d{3}Z"
WHY_THROWN = rb"have no tag by one of our keys, forged|come faster than the fence lets in, fenced"
THROWN_AWAY = rb"datagrams from [\d.]+:\d+ (?:" + WHY_THROWN + rb") \d+"
CHANGES = rb"judged \d+ in period \d+(?:, last heard in period \d+)?|joined \d+ at [\d.]+:\d+"
CHANGES += rb"|joined \d+ again, after \d+ periods|\d+ changes more, too many at once to tell each"
ODD = rb"\d+ at [\d.]+:\d+ pings and isn't listed|\d+ is this member, and [\d.]+:\d+ speaks as \d+, too"
ODD += rb"|\d+ is heard from [\d.]+:\d+, its row has [\d.]+:\d+|\d+ was heard by relays alone for \d+ rounds"
FILES = rb"(?:journal|metrics) [^\n]*: [^\n]*"
TURNED_AWAY = rb"connections are turned away, as too few descriptors are left, refused \d+"
STARTS = rb"swimd [\d.]+ listens [^\n]*|life \d+ begins|removed [^\n]*|reloaded [^\n]*"
FEWER = rb"told \d+ lines fewer on standard output"
NOTICES = b"|".join([STARTS, CHANGES, ODD, FILES, THROWN_AWAY, TURNED_AWAY, FEWER])
NOTICE = re.compile(rb"warning: [^\n]*\n|" + TIME + rb" (?:" + NOTICES + rb")\n")


class Life(NamedTuple):
    """A life whose journal was full: its line."""

    number: int
    entries: int
    judged: int
    unsent: int
    wire: int
    refused: int


class Closing(NamedTuple):
    """How a daemon ended: its status, and its closing line, which counts its last life."""

    status: int
    why: str
    entries: int
    judged: int
    unsent: int
    wire: int
    refused: int


def lives_in(text):
    """The lives that lines of a text tell of."""
    return [Life(*map(int, it[:6])) for it in LIFE.findall(text)]


def but_for_notices(text):
    """What stands on standard error beside what a daemon tells people before it begins and while it runs."""
    return NOTICE.sub(b"", text)


def but_for_warnings(text):
    """The same beside the warnings of its configuration alone."""
    return re.sub(rb"(?m)^warning: [^\n]*\n", b"", text)


def first_line_of(text):
    """The line that tells an outcome, without the lines below it that say more, and notices before it."""
    lines = but_for_notices(text).splitlines(keepends=True)
    return b"".join(it for it in lines if not it.startswith(b"  "))
