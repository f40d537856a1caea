"""Scripts with what `swimsim --explain` has to write on standard error, worked out by hand from docs/FORMATS.md."""

OPEN = b"open 1 0 1 3 0 100\n"
ROW = b"row 2 10.0.0.2:7000\n"
PEER = "a PEER: a.b.c.d:port, four numbers from 0 to 255 and a port from 1 to 65535"
ID = "an ID: 1 to 4294967295"
IDS = "1 to 128 IDs with commas between, each 1 to 4294967295"
SEED = "a seed: 64 hexadecimal digits"
HEX = "HEX: hexadecimal digits, an even number of them"
VERSION = "V, the version of its own pings and ping-reqs: 1 or 2"
ANY = "wire, row, order, place, seed, tick, hear, join, remove, table or gap"
EVENT = "tick, hear, join, remove, table or gap"
FIRST = "open ME K RTT PERIOD LAST LIMIT, before any other line"
CHOOSER = "one seed, or orders and places"
NOTHING = "entries 0\nperiods 0\n"
ONE = "entries 1\nperiods 1\n"


def told(fault, marked, expected, cause=None, end=NOTHING):
    """The fault's line, the line with its marks, and what was expected."""
    lines = [fault, *(f"  {it}" for it in marked), f"  expected: {expected}"]
    return "\n".join(lines + [f"  cause: {cause}"] * bool(cause)) + "\n" + end


# who makes such a fault most often, and the words for it
CAUSES = [
    # line ends of another system, at a first word, at an argument, and alone
    (b"open 1 0 1 3 0 100\r\n", told("line 1: number", ["open 1 0 1 3 0 100\\r", "               ^^^^^"],
     "LIMIT, how many entries the journal may have: 0 to 4294967295",
     "the line ends with a carriage return, as lines of another system do: a line feed alone ends a line")),
    (OPEN + ROW + b"tick\r\n", told("line 3: word", ["tick\\r", "^^^^^^"], ANY,
     "the line ends with a carriage return, as lines of another system do: a line feed alone ends a line")),
    (OPEN + b"\r\n", told("line 2: word", ["\\r", "^^"], ANY,
     "the line ends with a carriage return, as lines of another system do: a line feed alone ends a line")),
    (OPEN + b"row 2 10.0.0.2:7000\r\n", told("line 2: peer", ["row 2 10.0.0.2:7000\\r", "      ^^^^^^^^^^^^^^^"], PEER,
     "the line ends with a carriage return, as lines of another system do: a line feed alone ends a line")),
    # a tab
    (OPEN + b"row\t2 10.0.0.2:7000\n", told("line 2: word", ["row\\t2 10.0.0.2:7000", "^^^^^^"], ANY,
     "a tab stands there: words are separated by one space")),
    # a byte order mark
    (b"\xef\xbb\xbfopen 1 0 1 3 0 100\n", told("line 1: word",
     ["\\xef\\xbb\\xbfopen 1 0 1 3 0 100", "^^^^^^^^^^^^^^^^"], FIRST,
     "the line begins with a byte order mark, which some editors write: save the script without it")),
    # spaces
    (OPEN + b"row  2 10.0.0.2:7000\n", told("line 2: number", ["row  2 10.0.0.2:7000", "    ^"], ID,
     "two spaces in a row, or one at the end of the line, have an empty word between them")),
    (OPEN + b"tick \n", told("line 2: extra", ["tick ", "     ^"], "the end of the line",
     "two spaces in a row, or one at the end of the line, have an empty word between them")),
    # a seed of another length
    (OPEN + b"seed 0123456789abcdef\n", told("line 2: hex", ["seed 0123456789abcdef", "     ^^^^^^^^^^^^^^^^"], SEED,
     "it has 16 digits")),
    # words that are missing
    (OPEN + b"row 2\n", told("line 2: peer", ["row 2", "     ^"], PEER, "the line ends before it")),
    (OPEN + b"tick\nremove\n", told("line 3: number", ["remove", "      ^"], ID, "the line ends before it", ONE)),
    # an address without a port
    (OPEN + b"row 2 10.0.0.2\n", told("line 2: peer", ["row 2 10.0.0.2", "      ^^^^^^^^"], PEER,
     "a colon and a port are missing, as in 10.0.0.2:7000")),
    # a zero in front, and a sign
    (OPEN + b"row 02 10.0.0.2:7000\n", told("line 2: number", ["row 02 10.0.0.2:7000", "    ^^"], ID,
     "a number has no sign and no zero in front")),
    (OPEN + b"place -1\n", told("line 2: number", ["place -1", "      ^^"], "a place: 0 to 4294967295",
     "a number has no sign and no zero in front")),
    # capitals
    (OPEN + b"Tick\n", told("line 2: word", ["Tick", "^^^^"], ANY, "first words have small letters")),
    # a zero in front of an octet, and of a port
    (OPEN + b"row 2 10.0.0.02:7000\n", told("line 2: peer", ["row 2 10.0.0.02:7000", "      ^^^^^^^^^^^^^^"], PEER,
     "a number has no sign and no zero in front")),
    (OPEN + b"row 2 10.0.0.2:07000\n", told("line 2: peer", ["row 2 10.0.0.2:07000", "      ^^^^^^^^^^^^^^"], PEER,
     "a number has no sign and no zero in front")),
    # a host's name, with and without a port
    (OPEN + b"row 2 db-1.example:7000\n",
     told("line 2: peer", ["row 2 db-1.example:7000", "      ^^^^^^^^^^^^^^^^^"], PEER,
     "a host's name stands there: an address has numbers alone")),
    (OPEN + b"join 2 localhost\n", told("line 2: peer", ["join 2 localhost", "       ^^^^^^^^^"], PEER,
     "a host's name stands there: an address has numbers alone")),
    # a comma at either end, or two in a row
    (OPEN + b"order 2,3,\n", told("line 2: number", ["order 2,3,", "          ^"], IDS,
     "a comma stands between two IDs, and nowhere else")),
    (OPEN + b"order ,2,3\n", told("line 2: number", ["order ,2,3", "      ^"], IDS,
     "a comma stands between two IDs, and nowhere else")),
    (OPEN + b"order 2,,3\n", told("line 2: number", ["order 2,,3", "        ^"], IDS,
     "a comma stands between two IDs, and nowhere else")),
    (OPEN + b"order  2\n", told("line 2: number", ["order  2", "      ^"], IDS,
     "two spaces in a row, or one at the end of the line, have an empty word between them")),
    (OPEN + b"order 2,x 3\n", told("line 2: number", ["order 2,x 3", "        ^"], IDS)),
    # a comment behind a line, and behind a part of one
    (OPEN + b"tick # first\n", told("line 2: extra", ["tick # first", "     ^"], "the end of the line",
     "a comment has a line of its own, which begins with #")),
    (OPEN + b"row 2 #10.0.0.2:7000\n", told("line 2: peer", ["row 2 #10.0.0.2:7000", "      ^^^^^^^^^^^^^^"], PEER,
     "a comment has a line of its own, which begins with #")),
    # two letters that are swapped, at the end and in front
    (OPEN + b"tikc\n", told("line 2: word", ["tikc", "^^^^"], ANY, "two letters of tick are swapped")),
    (
        b"poen 1 0 1 3 0 100\n",
        told("line 1: word", ["poen 1 0 1 3 0 100", "^^^^"], FIRST, "two letters of open are swapped"),
    ),
    (OPEN + b"wrie 2\n", told("line 2: word", ["wrie 2", "^^^^"], ANY, "two letters of wire are swapped")),
    (OPEN + b"ticck\n", told("line 2: word", ["ticck", "^^^^^"], ANY)),
    (OPEN + b"itkc\n", told("line 2: word", ["itkc", "^^^^"], ANY)),
    # text of another encoding, with its mark in either order and without one
    (b"\xff\xfeo\x00p\x00\n", told("line 1: word", ["\\xff\\xfeo\\x00p\\x00", "^^^^^^^^^^^^^^^^^^"], FIRST,
     "the script is UTF-16 text, which some editors write: save it as UTF-8")),
    (b"\xfe\xff\x00o\n", told("line 1: word", ["\\xfe\\xff\\x00o", "^^^^^^^^^^^^^"], FIRST,
     "the script is UTF-16 text, which some editors write: save it as UTF-8")),
    (b"o\x00p\x00\n", told("line 1: word", ["o\\x00p\\x00", "^^^^^^^^^^"], FIRST,
     "the script is UTF-16 text, which some editors write: save it as UTF-8")),
    # half a byte
    (OPEN + b"hear 10.0.0.2:7000 123\n", told("line 2: hex", ["hear 10.0.0.2:7000 123", "                   ^^^"], HEX,
     "it has 3 digits, an odd number")),
]

NO_LINE = "line 0: word\n  expected: " + FIRST
NO_LINE += "\n  cause: the script has no line but empty ones and comments\n" + NOTHING
# each fault, with no cause to be seen or one that other lines tell
FAULTS = [
    (b"", NO_LINE),
    (b"# alone\n\n", NO_LINE),
    (b"\ntick\n", told("line 2: word", ["tick", "^^^^"], FIRST)),
    (OPEN + b"tock\n", told("line 2: word", ["tock", "^^^^"], ANY)),
    (OPEN + b"tick\ntock", told("line 3: word", ["tock", "^^^^"], EVENT, None, ONE)),
    (
        OPEN + OPEN,
        told("line 2: word", ["open 1 0 1 3 0 100", "^^^^"], ANY, "the opening stands once, as the first line"),
    ),
    (OPEN + b"tick\n" + OPEN, told("line 3: word", ["open 1 0 1 3 0 100", "^^^^"], EVENT,
     "the opening stands once, as the first line", ONE)),
    (OPEN + b"tick\ntick\n" + ROW, told("line 4: word", ["row 2 10.0.0.2:7000", "^^^"], EVENT,
     "line 2 is an event line: header lines stand before the first", "entries 2\nperiods 1\n")),
    (OPEN + b"seed " + b"0" * 64 + b"\norder 2\n", told("line 3: seed", ["order 2", "^^^^^"], CHOOSER,
     "line 2 is a seed, from which orders and places are drawn")),
    (OPEN + b"order 2\nseed 00\n", told("line 3: seed", ["seed 00", "^^^^"], CHOOSER,
     "line 2 tells an order or a place, so no seed is followed")),
    (OPEN + b"place 2\nplace 3\nseed 00\n", told("line 4: seed", ["seed 00", "^^^^"], CHOOSER,
     "line 2 tells an order or a place, so no seed is followed")),
    (
        OPEN + b"row 4294967296 10.0.0.2:7000\n",
        told("line 2: number", ["row 4294967296 10.0.0.2:7000", "    ^^^^^^^^^^"], ID),
    ),
    (OPEN + b"order 2,x,3\n", told("line 2: number", ["order 2,x,3", "        ^"], IDS)),
    (OPEN + b"order 2,03\n", told("line 2: number", ["order 2,03", "        ^^"], IDS,
     "a number has no sign and no zero in front")),
    (OPEN + b"order " + b",".join([b"7"] * 129) + b"\n", told("line 2: order",
     ["order " + ",".join("7" * 129), "      " + "^" * 257], IDS, "it has 129 IDs")),
    (OPEN + b"row 2 10.0.0.256:7000\n", told("line 2: peer", ["row 2 10.0.0.256:7000", "      ^^^^^^^^^^^^^^^"], PEER)),
    (OPEN + b"wire 3\n", told("line 2: number", ["wire 3", "     ^"], VERSION)),
    (
        OPEN + b"wire 02 x\n",
        told("line 2: number", ["wire 02 x", "     ^^"], VERSION, "a number has no sign and no zero in front"),
    ),
    (OPEN + b"wire\n", told("line 2: number", ["wire", "    ^"], VERSION, "the line ends before it")),
    (OPEN + b"wire 2 1\n", told("line 2: extra", ["wire 2 1", "       ^"], "the end of the line")),
    (OPEN + b"wire 2\nwire 1\n", told("line 3: word", ["wire 1", "^^^^"], ANY, "the version is told once")),
    (OPEN + b"tick\nwire 2\n", told("line 3: word", ["wire 2", "^^^^"], EVENT,
     "line 2 is an event line: header lines stand before the first", ONE)),
    (b"wire 2\n" + OPEN, told("line 1: word", ["wire 2", "^^^^"], FIRST)),
    (OPEN + b"seed 0g\n", told("line 2: hex", ["seed 0g", "     ^^"], SEED)),
    (OPEN + b"hear 10.0.0.2:7000 0g\n", told("line 2: hex", ["hear 10.0.0.2:7000 0g", "                   ^^"], HEX)),
    (OPEN + b"tick now\n", told("line 2: extra", ["tick now", "     ^^^"], "the end of the line")),
    (OPEN + b"\xc3\xa9\x00\n", told("line 2: word", ["\\xc3\\xa9\\x00", "^^^^^^^^^^^^"], ANY)),
    (
        OPEN + b"#" * 2049 + b"\n",
        "line 2: long\n  expected: at most 2048 bytes in a line\n  cause: it has 2049 bytes\n" + NOTHING,
    ),
    (b"#\n" * 8_388_608 + b"#", "line 8388609: size\n  expected: at most 16777216 bytes in a script\n" + NOTHING),
]

# an opening that is refused, by its number
OPENINGS = [
    (b"open 1 9 1 3 0 100\ntick\n", told("line 1: opening 1", ["open 1 9 1 3 0 100", "       ^"],
     "K, how many relays are asked: 0 to 8", "more than 8 relays")),
    (b"open 1 0 0 3 0 100\n", told("line 1: opening 2", ["open 1 0 0 3 0 100", "         ^"],
     "RTT, the timeout in ticks: 1 to 21845",
     "a timeout of 0 ticks, or a period of less than three timeouts or of more than 65535 ticks")),
    (b"open 1 0 21846 65535 0 100\n", told("line 1: opening 2", ["open 1 0 21846 65535 0 100", "         ^^^^^"],
     "RTT, the timeout in ticks: 1 to 21845",
     "a timeout of 0 ticks, or a period of less than three timeouts or of more than 65535 ticks")),
    (b"open 1 0 1 2 0 100\n", told("line 1: opening 2", ["open 1 0 1 2 0 100", "           ^"],
     "PERIOD, in ticks: three times RTT to 65535",
     "a timeout of 0 ticks, or a period of less than three timeouts or of more than 65535 ticks")),
    (OPEN + b"".join(b"row %d 10.0.0.2:7000\n" % it for it in range(2, 132)), told("line 1: opening 3",
     ["open 1 0 1 3 0 100", "^^^^"], "at most 128 rows", "the row of line 130 is one too many")),
    (OPEN + ROW + b"row 1 10.0.0.1:7000\n", told("line 1: opening 4", ["open 1 0 1 3 0 100", "     ^"],
     "rows with other IDs than ME", "the row of line 3 has the ID ME")),
    (b"# two rows\n" + OPEN + ROW + b"row 3 10.0.0.3:7000\n\n" + ROW + b"tick\n", told("line 2: opening 5",
     ["open 1 0 1 3 0 100", "^^^^"], "rows with different IDs", "the rows of lines 3 and 6 both have the ID 2")),
]

# what a run came to
ACK = b"hear 10.0.0.2:7000 535701030000000200000001000000020000000000000001\n"
REQUEST = b"hear 10.0.0.2:7000 535702020000000200000002000000090000000000000009"
RUNS = [
    (OPEN, NOTHING),
    # the member never answers, and two acks come for no probe
    (OPEN + ROW + b"tick\n" * 4 + ACK + ACK + b"join 1 10.0.0.1:7000\nhear 10.0.0.2:7000 00\ntable\ngap 2\n",
     "entries 7\nperiods 2\njudged 2 in period 1\ndropped 6 stray: 2\nrefused 1 myself: 1\n"
     "wire 1 neither 24 nor 30 bytes: 1\n"),
    # bytes that are nearly a ping-req of version 2: without its address, with an address whose port is 0, twice, and
    # with a byte more
    (OPEN + ROW + REQUEST + b"\n" + (REQUEST + b"0a0000090000\n") * 2 + REQUEST + b"0a0000091b5800\n",
     "entries 0\nperiods 0\nwire 1 neither 24 nor 30 bytes: 1\n"
     "wire 7 not as many bytes as its version and kind have: 1\nwire 8 the port is 0: 2\n"),
    # another version, and no datagram at all
    (OPEN + ROW + b"hear 10.0.0.2:7000 53570301%s\nhear 10.0.0.2:7000 %s\n" % (b"0" * 40, b"0" * 60),
     "entries 0\nperiods 0\nwire 2 the first two bytes are not 53 57: 1\n"
     "wire 3 neither of version 1 nor of version 2: 1\n"),
    # a journal with room for one entry
    (b"open 1 0 1 3 0 1\ntick\ntick\ntick\n", "entries 1\nperiods 1\njournal full: 2\n"),
    # the first order is none of the two members, and no other round begins; one place is drawn
    (OPEN + b"order 2,4\norder 3,2\norder 2,3\nplace 0\nplace 9\n" + ROW + b"row 3 10.0.0.3:7000\n" + b"tick\n" * 7
     + b"join 4 10.0.0.4:7000\n",
     "entries 8\nperiods 3\njudged 2 in period 1\njudged 3 in period 2\n"
     "line 2: this order is none of the members that were to be put in order\n"
     "line 3: this order was left over\nline 4: this order was left over\nline 6: this place was left over\n"),
    # a relay is chosen among 3 and 4 by line 3; in the next period 4 alone may be one, and line 4 names another
    (b"open 1 1 1 3 0 100\norder 2,3,4\norder 4,3\norder 2\n" + ROW + b"row 3 10.0.0.3:7000\nrow 4 10.0.0.4:7000\n"
     + b"tick\n" * 5,
     "entries 5\nperiods 2\njudged 2 in period 1\n"
     "line 4: this order is none of the members that were to be put in order\n"),
]

# journal files
JOURNAL = b"journal 1\n" + OPEN
SEEDED = b"seed " + b"0" * 64
NEWEST = "= 0 started judged - probe 2 1"
MORE = "tick, hear, join, remove, table, gap or ="
LIFE = "LIFE, the stream of the seed: 0 to 18446744073709551615"
FAILED = b"row 3 10.0.0.3:7000 failed"
PERIOD = "N, the period at whose end the member was judged: 1 to LAST"
STATE = "failed N, or the end of the line"
USED = "rows that failed in periods from 1 to LAST"


def differs(line, mark, cause=None, wanted=NEWEST):
    """Of a line that tells the first tick's answer: the marks below it."""
    return JOURNAL + ROW + b"tick\n" + line.encode(), told(
        "line 5: differs", [line.replace("\r", "\\r"), mark], wanted, cause, ONE
    )


JOURNALS = [
    differs("= 0 started judged - probe 2 2", " " * 29 + "^"),
    differs("= 1 started judged - probe 2 1", "  ^"),
    differs("= 0 started judged 3 probe 2 1", " " * 19 + "^"),
    differs("= 0 Started judged - probe 2 1", "    ^"),
    differs("= 0 started judged - probe 2 1 ", " " * 30 + "^"),
    differs("= 0 started judged - probe 2 10", " " * 30 + "^"),
    differs("= 0 started judged - probe 2", " " * 28 + "^", "the line ends before it"),
    differs("= ", "  ^", "the line ends before it"),
    differs("= 0 started judged - probe 2 1\r", " " * 30 + "^^",
            "the line ends with a carriage return, as lines of another system do: a line feed alone ends a line"),
    (
        JOURNAL + b"gap 2\n= 0 quiet\n",
        told("line 4: differs", ["= 0 quiet", "^"], "a call before it: tick, hear, join or remove"),
    ),
    # other faults, and words that stand in journal files alone
    (JOURNAL + ROW + b"tick\n=\n", told("line 5: word", ["=", "^"], MORE, None, ONE)),
    (JOURNAL + b"tick\n" + ROW, told("line 4: word", ["row 2 10.0.0.2:7000", "^^^"], MORE,
     "line 3 is an event line: header lines stand before the first", ONE)),
    (
        JOURNAL + OPEN,
        told("line 3: word", ["open 1 0 1 3 0 100", "^^^^"], ANY, "the opening stands once, as the first line"),
    ),
    (JOURNAL + b"= 0 quiet\n", told("line 3: word", ["= 0 quiet", "^"], ANY)),
    (b"journal 1\ntick\n", told("line 2: word", ["tick", "^^^^"], FIRST)),
    (JOURNAL + SEEDED + b" x\n", told("line 3: number", ["seed " + "0" * 64 + " x", " " * 70 + "^"], LIFE)),
    (JOURNAL + SEEDED + b" 01\n", told("line 3: number", ["seed " + "0" * 64 + " 01", " " * 70 + "^^"], LIFE,
     "a number has no sign and no zero in front")),
    (
        JOURNAL + SEEDED + b" 1 2\n",
        told("line 3: extra", ["seed " + "0" * 64 + " 1 2", " " * 72 + "^"], "the end of the line"),
    ),
    (JOURNAL + b"seed 00 x\n", told("line 3: hex", ["seed 00 x", "     ^^"], SEED, "it has 2 digits")),
    (JOURNAL + SEEDED + b" 1\nplace 0\n", told("line 4: seed", ["place 0", "^^^^^"], CHOOSER,
     "line 3 is a seed, from which orders and places are drawn")),
    (
        JOURNAL + FAILED + b"\n",
        told("line 3: number", ["row 3 10.0.0.3:7000 failed", " " * 26 + "^"], PERIOD, "the line ends before it"),
    ),
    (JOURNAL + FAILED + b" 04\n", told("line 3: number", ["row 3 10.0.0.3:7000 failed 04", " " * 27 + "^^"], PERIOD,
     "a number has no sign and no zero in front")),
    (
        JOURNAL + FAILED + b" 4 5\n",
        told("line 3: extra", ["row 3 10.0.0.3:7000 failed 4 5", " " * 29 + "^"], "the end of the line"),
    ),
    (JOURNAL + FAILED[:-6] + b"down\n", told("line 3: extra", ["row 3 10.0.0.3:7000 down", " " * 20 + "^^^^"], STATE)),
    (JOURNAL + FAILED[:-6] + b"\n", told("line 3: extra", ["row 3 10.0.0.3:7000 ", " " * 20 + "^"], STATE,
     "two spaces in a row, or one at the end of the line, have an empty word between them")),
    (JOURNAL + FAILED[:-6].replace(b"3 ", b"0 ", 1), told("line 3: number", ["row 0 10.0.0.3:7000 ", "    ^"], ID)),
    # a member that failed in a period that was not used
    (JOURNAL + ROW + FAILED + b" 4\ntick\n", told("line 2: opening 6", ["open 1 0 1 3 0 100", " " * 13 + "^"], USED,
     "the row of line 4 failed in period 4, which was not used")),
    (JOURNAL.replace(b"3 0", b"3 12") + FAILED + b" 12\n" + FAILED.replace(b"3 ", b"2 ", 1) + b" 0\n",
     told("line 2: opening 6",
     ["open 1 0 1 3 12 100", " " * 13 + "^^"], USED, "the row of line 4 failed in period 0, which was not used")),
    (JOURNAL.replace(b"3 0", b"3 4") + ROW + FAILED + b" 4\ntick\n", ONE),
    (JOURNAL + ROW + b"tick\n" + NEWEST.encode() + b"\n", ONE),
    # the same in any other script
    (OPEN + ROW + b"tick\n" + NEWEST.encode() + b"\n", told("line 4: word", [NEWEST, "^"], EVENT, None, ONE)),
    (
        OPEN + FAILED + b" 4\n",
        told("line 2: extra", ["row 3 10.0.0.3:7000 failed 4", " " * 20 + "^" * 6], "the end of the line"),
    ),
    (
        OPEN + SEEDED + b" 1\n",
        told("line 2: extra", ["seed " + "0" * 64 + " 1", " " * 70 + "^"], "the end of the line"),
    ),
    (b"#\n" + JOURNAL, told("line 2: word", ["journal 1", "^^^^^^^"], FIRST)),
]

# OPENED of cases.py has six lines: its answer is handed on before the seventh is waited for
READ_FAILED = told("line 1: read", [], "input that can be read")
WRITE_FAILED = told("line 7: write", [], "output that can be written", end=ONE)
