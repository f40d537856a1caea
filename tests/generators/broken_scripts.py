"""Random scripts with faults. Each takes its random numbers and gives the lines or the bytes of a script."""

from tests.generators.detector_scripts import mixed, openings, relaying, seeded, with_a_small_journal
from tests.generators.growing_scripts import LARGEST_ID, joined

SCRIPT_BYTES, LINE_BYTES = 16_777_216, 2_048

SEED = "0123456789abcdefABCDEF" + "0" * 42
MANY = ",".join(map(str, range(1, 130)))
BAD_NUMBERS = ["", "0", "01", "-1", "+1", "1.", "x", "4294967296", "18446744073709551616", "9" * 40, "1\t", "\xb2"]
BAD_PEERS = ["", "1.2.3.4", "1.2.3:4", "1.2.3.4.5:6", "1.2.3.4:5:6", "1.2.3.4:0", "1.2.3.4:0", "1.2.3.4:65536"]
BAD_PEERS += ["256.2.3.4:5", "1.2.3.4:05", "01.2.3.4:5", "x"]
BAD_DIGITS = ["5", "5g", "535", "0x53", "-", "53\t"]
BAD_SEEDS = ["", "00", SEED[:63], SEED[:62], SEED + "0", SEED + "00", SEED[:63] + "g"]
BAD_ORDERS = [MANY, MANY, MANY + ",0", "0," + MANY, MANY[:-4], ",", "2,", ",2", "2,,3", "2,x", "02", "2, 3"]
BAD_WORDS = ["tock", "Tick", "TABLE", " tick", "\ttick", "wires 1", "ticks", "-", "\xff", "row\t2", "open"]
BAD_VERSIONS = [
    "", "0", "3", "3", "02", "+2", "-1", "1.", "x", "258", "4294967298", "18446744073709551617", "2\t", "\xb2"
]


def bad_header_line(r, number, peer):
    return r.choice(
        [
            f"open {r.choice([number, '1'])} {r.choice([number, '1'])} 1 3 {r.choice([number, '0'])} 100",
            f"row {r.choice([number, '139'])} {r.choice([peer, '10.0.0.139:7000'])}",
            f"order {r.choice(BAD_ORDERS)}",
            f"order {r.choice(BAD_ORDERS)}",
            f"place {r.choice([number, '0'])}",
            f"seed {r.choice([*BAD_SEEDS, SEED])}",
            f"seed {SEED}",
            f"wire {r.choice([*BAD_VERSIONS, '1', '2'])}",
        ]
    )


def bad_event_line(r, number, peer):
    return r.choice(
        [
            f"hear {r.choice([peer, '10.0.0.3:7000'])} {r.choice([*BAD_DIGITS, '53', ''])}",
            f"join {r.choice([number, '3'])} {r.choice([peer, '10.0.0.3:7000'])}",
            f"{r.choice(['remove', 'gap'])} {r.choice([number, str(LARGEST_ID)])}",
            f"{r.choice(['tick', 'table'])}{r.choice(['', ' ', ' x'])}",
        ]
    )


def bad_line(r, in_header):
    """A line that mostly is bad, often in two ways."""
    number, peer = r.choice(BAD_NUMBERS), r.choice(BAD_PEERS)
    make = bad_header_line if r.random() < (0.9 if in_header else 0.1) else bad_event_line
    line = make(r, number, peer) if r.random() < 0.85 else r.choice(BAD_WORDS)
    if r.random() < 0.2:
        line = line.rsplit(" ", 1)[0]
    end = r.choice([""] * 8 + [" ", " x", "  ", "\r", " ".ljust(2048)])
    return line + end


def broken(r):
    """A script with a bad line or two, in its header, or among its events."""
    script = r.choice([mixed, mixed, seeded, openings])(r)
    if r.random() < 0.3:
        script.chooser = []
    lines = script.lines()
    head = 1 + len(script.header) + len(script.chooser)
    for _ in range(r.choice([1, 1, 1, 2, 3])):
        in_header = r.random() < 0.6
        place = r.randint(0 if r.random() < 0.1 else 1, head) if in_header else r.randint(head, len(lines))
        lines.insert(place, bad_line(r, in_header))
    return lines[: place + 20]


GOOD = {"id": "3", "peer": "10.0.0.3:7000", "number": "7", "digits": "53", "seed": SEED, "order": "3,2", "version": "2"}
BAD = {"peer": BAD_PEERS, "digits": BAD_DIGITS, "seed": BAD_SEEDS, "order": BAD_ORDERS, "version": BAD_VERSIONS}
SPELT = ["row id peer", "order order", "place number", "seed seed", "wire version", "hear peer digits", "join id peer"]
SPELT += ["remove id", "gap id"]


def misspelt(r):
    """A short script with a line of which one argument, chosen at random, may be bad, and the header line beside it."""
    words = r.choice(SPELT).split(" ")
    bad = r.randint(1, len(words) - 1)
    argument = r.choice(BAD.get(words[bad], BAD_NUMBERS))
    line = " ".join([words[0], *(argument if place == bad else GOOD[words[place]] for place in range(1, len(words)))])
    lines = ["row 2 10.0.0.2:7000", line]
    lines += r.sample(["", "seed " + SEED, "order 2", "place 0", "wire 1", line], r.choice([0, 0, 1, 2]))
    r.shuffle(lines)
    return [r.choice(["open 1 1 1 3 0 100"] * 3 + ["open 1 9 1 3 0 100"]), *lines, "tick", "table"]


def noisy(r):
    """A script with some bytes changed, put in, or left out, and some lines skipped or moved."""
    lines = r.choice([mixed, relaying, with_a_small_journal, openings])(r).lines()[:80]
    for _ in range(r.randint(0, 8)):
        place = r.randint(0, len(lines))
        lines.insert(place, r.choice(["", "#", "# a comment", "#\xff\x00", "#" * 2048]))
    if r.random() < 0.2:
        lines.append(lines.pop(r.randint(0, len(lines) - 1)))
    text = bytearray(joined(lines))
    for _ in range(r.choice([0, 1, 1, 2, 5])):
        place = r.randint(0, len(text) - 1)
        step = r.random()
        if step < 0.4:
            text[place] = r.choice(b"0123456789 \n.:,-#abcdef\r\x00\xff")
        elif step < 0.7:
            text.insert(place, r.choice(b"0123456789 \n.:,-#abcdef\r\x00\xff"))
        else:
            del text[place]
    return bytes(text[: len(text) - r.choice([0, 0, 0, 1])])


def about_as_large_as_may_be(r):
    """A script that ends within some bytes of the limit, with a last line that may be too long, and no fault before."""
    head = joined(mixed(r).lines())
    last = r.choice([b"tick", b"tock", b"#" * r.randint(1, 3_000), b"#" * LINE_BYTES, b"#" * (LINE_BYTES + 1)])
    last += r.choice([b"", b"\n", b"\n", b"\n\n"])
    left = SCRIPT_BYTES + r.choice([-1, 0, 0, 1, 1, 2, len(last) // 2]) - len(head) - len(last)
    line = b"#" * r.randint(1_000, LINE_BYTES) + b"\n"
    return head + line * (left // len(line)) + b"\n" * (left % len(line)) + last
