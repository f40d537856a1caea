"""Scripts that are too large to be kept as files, or whose choices are drawn, with what swimsim has to write for them.

Each is (name, script, standard output, standard error, status).
"""

from tests.models.draws import Draws

SCRIPT_BYTES = 16_777_216
LINE_BYTES = 2_048

OPEN = b"open 1 0 1 3 0 100\n"
ROW = b"row 2 10.0.0.2:7000\n"
ALONE = b"started judged - probe -\n"


def comment(length):
    """A comment of so many bytes, without its line feed."""
    return b"#" * length


def filled(head, length):
    """The head and comments behind it, of exactly so many bytes in all. The last byte is a line feed."""
    whole = comment(LINE_BYTES) + b"\n"
    count, left = divmod(length - len(head), len(whole))
    return head + whole * count + (comment(left - 1) + b"\n" if left else b"")


def good(name, script, stdout=b""):
    return name, script, stdout, b"", 0


def bad(name, script, fault, stdout=b""):
    return name, script, stdout, fault.encode() + b"\n", 1


def scripts_about_as_large_as_may_be():
    whole = filled(OPEN, SCRIPT_BYTES)
    lines = whole.count(b"\n")
    yield good("a script of 16,777,216 bytes", whole)
    yield good("the same without a line feed at its end", whole[:-1] + b"#")
    yield bad("one byte more, in a line of its own", whole + b"t", f"line {lines + 1}: size")
    yield bad("one line feed more", whole + b"\n", f"line {lines + 1}: size")
    yield bad("one byte more, a line feed that ends a line", filled(OPEN, SCRIPT_BYTES + 1), f"line {lines}: size")
    yield bad("a last line with bytes too many", whole[:-1] + b"###\n", f"line {lines}: size")
    yield bad("a faulty last line with bytes too many", whole[:-3] + b"\nnone\n", f"line {lines + 1}: size")

    answered = filled(OPEN + b"tick\n", SCRIPT_BYTES) + b"\n"
    yield bad("answers before the size", answered, f"line {answered.count(10)}: size", ALONE)
    refused = filled(b"open 1 0 1 2 0 9\n", SCRIPT_BYTES) + b"\n"
    yield bad("the size before the opening", refused, f"line {refused.count(10)}: size")
    faulty = filled(OPEN + b"none\n", SCRIPT_BYTES + 1)
    yield bad("a fault in an earlier line than the size", faulty, "line 2: word")
    empty = filled(b"", SCRIPT_BYTES) + b"\n"
    yield bad("no line but comments, and a byte too many", empty, f"line {empty.count(10)}: size")


def journal_files_that_are_large():
    head = b"journal 1\n" + OPEN + b"tick\n= 0 started judged - probe -\n"
    large = filled(head, SCRIPT_BYTES + 1_000_000) + b"tick\n= 1 quiet\n"
    yield good("a journal file with more bytes than a script", large, ALONE + b"quiet\n")
    behind = filled(b"\njournal 1\n" + OPEN, SCRIPT_BYTES + 1)
    yield bad("a script whose second line is that of a journal file", behind, "line 2: word")
    other = filled(b"# journal 1\n" + OPEN, SCRIPT_BYTES + 1)
    yield bad("a script with a comment first", other, f"line {other.count(10)}: size")


def lines_that_are_long_and_scripts_that_are_large():
    yield bad("one line of 16,777,216 bytes", comment(SCRIPT_BYTES), "line 1: long")
    yield bad("one line of 16,777,217 bytes", comment(SCRIPT_BYTES + 1), "line 1: size")
    ends = filled(OPEN, SCRIPT_BYTES - 3000) + comment(2999) + b"\n"
    yield bad("a long line that ends with the last byte", ends, f"line {ends.count(10)}: long")
    crosses = filled(OPEN, SCRIPT_BYTES - 100) + comment(2999) + b"\n"
    yield bad("a long line with bytes too many", crosses, f"line {crosses.count(10)}: size")
    early = filled(OPEN + comment(LINE_BYTES + 1) + b"\n", SCRIPT_BYTES + 1)
    yield bad("a long line before the bytes too many", early, "line 2: long")


def lines_about_as_long_as_may_be():
    yield good("a comment of 2,048 bytes", OPEN + comment(LINE_BYTES) + b"\n")
    yield good("the same without a line feed", OPEN + comment(LINE_BYTES))
    yield bad("a comment of 2,049 bytes", OPEN + comment(LINE_BYTES + 1) + b"\n", "line 2: long")
    yield bad("the same without a line feed", OPEN + comment(LINE_BYTES + 1), "line 2: long")
    yield good("a first line of 2,048 bytes", comment(LINE_BYTES) + b"\n" + OPEN)
    yield bad("a first line of 2,049 bytes", comment(LINE_BYTES + 1) + b"\n" + OPEN, "line 1: long")
    yield bad("a line of 1,000,000 bytes", OPEN + comment(1_000_000) + b"\n", "line 2: long")
    yield bad("answers before a long line", OPEN + b"tick\n" + comment(LINE_BYTES + 1), "line 3: long", ALONE)
    yield bad("words left over in a long line", OPEN + b"tick".ljust(LINE_BYTES + 1) + b"\n", "line 2: long")
    yield bad("words left over in a line of 2,048 bytes", OPEN + b"tick".ljust(LINE_BYTES) + b"\n", "line 2: extra")

    hear = b"hear 10.0.0.2:7000 "
    digits = LINE_BYTES - len(hear)
    yield bad("an odd number of digits up to the limit", OPEN + hear + b"5" * digits + b"\n", "line 2: hex")
    yield good("an even number of digits", OPEN + hear + b"5" * (digits - 1) + b"\n", b"wire 1\n")
    yield bad("digits past the limit", OPEN + hear + b"5" * (digits + 1) + b"\n", "line 2: long")


def rows(count):
    return b"".join(b"row %d 10.0.0.2:7000\n" % (id + 2) for id in range(count))


def many_rows():
    yield good("128 rows", OPEN + rows(128))
    yield bad("129 rows", OPEN + rows(129) + b"tick\n", "line 1: opening 3")
    yield bad("1,000 rows", OPEN + rows(1000), "line 1: opening 3")
    yield bad("129 rows, this member among them", OPEN + rows(128) + b"row 1 10.0.0.1:7000\n", "line 1: opening 3")
    yield bad("129 rows, one of them twice", OPEN + rows(128) + ROW, "line 1: opening 3")
    yield bad("128 rows, this member among them", OPEN + rows(127) + b"row 1 10.0.0.1:7000\n", "line 1: opening 4")
    yield bad("128 rows, one of them twice", OPEN + rows(127) + ROW, "line 1: opening 5")
    yield bad("129 rows and 9 relays", OPEN.replace(b" 0 1 3", b" 9 1 3") + rows(129), "line 1: opening 1")
    yield bad("129 rows and a bad one", OPEN + rows(129) + b"row 0 10.0.0.2:7000\n", "line 131: number")


def lines(*texts):
    return "".join(text + "\n" for text in texts).encode()


def peer(id):
    return f"10.0.0.{id}:7000"


def datagram(kind, sender, initiator, target, number):
    return f"5357010{kind}{sender:08x}{initiator:08x}{target:08x}{number:016x}"


PING, REQUEST, ACK = 1, 2, 3


def known_members():
    head = OPEN + rows(128) + b"tick\n" * 4 + b"join 130 10.0.0.9:7000\n"
    probed = [
        "started judged - probe 2 1",
        f"> 10.0.0.2:7000 {datagram(PING, 1, 1, 2, 1)}",
        "asked 2 1 by -",
        "quiet",
        "started judged 2 probe 3 2",
        f"> 10.0.0.2:7000 {datagram(PING, 1, 1, 3, 2)}",
        "refused 3",
    ]
    others = [f"{id} 10.0.0.2:7000 up" for id in range(3, 130)]
    yield good(
        "128 members, of whom one failed", head + b"table\n", lines(*probed, "2 10.0.0.2:7000 failed 1", *others, ".")
    )
    again = head + b"join 2 10.0.0.2:7001\ntable\n"
    yield good(
        "a failed one of 128 members joins again",
        again,
        lines(*probed, "joined 127", "2 10.0.0.2:7001 up", *others, "."),
    )
    gone = head + b"remove 2\njoin 130 10.0.0.9:7000\njoin 131 10.0.0.9:7000\n"
    yield good(
        "a member joins in the place of one that is gone", gone, lines(*probed, "removed", "joined 127", "refused 3")
    )


def waiting_requests():
    """64 requests wait at most; one of the same probe takes the place of the earlier one."""
    head = lines("open 1 1 1 3 0 1000", f"row 2 {peer(2)}", f"row 3 {peer(3)}")
    asks = lambda number: f"hear {peer(2)} {datagram(REQUEST, 2, 2, 3, number)}"
    sent = lambda number: ["sent", f"> {peer(3)} {datagram(PING, 1, 2, 3, number)}"]
    numbers = [*range(1, 65), 65, 1]
    answers = [line for number in range(1, 65) for line in sent(number)] + ["dropped 5", *sent(1)]
    yield good("65 requests, and the first again", head + lines(*map(asks, numbers)), lines(*answers))
    answered = f"hear {peer(3)} {datagram(ACK, 3, 2, 3, 7)}"
    forwarded = ["sent", f"> {peer(2)} {datagram(ACK, 1, 2, 3, 7)}"]
    script = head + lines(*map(asks, range(1, 65)), answered, asks(65))
    yield good("a request more once one was answered", script, lines(*answers[:128], *forwarded, *sent(65)))


def long_orders():
    count = (LINE_BYTES - len(b"order ") + 1) // 2
    order = b"order " + b",".join([b"1"] * count)
    yield bad("an order of as many ids as a line holds", OPEN + order + b"\n", "line 2: order")
    yield bad("the same, the last of which is no id", OPEN + order[:-1] + b"0\n", "line 2: number")
    yield bad("the same, and one more", OPEN + order + b",1\n", "line 2: long")
    most = b"order " + b",".join([b"4294967295"] * 128) + b"\n"
    yield good("1,000 orders of 128 ids", OPEN + most * 1000 + b"tick\n", ALONE)
    yield good("100,000 places", OPEN + b"place 0\n" * 100_000 + b"join 2 10.0.0.2:7000\n", b"joined 0\n")


class Round:
    """Who was probed in a round and who is to be, with the choices of a seed."""

    def __init__(self, seed, ids, life=0):
        self.draws, self.probed, self.rest = Draws(seed, life), list(ids), []

    def next(self):
        if not self.rest:
            self.probed, self.rest = [], self.draws.order(self.probed)
        self.probed.append(self.rest.pop(0))
        return self.probed[-1]

    def relays(self, aim, count):
        return self.draws.order([id for id in self.probed + self.rest if id != aim])[:count]

    def join(self, id):
        place = self.draws.place(len(self.probed) + len(self.rest))
        behind = place - len(self.probed)
        self.probed.insert(place, id) if behind < 0 else self.rest.insert(behind, id)
        return place


def drawn_rounds(name, seed, life=None):
    """Nine members and two joiners; each period asks relays and is acked behind that. With a life it is a journal
    file."""
    first, told = ([], "") if life is None else (["journal 1"], f" {life}")
    script = [
        *first, "open 1 3 1 3 0 1000", f"seed {seed.hex()}{told}", *(f"row {id} {peer(id)}" for id in range(2, 11))
    ]
    members, answers = Round(seed, range(2, 11), life or 0), []
    for number in range(1, 31):
        aim = members.next()
        relays = members.relays(aim, 3)
        script += ["tick", "tick", f"hear {peer(aim)} {datagram(ACK, aim, 1, aim, number)}", "tick"]
        answers += [f"started judged - probe {aim} {number}", f"> {peer(aim)} {datagram(PING, 1, 1, aim, number)}"]
        answers += [f"asked {aim} {number} by {','.join(map(str, relays))}"]
        answers += [f"> {peer(relay)} {datagram(REQUEST, 1, 1, aim, number)}" for relay in relays]
        answers += ["heard", "quiet"]
        if number in (4, 15):
            script.append(f"join {number + 20} {peer(number + 20)}")
            answers.append(f"joined {members.join(number + 20)}")
    return good(name, lines(*script), lines(*answers))


def drawn_scripts():
    yield drawn_rounds("a seed of zeros", bytes(32))
    yield drawn_rounds("a seed of ones", bytes([255] * 32))
    yield drawn_rounds("a seed of rising bytes", bytes(range(32)))
    for life in (0, 1, 7, 2**32 - 1, 2**32 + 5, 2**64 - 1):
        yield drawn_rounds(f"a seed of rising bytes in life {life}", bytes(range(32)), life)


def long_runs():
    full = OPEN.replace(b"100", b"0")
    yield good("100,000 ticks at a full journal", full + b"tick\n" * 100_000, b"journal full\n" * 100_000)
    roomy = OPEN.replace(b"100", b"30000") + b"tick\n" * 30_001
    yield good("a journal of 30,000 entries", roomy, (ALONE + b"quiet\nquiet\n") * 10_000 + b"journal full\n")
    yield good("100,000 comments", OPEN + b"#\n" * 100_000)
    yield bad("a fault after 100,000 empty lines", OPEN + b"\n" * 100_000 + b"none\n", "line 100002: word")


def made_scripts():
    yield from scripts_about_as_large_as_may_be()
    yield from journal_files_that_are_large()
    yield from lines_that_are_long_and_scripts_that_are_large()
    yield from lines_about_as_long_as_may_be()
    yield from many_rows()
    yield from known_members()
    yield from waiting_requests()
    yield from long_orders()
    yield from drawn_scripts()
    yield from long_runs()
