"""Scripts with the answers that they must have, worked out by hand from the rules.

tests/swimsim/run gives them to swimsim. They are also the ground on which the reference stands: tests/swimsim/compare
gives them to both programs first. Each is (name, script, standard output, standard error, status), as in
made_scripts.py. Those of worked_journals.py and worked_versions.py are among them.
"""

from tests.swimsim.worked_journals import worked_journals
from tests.swimsim.worked_versions import worked_versions

ROWS = "row 2 10.0.0.2:7000\nrow 3 10.0.0.3:7000\n"
TWO = "open 1 1 1 3 0 1000\n" + ROWS
TWO_WITHOUT_RELAYS = "open 1 0 1 3 0 1000\n" + ROWS
THREE_TICKS = "tick\ntick\ntick\n"
ACK = "hear 10.0.0.2:7000 535701030000000200000001000000020000000000000001\n"

# The first tick and the second of TWO, where nobody answers.
STARTED = """\
started judged - probe 2 1
> 10.0.0.2:7000 535701010000000100000001000000020000000000000001
"""
ASKED = """\
asked 2 1 by 3
> 10.0.0.3:7000 535701020000000100000001000000020000000000000001
"""
# The second start of TWO, where member 2 answered, and where it didn't.
STARTED_3 = """\
started judged - probe 3 2
> 10.0.0.3:7000 535701010000000100000001000000030000000000000002
"""
JUDGED_2 = """\
started judged 2 probe 3 2
> 10.0.0.3:7000 535701010000000100000001000000030000000000000002
"""


def good(name, script, stdout):
    return name, script.encode(), stdout.encode(), b"", 0


def bad(name, script, fault, stdout=""):
    return name, script.encode(), stdout.encode(), fault.encode() + b"\n", 1


def acked(target, number):
    """The ack of a member that is probed in that period."""
    return f"hear 10.0.0.{target}:7000 53570103{target:08x}00000001{target:08x}{number:016x}\n"


def probed(target, number):
    """A start that judges nobody."""
    ping = f"535701010000000100000001{target:08x}{number:016x}"
    return f"started judged - probe {target} {number}\n> 10.0.0.{target}:7000 {ping}\n"


def answered_periods(targets):
    """Periods from 1 on, each with its probe and its ack, up to the start of the last: a script, and its output."""
    script, stdout = "tick\n", probed(targets[0], 1)
    for number, target in enumerate(targets[1:], 2):
        script += acked(targets[number - 2], number - 1) + THREE_TICKS
        stdout += "heard\nquiet\nquiet\n" + probed(target, number)
    return script, stdout


def datagrams():
    texts = [
        ("535701010000000100000001000000020000000000000001", "dropped 1"),
        ("53570103ffffffffffffffffffffffffffffffffffffffff", "dropped 7"),
        ("5357010100000001000000010000000200000000000000", "wire 1"),
        ("53570101000000010000000100000002000000000000000100", "wire 1"),
        ("53", "wire 1"),
        ("", "wire 1"),
        ("000000000000000000000000000000000000000000000000", "wire 2"),
        ("535703010000000100000001000000020000000000000001", "wire 3"),
        ("535701000000000100000001000000020000000000000001", "wire 4"),
        ("535701040000000100000001000000020000000000000001", "wire 4"),
        ("535701010000000100000001000000000000000000000000", "wire 5"),
        ("535701010000000100000001000000020000000000000000", "wire 6"),
    ]
    script = "".join(f"hear 10.0.0.9:1 {text}\n" for text, _ in texts)
    yield good("datagrams, and bytes that are none", TWO + script, "".join(f"{it}\n" for _, it in texts))


def periods():
    four = TWO + THREE_TICKS + "tick\n"
    failed = STARTED + ASKED + "quiet\n" + JUDGED_2
    rows = "2 10.0.0.2:7000 failed 1\n3 10.0.0.3:7000 up\n.\n"
    yield good("a member that doesn't answer is judged", four + "table\ngap 2\n", failed + rows + "gap none\n")
    last = "asked 3 2 by -\nquiet\nstarted judged 3 probe -\n"
    yield good("nobody is left to be asked or probed", four + THREE_TICKS, failed + last)
    one = "open 1 0 1 3 0 100\nrow 2 10.0.0.2:7000\n" + THREE_TICKS + "tick\n"
    yield good("one member", one, STARTED + "asked 2 1 by -\nquiet\nstarted judged 2 probe -\n")
    heard = STARTED + "heard\nquiet\nquiet\n" + STARTED_3
    yield good("a member that answers isn't judged", TWO + "tick\n" + ACK + THREE_TICKS, heard)
    relayed = "hear 10.0.0.3:7000 535701030000000300000001000000020000000000000001\n"
    once = TWO + "tick\ntick\n" + relayed + "tick\ntick\n"
    yield good("an ack after the ask, once", once, STARTED + ASKED + "heard\nquiet\n" + STARTED_3)
    late = TWO + "tick\ntick\n" + relayed * 2 + "tick\ntick\n"
    yield good("an ack after the ask, twice", late, STARTED + ASKED + "heard\nheard\nquiet\n" + STARTED_3)
    nobody = "open 1 1 1 3 0 1000\ntick\ntick\ngap 2\ntable\n"
    yield good("nobody is listed", nobody, "started judged - probe -\nquiet\ngap none\n.\n")


def stray_acks():
    yield good("an ack before any tick", TWO + ACK, "dropped 6\n")
    script = TWO + THREE_TICKS + "tick\n" + ACK + "table\n"
    judged = STARTED + ASKED + "quiet\n" + JUDGED_2
    rows = "2 10.0.0.2:7000 failed 1\n3 10.0.0.3:7000 up\n.\n"
    yield good("an ack after the judgement", script, judged + "dropped 6\n" + rows)
    script = "open 1 1 1 3 0 1000\nrow 2 10.0.0.2:7000\ntick\n" + ACK + THREE_TICKS + ACK
    again = "started judged - probe 2 2\n> 10.0.0.2:7000 535701010000000100000001000000020000000000000002\n"
    yield good("an ack of the period before", script, STARTED + "heard\nquiet\nquiet\n" + again + "dropped 6\n")
    script = TWO + "tick\nremove 2\n" + ACK + "join 2 10.0.0.2:7000\n" + THREE_TICKS
    answers = "removed\ndropped 6\njoined 1\nquiet\nquiet\n"
    yield good("an aim that left and came again is none", script, STARTED + answers + STARTED_3)


def last_numbers():
    alone = "open 1 1 1 3 %d 1000\nrow 2 10.0.0.2:7000\n"
    stdout = """\
started judged - probe 2 18446744073709551615
> 10.0.0.2:7000 53570101000000010000000100000002ffffffffffffffff
asked 2 18446744073709551615 by -
quiet
refused 5
refused 5
"""
    yield good("the last period number", alone % 18446744073709551614 + "tick\n" * 5, stdout)
    yield good("no period number is left", alone % 18446744073709551615 + "tick\n", "refused 5\n")


def drawn_rounds():
    orders = TWO_WITHOUT_RELAYS + "order 2,3\norder 3,2\n"
    script, stdout = answered_periods([2, 3, 3, 2])
    gaps = "gap 2\ngap 3\ngap 9\n"
    yield good("two orders", orders + script + gaps, stdout + "gap 1 4 2\ngap 2 3 2\ngap none\n")
    three = TWO_WITHOUT_RELAYS + "row 4 10.0.0.4:7000\norder 4,2,3\norder 2,2,3\n"
    script, stdout = answered_periods([4, 2, 3, 4])
    yield good("an order that is no permutation", three + script, stdout)
    three = TWO + "row 4 10.0.0.4:7000\norder 2,3,4\norder 4,3\norder 3,4\n"
    stdout = """\
started judged - probe 2 1
> 10.0.0.2:7000 535701010000000100000001000000020000000000000001
asked 2 1 by 4
> 10.0.0.4:7000 535701020000000100000001000000020000000000000001
quiet
started judged 2 probe 3 2
> 10.0.0.3:7000 535701010000000100000001000000030000000000000002
asked 3 2 by 4
> 10.0.0.4:7000 535701020000000100000001000000030000000000000002
"""
    yield good("orders of a round and of relays", three + "tick\n" * 5, stdout)
    four = "open 1 2 1 3 0 1000\n" + ROWS + "row 4 10.0.0.4:7000\nrow 5 10.0.0.5:7000\norder 2,3,4,5\norder 5,3,4\n"
    stdout = """\
started judged - probe 2 1
> 10.0.0.2:7000 535701010000000100000001000000020000000000000001
asked 2 1 by 5,3
> 10.0.0.5:7000 535701020000000100000001000000020000000000000001
> 10.0.0.3:7000 535701020000000100000001000000020000000000000001
"""
    yield good("two relays", four + "tick\ntick\n", stdout)


def seeded_rounds():
    """The first shuffle of five is 4 3 2 1 5 by places, the second 3 1 2 4 5, and the places of nine then 1, 7, 1,
    8."""
    head = "open 9 0 1 3 0 1000\nseed " + "0" * 64 + "\n"
    head += "".join(f"row {id} 10.0.0.{id}:7000\n" for id in range(1, 6))
    stdout = """\
started judged - probe 4 1
> 10.0.0.4:7000 535701010000000900000009000000040000000000000001
asked 4 1 by -
quiet
started judged 4 probe 3 2
> 10.0.0.3:7000 535701010000000900000009000000030000000000000002
"""
    yield good("the first round of a seed of zeros", head + "tick\n" * 4, stdout)
    # From 0..=0, 0..=1 and 0..=5 the first three draws of this seed give the last place.
    joins = "".join(f"join {id} 10.0.0.{id}:7000\n" for id in (1, 2))
    empty = "open 9 0 1 3 0 1000\nseed " + "0" * 64 + "\n"
    yield good("the first places of a seed of zeros", empty + joins, "joined 0\njoined 1\n")


def joins_and_removals():
    first = TWO + "place 0\ntick\n" + ACK + "join 4 10.0.0.4:7000\n" + THREE_TICKS + acked(3, 2) + THREE_TICKS
    stdout = STARTED + "heard\njoined 0\nquiet\nquiet\n" + STARTED_3 + "heard\nquiet\nquiet\n" + probed(4, 3)
    yield good("a joiner among those that were probed", first, stdout)
    second = TWO + "place 1\ntick\n" + ACK + "join 4 10.0.0.4:7000\n" + THREE_TICKS + acked(4, 2) + THREE_TICKS
    second += acked(3, 3) + THREE_TICKS + "gap 2\n"
    stdout = STARTED + "heard\njoined 1\nquiet\nquiet\n" + probed(4, 2) + "heard\nquiet\nquiet\n" + probed(3, 3)
    stdout += "heard\nquiet\nquiet\n" + probed(2, 4) + "gap 1 4 3\n"
    yield good("a joiner among those still to be probed", second, stdout)
    script = TWO + "join 5 10.0.0.5:7000\ntick\n"
    stdout = "joined 2\n" + probed(5, 1)
    yield good("a joiner before the first tick", script, stdout)
    script = "open 1 1 1 3 0 1000\nrow 2 10.0.0.2:7000\nrow 4 10.0.0.4:7000\njoin 3 10.0.0.3:7000\ntable\ntick\n"
    rows = "".join(f"{id} 10.0.0.{id}:7000 up\n" for id in (2, 3, 4))
    yield good("a joiner between two others", script, "joined 2\n" + rows + ".\n" + probed(3, 1))
    calls = "join 1 10.0.0.9:7000\njoin 2 10.0.0.9:7000\nremove 1\nremove 9\ntable\n"
    refused = "refused 1\nrefused 2\nrefused 1\nrefused 4\n2 10.0.0.2:7000 up\n3 10.0.0.3:7000 up\n.\n"
    yield good("refused joins and removals", TWO + calls, refused)
    head = TWO_WITHOUT_RELAYS + "place 0\norder 2,3\norder 2,3\n"
    script = "tick\n" + acked(2, 1) + THREE_TICKS + "remove 2\njoin 2 10.0.0.2:7000\n" + acked(3, 2) + THREE_TICKS
    script += acked(2, 3) + THREE_TICKS + "gap 2\ngap 3\n"
    stdout = probed(2, 1) + "heard\nquiet\nquiet\n" + probed(3, 2) + "removed\njoined 0\nheard\nquiet\nquiet\n"
    stdout += probed(2, 3) + "heard\nquiet\nquiet\n" + probed(3, 4) + "gap none\ngap 2 4 3\n"
    yield good("a gap is one of a member that stayed", head + script, stdout)


def as_many_as_may_be_known():
    head = "open 1 0 1 3 0 1000\n" + "".join(f"row {id} 10.0.0.2:{id}\n" for id in range(2, 130))
    script = head + THREE_TICKS + "tick\njoin 130 10.0.0.2:130\njoin 2 10.0.0.2:7001\ntable\n"
    stdout = """\
started judged - probe 2 1
> 10.0.0.2:2 535701010000000100000001000000020000000000000001
asked 2 1 by -
quiet
started judged 2 probe 3 2
> 10.0.0.2:3 535701010000000100000001000000030000000000000002
refused 3
joined 127
2 10.0.0.2:7001 up
"""
    stdout += "".join(f"{id} 10.0.0.2:{id} up\n" for id in range(3, 130)) + ".\n"
    yield good("128 members are known", script, stdout)


def pings():
    for_3 = "hear 10.0.0.2:7000 535701010000000200000002000000030000000000000005\n"
    for_1 = "hear 10.0.0.2:7000 535701010000000200000002000000010000000000000005\n"
    sent = "sent\n> 10.0.0.2:7000 535701030000000100000002000000010000000000000005\n"
    yield good("pings", TWO + for_3 + for_1, "dropped 1\n" + sent)


REQUEST = "hear 10.0.0.2:7000 535701020000000200000002000000030000000000000009\n"
PASSED_ON = "sent\n> 10.0.0.3:7000 535701010000000100000002000000030000000000000009\n"
RELAYED = "hear 10.0.0.3:7000 535701030000000300000002000000030000000000000009\n"
FORWARDED = "sent\n> 10.0.0.2:7000 535701030000000100000002000000030000000000000009\n"


def requests():
    yield good("a request, and its ack twice", TWO + REQUEST + RELAYED * 2, PASSED_ON + FORWARDED + "dropped 7\n")
    ticks = STARTED + ASKED + "quiet\n"
    two = TWO + REQUEST + "tick\ntick\n" + RELAYED
    yield good("an ack one tick before the request is forgotten", two, PASSED_ON + STARTED + ASKED + FORWARDED)
    three = TWO + REQUEST + THREE_TICKS + RELAYED
    yield good("an ack when the request was forgotten", three, PASSED_ON + ticks + "dropped 7\n")
    script = """\
hear 10.0.0.2:7000 535701020000000200000003000000010000000000000009
hear 10.0.0.2:7000 535701020000000200000002000000010000000000000009
hear 10.0.0.2:7000 535701020000000200000002000000090000000000000009
hear 10.0.0.2:7000 535701020000000100000001000000030000000000000009
"""
    yield good("requests that are dropped", TWO + script, "dropped 2\ndropped 3\ndropped 4\ndropped 2\n")
    replaced = "hear 10.0.0.9:9 535701020000000200000002000000030000000000000009\n"
    forwarded = "sent\n> 10.0.0.9:9 535701030000000100000002000000030000000000000009\n"
    script = TWO + REQUEST + "tick\ntick\n" + replaced + "tick\ntick\n" + RELAYED
    yield good("a request again", script, PASSED_ON + STARTED + ASKED + PASSED_ON + "quiet\n" + JUDGED_2 + forwarded)
    script = TWO + REQUEST + "remove 3\n" + RELAYED
    yield good("a request whose target left", script, PASSED_ON + "removed\n" + FORWARDED)


def numbered_request(number):
    return f"hear 10.0.0.2:7000 53570102000000020000000200000003{number:016x}\n"


def numbered_ping(number):
    return f"sent\n> 10.0.0.3:7000 53570101000000010000000200000003{number:016x}\n"


def full_tables_of_requests():
    script = TWO + "".join(numbered_request(number) for number in [*range(1, 66), 1])
    stdout = "".join(numbered_ping(number) for number in range(1, 65)) + "dropped 5\n" + numbered_ping(1)
    yield good("a request too many", script, stdout)
    script = TWO + "".join(numbered_request(number) for number in range(1, 1001)) + THREE_TICKS
    script += "hear 10.0.0.3:7000 535701030000000300000002000000030000000000000001\n" + numbered_request(1000)
    stdout = "".join(numbered_ping(number) for number in range(1, 65)) + "dropped 5\n" * 936
    stdout += STARTED + ASKED + "quiet\n" + "dropped 7\n" + numbered_ping(1000)
    yield good("a thousand requests", script.replace(" 1000\n", " 2000\n", 1), stdout)


def small_journals():
    script = TWO.replace("1000", "2") + THREE_TICKS + "tick\ntable\n"
    full = STARTED + ASKED + "journal full\njournal full\n2 10.0.0.2:7000 up\n3 10.0.0.3:7000 up\n.\n"
    yield good("a journal of two entries", script, full)
    script = TWO.replace("1000", "0") + "tick\nhear 10.0.0.2:7000 53\ngap 2\njoin 4 10.0.0.4:7000\nremove 2\n"
    yield good("a journal of none", script, "journal full\nwire 1\ngap none\njournal full\njournal full\n")


def bad_scripts():
    yield bad("no `open`", "tick\n", "line 1: word")
    yield bad("a period that is too short", "open 1 1 1 2 0 9\n", "line 1: opening 2")
    yield bad("this member without an id", "open 0 1 1 3 0 9\n", "line 1: number")
    yield bad("half a byte", TWO + "hear 10.0.0.2:7000 5\n", "line 4: hex")
    yield good("one byte", TWO + "hear 10.0.0.2:7000 53\n", "wire 1\n")
    seed = "seed " + "0" * 64 + "\n"
    yield bad("a seed beside an order", TWO + "order 2\n" + seed, "line 5: seed")
    yield bad("a place beside a seed", TWO + seed + "place x\n", "line 5: seed")
    yield bad("a second seed", TWO + seed + "seed\n", "line 5: seed")
    yield bad("a seed that is too short", TWO + "seed 00\n", "line 4: hex")
    many = ",".join(str(id) for id in range(2, 131))
    yield bad("129 ids", TWO + f"order {many} x\n", "line 4: order")
    yield bad("129 ids and one that is none", TWO + f"order {many},0\n", "line 4: number")
    yield bad("a header line behind an event line", TWO + "tick\nplace\n", "line 5: word", STARTED)
    yield bad("the opening, at the end", "\nopen 1 9 1 3 0 9\n", "line 2: opening 1")
    yield bad("a fault of the first event line", "open 1 9 1 3 0 9\ngap 0\n", "line 2: number")


def worked_scripts():
    for part in (datagrams, periods, stray_acks, last_numbers, drawn_rounds, seeded_rounds, joins_and_removals):
        yield from part()
    for part in (as_many_as_may_be_known, pings, requests, full_tables_of_requests, small_journals, bad_scripts):
        yield from part()
    yield from worked_journals()
    yield from worked_versions()
