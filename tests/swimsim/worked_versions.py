"""Scripts over both versions of a datagram, with the answers that they must have, worked out by hand from
docs/FORMATS.md and docs/PROTOCOL.md, as in worked_scripts.py."""

OPEN = "open 1 1 1 3 0 100\n"
ROWS = "row 2 10.0.0.2:7000\nrow 3 10.0.0.3:7000\n"
TWO = OPEN + ROWS
# What a member's own version is says nothing of what it answers.
ANY_VERSION = {"no version told": TWO, "version 1 told": TWO + "wire 1\n", "version 2 told": OPEN + "wire 2\n" + ROWS}

# A request of 2 about 9, which nobody lists, at 10.0.0.9:7000; the ping for it, an ack of 9, and what 2 is sent then.
REQUEST_2 = "hear 10.0.0.2:7000 5357020200000002000000020000000900000000000000090a0000091b58\n"
REQUEST_1 = "hear 10.0.0.2:7000 535701020000000200000002000000090000000000000009\n"
PINGED_2 = "sent\n> 10.0.0.9:7000 535702010000000100000002000000090000000000000009\n"
ACK_1 = "hear 10.0.0.9:7000 535701030000000900000002000000090000000000000009\n"
ACK_2 = "hear 10.0.0.9:7000 535702030000000900000002000000090000000000000009\n"
FORWARDED_2 = "sent\n> 10.0.0.2:7000 535702030000000100000002000000090000000000000009\n"

# The same about 3, which is listed at 10.0.0.3:7000; of version 2 it tells another address, 172.16.0.3:7.
LISTED_1 = "hear 10.0.0.2:7000 535701020000000200000002000000030000000000000009\n"
LISTED_2 = "hear 10.0.0.2:7000 535702020000000200000002000000030000000000000009ac1000030007\n"
PINGED_3_IN_1 = "sent\n> 10.0.0.3:7000 535701010000000100000002000000030000000000000009\n"
PINGED_3_IN_2 = "sent\n> 10.0.0.3:7000 535702010000000100000002000000030000000000000009\n"
ACK_OF_3 = "hear 10.0.0.3:7000 535701030000000300000002000000030000000000000009\n"
FORWARDED_3_IN_1 = "sent\n> 10.0.0.2:7000 535701030000000100000002000000030000000000000009\n"
FORWARDED_3_IN_2 = "sent\n> 10.0.0.2:7000 535702030000000100000002000000030000000000000009\n"

# Four ticks of a member of version 2, which nobody answers, and of one of version 1.
STARTED_2 = "started judged - probe 2 1\n> 10.0.0.2:7000 535702010000000100000001000000020000000000000001\n"
ASKED_2 = "asked 2 1 by 3\n> 10.0.0.3:7000 5357020200000001000000010000000200000000000000010a0000021b58\n"
JUDGED_2 = "started judged 2 probe 3 2\n> 10.0.0.3:7000 535702010000000100000001000000030000000000000002\n"
SILENT_2 = STARTED_2 + ASKED_2 + "quiet\n" + JUDGED_2
STARTED_1 = "started judged - probe 2 1\n> 10.0.0.2:7000 535701010000000100000001000000020000000000000001\n"
ASKED_1 = "asked 2 1 by 3\n> 10.0.0.3:7000 535701020000000100000001000000020000000000000001\n"
JUDGED_1 = "started judged 2 probe 3 2\n> 10.0.0.3:7000 535701010000000100000001000000030000000000000002\n"
SILENT_1 = STARTED_1 + ASKED_1 + "quiet\n" + JUDGED_1
FOUR_TICKS = "tick\n" * 4


def good(name, script, stdout):
    return name, script.encode(), stdout.encode(), b"", 0


def bad(name, script, fault, stdout=""):
    return name, script.encode(), stdout.encode(), fault.encode() + b"\n", 1


def faults_of_bytes():
    texts = [
        ("5357020200000002000000020000000900000000000000090a00", "wire 1"),
        ("5357020200000002000000020000000900000000000000090a0000091b", "wire 1"),
        ("5357020200000002000000020000000900000000000000090a0000091b5800", "wire 1"),
        ("000000000000000000000000000000000000000000000000000000000000", "wire 2"),
        ("535703010000000100000001000000020000000000000001", "wire 3"),
        ("535703020000000100000001000000020000000000000001000000000000", "wire 3"),
        ("535702000000000100000001000000020000000000000001", "wire 4"),
        ("535702040000000000000000000000000000000000000000000000000000", "wire 4"),
        ("535702020000000200000002000000090000000000000009", "wire 7"),
        ("535702020000000000000000000000000000000000000000", "wire 7"),
        ("535701010000000100000001000000020000000000000001000000000000", "wire 7"),
        ("5357010200000002000000020000000900000000000000090a0000091b58", "wire 7"),
        ("5357020100000001000000010000000200000000000000010a0000021b58", "wire 7"),
        ("5357020300000001000000010000000200000000000000010a0000021b58", "wire 7"),
        ("5357020200000000000000020000000900000000000000090a0000091b58", "wire 5"),
        ("5357020200000002000000000000000900000000000000090a0000091b58", "wire 5"),
        ("5357020200000002000000020000000000000000000000090a0000090000", "wire 5"),
        ("5357020200000002000000020000000900000000000000000a0000090000", "wire 6"),
        ("535702010000000200000002000000090000000000000000", "wire 6"),
        ("5357020200000002000000020000000900000000000000090a0000090000", "wire 8"),
        ("5357020200000002000000020000000900000000000000090a0000090100", "sent"),
        ("535702010000000100000001000000020000000000000001", "dropped 1"),
        ("53570203ffffffffffffffffffffffffffffffffffffffff", "dropped 7"),
    ]
    ping = "> 10.0.0.9:256 535702010000000100000002000000090000000000000009\n"
    script = "".join(f"hear 10.0.0.9:1 {text}\n" for text, _ in texts)
    stdout = "".join(f"{it}\n" + ping * (it == "sent") for _, it in texts)
    for name, head in ANY_VERSION.items():
        yield good(f"bytes of both versions, and such as are none: {name}", head + script, stdout)


def a_relay_pings_whom_it_does_not_list():
    for name, head in ANY_VERSION.items():
        twice = PINGED_2 + FORWARDED_2 + "dropped 7\n"
        yield good(f"a relay pings whom it does not list: {name}", head + REQUEST_2 + ACK_1 * 2, twice)
        yield good(f"the same, and an ack of version 2, twice: {name}", head + REQUEST_2 + ACK_2 * 2, twice)
        yield good(f"in version 1 it doesn't: {name}", head + REQUEST_1 + ACK_1, "dropped 4\ndropped 7\n")
    nobody = "open 1 0 1 3 0 100\n"
    yield good(
        "a relay that lists nobody", nobody + REQUEST_2 + ACK_1 + REQUEST_1, PINGED_2 + FORWARDED_2 + "dropped 4\n"
    )
    far = "hear 1.2.3.4:5 53570202fffffffffffffffffffffffeffffffffffffffffffffffffffff\n"
    ping = "sent\n> 255.255.255.255:65535 5357020100000001fffffffffffffffeffffffffffffffff\n"
    ack = "hear 1.2.3.4:6 53570203fffffffefffffffffffffffeffffffffffffffff\n"
    forwarded = "sent\n> 1.2.3.4:5 5357020300000001fffffffffffffffeffffffffffffffff\n"
    yield good("the largest of each", nobody + far + ack, ping + forwarded)


def where_a_target_is():
    """At its row's address where it is listed, else where it is told."""
    yield good("a listed target, in version 2", TWO + LISTED_2 + ACK_OF_3, PINGED_3_IN_2 + FORWARDED_3_IN_2)
    told = PINGED_3_IN_2.replace("10.0.0.3:7000", "172.16.0.3:7")
    yield good(
        "a target that was removed", TWO + "remove 3\n" + LISTED_2 + LISTED_1, "removed\n" + told + "dropped 4\n"
    )
    again = PINGED_3_IN_2.replace("10.0.0.3:7000", "10.0.0.33:33")
    calls = "remove 3\njoin 3 10.0.0.33:33\n" + LISTED_2
    yield good("a target that joined again elsewhere", TWO + calls, "removed\njoined 1\n" + again)
    failed = "hear 10.0.0.3:7000 5357020200000003000000030000000200000000000000090a0000021b59\n"
    pinged = "sent\n> 10.0.0.2:7001 535702010000000100000003000000020000000000000009\n"
    yield good("a target that failed, in version 2", TWO + FOUR_TICKS + failed, SILENT_1 + pinged)
    in_1 = "hear 10.0.0.3:7000 535701020000000300000003000000020000000000000009\n"
    yield good("a target that failed, in version 1", TWO + FOUR_TICKS + in_1, SILENT_1 + "dropped 4\n")
    # Who asks is listed nowhere, and tells 10.0.0.9:7000 of both.
    by_4 = lambda target: f"hear 10.0.0.4:7000 535702020000000400000004{target:08x}00000000000000090a0000091b58\n"
    for_4 = lambda peer, target: f"sent\n> {peer}:7000 535702010000000100000004{target:08x}0000000000000009\n"
    calls = by_4(2) + by_4(3) + "hear 10.0.0.4:7000 535701020000000400000004000000020000000000000008\n"
    stdout = SILENT_1 + for_4("10.0.0.9", 2) + for_4("10.0.0.3", 3) + "dropped 4\n"
    yield good("one that is listed nowhere asks for both", TWO + FOUR_TICKS + calls, stdout)
    own = "hear 10.0.0.9:1 5357020200000009000000090000000900000000000000090a0000091b58\n"
    ping = "sent\n> 10.0.0.9:7000 535702010000000100000009000000090000000000000009\n"
    yield good("a target that asks for itself", TWO + own, ping)


def requests_that_are_dropped():
    script = """\
hear 10.0.0.2:7000 5357020200000002000000030000000900000000000000090a0000091b58
hear 10.0.0.2:7000 5357020200000002000000030000000100000000000000090a0000011b58
hear 10.0.0.2:7000 5357020200000001000000010000000300000000000000090a0000031b58
hear 10.0.0.2:7000 5357020200000002000000020000000100000000000000090a0000011b58
"""
    for name, head in ANY_VERSION.items():
        yield good(
            f"requests of version 2 that are dropped: {name}",
            head + script,
            "dropped 2\ndropped 2\ndropped 2\ndropped 3\n",
        )
    ask = lambda number: f"hear 10.0.0.2:7000 53570202000000020000000200000009{number:016x}0a0000091b58\n"
    pinged = lambda number: f"sent\n> 10.0.0.9:7000 53570201000000010000000200000009{number:016x}\n"
    full, waiting = "".join(map(ask, range(100, 164))), "".join(map(pinged, range(100, 164)))
    head = TWO.replace(" 100\n", " 1000\n")
    yield good(
        "64 wait, and one more of version 2", head + full + REQUEST_2 + ask(163), waiting + "dropped 5\n" + pinged(163)
    )
    yield good(
        "64 wait, and one more of version 1", head + full + REQUEST_1 + LISTED_1, waiting + "dropped 4\ndropped 5\n"
    )
    yield good(
        "64 wait, and one about this member",
        head + full + script,
        waiting + "dropped 2\ndropped 2\ndropped 2\ndropped 3\n",
    )
    again = "hear 10.0.0.5:5 535701020000000200000002000000030000000000000009\n"
    last = LISTED_2 + again + ACK_OF_3
    stdout = PINGED_3_IN_2 + PINGED_3_IN_1 + FORWARDED_3_IN_1.replace("10.0.0.2:7000", "10.0.0.5:5")
    full, waiting = "".join(map(ask, range(100, 163))), "".join(map(pinged, range(100, 163)))
    yield good("the last of 64, again in version 1", head + full + last, waiting + stdout)


def requests_of_version_1_wait():
    """64 of 2 about 3, and then some of both versions, of which those that wait are served."""
    head = TWO.replace(" 100\n", " 1000\n")
    about_3 = lambda kind, sender, number: f"{kind:02x}{sender:08x}0000000200000003{number:016x}\n"
    in_1 = lambda number: "hear 10.0.0.2:7000 535701" + about_3(2, 2, number)
    in_2 = lambda number: "hear 10.0.0.2:7000 535702" + about_3(2, 2, number).rstrip() + "0a0000091b58\n"
    ack = lambda number: "hear 10.0.0.3:7000 535701" + about_3(3, 3, number)
    pinged = lambda version, number: f"sent\n> 10.0.0.3:7000 53570{version}" + about_3(1, 1, number)
    forwarded = lambda version, number: f"sent\n> 10.0.0.2:7000 53570{version}" + about_3(3, 1, number)
    calls = "".join(map(in_1, range(1, 65))) + in_2(65) + REQUEST_2 + in_2(1) + in_1(65) + ack(1) + ack(2)
    stdout = "".join(pinged(1, number) for number in range(1, 65)) + "dropped 5\n" * 2 + pinged(2, 1) + "dropped 5\n"
    yield good("64 of version 1 wait", head + calls, stdout + forwarded(2, 1) + forwarded(1, 2))


def requests_again():
    """The address, the version and the age are those of the last one."""
    stdout = PINGED_3_IN_1 + PINGED_3_IN_2 + FORWARDED_3_IN_2 + "dropped 7\n"
    yield good("again in version 2", TWO + LISTED_1 + LISTED_2 + ACK_OF_3 * 2, stdout)
    stdout = PINGED_3_IN_2 + PINGED_3_IN_1 + FORWARDED_3_IN_1 + "dropped 7\n"
    yield good("again in version 1", TWO + LISTED_2 + LISTED_1 + ACK_OF_3 * 2, stdout)
    elsewhere = LISTED_2.replace("10.0.0.2:7000", "10.0.0.9:9", 1)
    forwarded = FORWARDED_3_IN_2.replace("10.0.0.2:7000", "10.0.0.9:9")
    calls = LISTED_1 + "tick\ntick\n" + elsewhere + "tick\ntick\n" + ACK_OF_3
    stdout = PINGED_3_IN_1 + STARTED_1 + ASKED_1 + PINGED_3_IN_2 + "quiet\n" + JUDGED_1 + forwarded
    yield good("again in version 2, two ticks later and from elsewhere", TWO + calls, stdout)
    unlisted = "hear 10.0.0.5:5 535701020000000200000002000000090000000000000009\n"
    calls = REQUEST_2 + unlisted + ACK_1
    yield good("again in version 1, where that is dropped", TWO + calls, PINGED_2 + "dropped 4\n" + FORWARDED_2)
    forgotten = REQUEST_2 + "tick\ntick\ntick\n" + ACK_2
    yield good(
        "a request of version 2 that is forgotten",
        TWO + forgotten,
        PINGED_2 + STARTED_1 + ASKED_1 + "quiet\ndropped 7\n",
    )


def pings_and_acks():
    script = """\
hear 10.0.0.2:7000 535702010000000200000002000000010000000000000005
hear 10.0.0.2:7000 535701010000000200000002000000010000000000000005
hear 10.0.0.2:7000 535702010000000200000002000000030000000000000005
"""
    stdout = """\
sent
> 10.0.0.2:7000 535702030000000100000002000000010000000000000005
sent
> 10.0.0.2:7000 535701030000000100000002000000010000000000000005
dropped 1
"""
    for name, head in ANY_VERSION.items():
        yield good(f"an ack has the version of its ping: {name}", head + script, stdout)
    for version in (1, 2):
        ack = f"hear 10.0.0.2:7000 5357{version:02x}030000000200000001000000020000000000000001\n"
        for own, started in ((1, STARTED_1), (2, STARTED_2)):
            script = f"{TWO}wire {own}\n{ack}tick\n{ack}tick\n{ack}"
            name = f"an ack of version {version} for a probe in version {own}"
            yield good(name, script, f"dropped 6\n{started}heard\nquiet\nheard\n")
    own, of_3 = (
        f"hear 10.0.0.{member}:7000 53570203{member:08x}{initiator:08x}{member:08x}{number:016x}\n"
        for member, initiator, number in ((2, 1, 1), (3, 2, 9))
    )
    script = "tick\n" + own + LISTED_1 + of_3 + "tick\n" * 3
    stdout = STARTED_1 + "heard\n" + PINGED_3_IN_1 + FORWARDED_3_IN_1 + "quiet\nquiet\n"
    probed = "started judged - probe 3 2\n> 10.0.0.3:7000 535701010000000100000001000000030000000000000002\n"
    yield good("acks of version 2 count in version 1, one's own and another's", TWO + script, stdout + probed)
    script = "tick\ntick\nhear 10.0.0.2:7000 535701030000000200000001000000020000000000000001\n"
    stdout = STARTED_2 + ASKED_2 + "heard\n"
    yield good("an ack of version 1 behind the ask in version 2", OPEN + "wire 2\n" + ROWS + script, stdout)


def probes_in_version_2():
    head = OPEN + "wire 2\n" + ROWS
    yield good("relays are told where the aim is", head + "order 2,3\ntick\ntick\n", STARTED_2 + ASKED_2)
    yield good(
        "a judgement in version 2",
        head + FOUR_TICKS + "table\n",
        SILENT_2 + "2 10.0.0.2:7000 failed 1\n3 10.0.0.3:7000 up\n.\n",
    )
    yield good("nobody is left to be asked in version 2", head + FOUR_TICKS + "tick\n", SILENT_2 + "asked 3 2 by -\n")
    # 2 comes back elsewhere while 3 is probed, and is asked about it; then 3 does while 2 is probed.
    script = FOUR_TICKS + "join 2 10.0.0.9:7002\n" + "tick\n" * 3 + "join 3 10.0.0.3:7003\ntick\n"
    stdout = SILENT_2 + """\
joined 1
asked 3 2 by 2
> 10.0.0.9:7002 5357020200000001000000010000000300000000000000020a0000031b58
quiet
started judged 3 probe 2 3
> 10.0.0.9:7002 535702010000000100000001000000020000000000000003
joined 1
asked 2 3 by 3
> 10.0.0.3:7003 5357020200000001000000010000000200000000000000030a0000091b5a
"""
    yield good("relays are told where the aim's row is now", head + script, stdout)
    rows = "row 4294967294 255.255.255.255:65535\nrow 2 0.0.0.0:1\nrow 3 1.2.3.4:256\n"
    three = "open 4294967295 2 1 3 18446744073709551614 100\nwire 2\n" + rows
    stdout = """\
started judged - probe 4294967294 18446744073709551615
> 255.255.255.255:65535 53570201fffffffffffffffffffffffeffffffffffffffff
asked 4294967294 18446744073709551615 by 2,3
> 0.0.0.0:1 53570202fffffffffffffffffffffffeffffffffffffffffffffffffffff
> 1.2.3.4:256 53570202fffffffffffffffffffffffeffffffffffffffffffffffffffff
"""
    yield good("the largest of each, in version 2", three + "tick\ntick\n", stdout)
    yield good("in version 2 nobody is listed", OPEN + "wire 2\ntick\ntick\n", "started judged - probe -\nquiet\n")


def lines_that_tell_a_version():
    for place, head in enumerate(
        (OPEN + "wire 2\n" + ROWS, OPEN + ROWS.replace("row 3", "wire 2\nrow 3"), TWO + "wire 2\n")
    ):
        yield good(f"version 2 told at place {place}", head + FOUR_TICKS, SILENT_2)
    yield good(
        "version 2 told behind an order and a comment",
        TWO + "order 2,3\n# its version\n\nwire 2\nplace 0\n" + FOUR_TICKS,
        SILENT_2,
    )
    yield good(
        "version 2 told behind a seed", OPEN + "row 2 10.0.0.2:7000\nseed " + "0" * 64 + "\nwire 2\ntick\n", STARTED_2
    )
    yield good("version 1 told", TWO + "wire 1\n" + FOUR_TICKS, SILENT_1)
    yield good("a version alone", OPEN + "wire 2", "")
    for text in (
        "0",
        "3",
        "00",
        "01",
        "02",
        "-1",
        "+2",
        "2.",
        "2,",
        "x",
        "\t2",
        "2\r",
        "10",
        "258",
        "4294967298",
        "18446744073709551618",
    ):
        yield bad(f"version {text!r}", TWO + f"wire {text}\ntick\n", "line 4: number")
    for line in ("wire", "wire ", "wire  2", "wire 3 x", "wire  "):
        yield bad(f"a version: {line!r}", TWO + line + "\n", "line 4: number")
    for line in ("wire 2 ", "wire 2 x", "wire 1 2", "wire 2  "):
        yield bad(f"a version: {line!r}", TWO + line + "\n", "line 4: extra")
    for line in ("Wire 2", "wires 2", "wir 2", " wire 2", "wire\t2", "wire2", "WIRE 2"):
        yield bad(f"a version: {line!r}", TWO + line + "\n", "line 4: word")
    table = "2 10.0.0.2:7000 up\n3 10.0.0.3:7000 up\n.\n"
    for line in ("wire 2", "wire 1", "wire 3", "wire", "wire 2 x"):
        yield bad(f"a second version: {line!r}", OPEN + "wire 2\n" + ROWS + line + "\ntick\n", "line 5: word")
        yield bad(f"a version behind an event line: {line!r}", TWO + "table\n" + line + "\n", "line 5: word", table)
        yield bad(f"a version before the opening: {line!r}", line + "\n" + TWO, "line 1: word")
    yield bad(
        "a second version behind an event line",
        OPEN + "wire 2\ntick\nwire 2\n",
        "line 4: word",
        "started judged - probe -\n",
    )
    yield bad("a version and an opening that is refused", "open 1 9 1 3 0 100\nwire 2\ntick\n", "line 1: opening 1")
    yield bad("a bad version before an opening that is refused", "open 1 9 1 3 0 100\nwire 3\ntick\n", "line 2: number")


def journal_files():
    head = "journal 1\n" + OPEN + "wire 2\n" + ROWS
    told = ["started judged - probe 2 1", "asked 2 1 by 3", "quiet", "started judged 2 probe 3 2"]
    calls = "".join(f"tick\n= {place} {text}\n" for place, text in enumerate(told))
    yield good("a journal file of version 2", head + calls, SILENT_2)
    late = "journal 1\n" + TWO + "seed " + "0" * 64 + " 3\nwire 2\ntable\n"
    yield good("a journal file with its version behind a seed", late, "2 10.0.0.2:7000 up\n3 10.0.0.3:7000 up\n.\n")
    known = "journal 1\nopen 1 1 1 3 4 100\nwire 2\nrow 9 10.0.0.8:7000 failed 4\n" + ROWS
    calls = REQUEST_2 + "= 0 sent\n" + ACK_1 + "= 1 sent\n" + REQUEST_1 + "= 2 dropped 4\n"
    yield good(
        "a request about one that failed in an earlier life", known + calls, PINGED_2 + FORWARDED_2 + "dropped 4\n"
    )
    yield bad("a version and a life", head + "wire 2 1\n", "line 6: word")
    yield bad("a version behind the first line", "journal 1\nwire 2\n" + TWO, "line 2: word")
    yield bad(
        "a version behind an answer", head + "tick\n= 0 started judged - probe 2 1\nwire 2\n", "line 8: word", STARTED_2
    )
    yield bad("a version with a word more", "journal 1\n" + OPEN + "wire 2 0\n", "line 3: extra")


def worked_versions():
    for part in (
        faults_of_bytes,
        a_relay_pings_whom_it_does_not_list,
        where_a_target_is,
        requests_that_are_dropped,
        requests_of_version_1_wait,
        requests_again,
    ):
        yield from part()
    for part in (pings_and_acks, probes_in_version_2, lines_that_tell_a_version, journal_files):
        yield from part()
