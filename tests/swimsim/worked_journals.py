"""Journal files with what swimsim has to write for them, worked out by hand from docs/FORMATS.md, as in
worked_scripts.py."""

FIRST = "journal 1\n"
ROWS = "row 2 10.0.0.2:7000\nrow 3 10.0.0.3:7000\n"
OPEN = "open 1 1 1 3 0 1000\n" + ROWS
SEED = "seed " + "0" * 64
ACK = "hear 10.0.0.2:7000 535701030000000200000001000000020000000000000001\n"

# Nobody answers the first two periods of OPEN: each tick, its answer, and what is told of its entry.
STARTED = """\
started judged - probe 2 1
> 10.0.0.2:7000 535701010000000100000001000000020000000000000001
"""
ASKED = """\
asked 2 1 by 3
> 10.0.0.3:7000 535701020000000100000001000000020000000000000001
"""
JUDGED = """\
started judged 2 probe 3 2
> 10.0.0.3:7000 535701010000000100000001000000030000000000000002
"""
TOLD = ["= 0 started judged - probe 2 1\n", "= 1 asked 2 1 by 3\n", "= 2 quiet\n", "= 3 started judged 2 probe 3 2\n"]


def good(name, script, stdout):
    return name, script.encode(), stdout.encode(), b"", 0


def bad(name, script, fault, stdout=""):
    return name, script.encode(), stdout.encode(), fault.encode() + b"\n", 1


def answers_as_they_were():
    whole = FIRST + OPEN + "".join("tick\n" + told for told in TOLD)
    yield good("each answer is told", whole, STARTED + ASKED + "quiet\n" + JUDGED)
    yield good("the same without a line feed", whole[:-1], STARTED + ASKED + "quiet\n" + JUDGED)
    yield good("some answers are told", FIRST + OPEN + "tick\ntick\n" + TOLD[1] + "tick\n", STARTED + ASKED + "quiet\n")
    yield good("an answer is told twice", FIRST + OPEN + "tick\n" + TOLD[0] + "\n# again\n" + TOLD[0], STARTED)
    shows = FIRST + OPEN + "tick\ngap 2\n" + TOLD[0] + "hear 10.0.0.2:7000 53\n" + TOLD[0] + "table\n" + TOLD[0]
    yield good(
        "behind lines that make no entry",
        shows,
        STARTED + "gap none\nwire 1\n2 10.0.0.2:7000 up\n3 10.0.0.3:7000 up\n.\n",
    )
    full = FIRST + OPEN.replace("1000", "1") + "tick\ntick\n" + TOLD[0]
    yield good("behind a call that meets the full journal", full, STARTED + "journal full\n")
    yield good("comments behind the first line", FIRST + "\n# a comment\n" + OPEN + "tick\n" + TOLD[0], STARTED)


def each_kind_of_answer():
    """Calls of a detector with one member: what they are answered, and the message that one sends."""
    ping = "hear 10.0.0.2:7000 535701010000000200000002000000010000000000000009\n"
    pong = "> 10.0.0.2:7000 535701030000000100000002000000010000000000000009\n"
    calls = [
        ("tick\n", "started judged - probe 2 1", "> 10.0.0.2:7000 535701010000000100000001000000020000000000000001\n"),
        ("tick\n", "asked 2 1 by -", ""),
        (ACK, "heard", ""),
        (ACK.replace("1\n", "2\n"), "dropped 6", ""),
        (ping, "sent", pong),
        ("tick\n", "quiet", ""),
        ("join 2 10.0.0.2:7000\n", "refused 2", ""),
        ("remove 2\n", "removed", ""),
        ("tick\n", "started judged - probe -", ""),
        ("join 3 10.0.0.3:7000\n", "joined 0", ""),
        ("remove 2\n", "refused 4", ""),
    ]
    head = FIRST + "open 1 1 1 3 0 1000\nrow 2 10.0.0.2:7000\n"
    told = [f"{call}= {place} {answer}\n" for place, (call, answer, _) in enumerate(calls)]
    stdout = "".join(f"{answer}\n{sends}" for _, answer, sends in calls)
    yield good("an answer of each kind", head + "".join(told), stdout)


def answers_that_differ():
    two = FIRST + OPEN + "tick\n" + TOLD[0] + "tick\n"
    texts = {
        "the entry before": "= 0 asked 2 1 by 3",
        "the entry to come": "= 2 asked 2 1 by 3",
        "the reply before": "= 1 started judged - probe 2 1",
        "the entry before, as it was answered": TOLD[0][:-1],
        "another relay": "= 1 asked 2 1 by 2",
        "a relay more": "= 1 asked 2 1 by 3,2",
        "a text that is cut": "= 1 asked 2 1 by ",
        "a text that goes on": "= 1 asked 2 1 by 3 ",
        "a capital": "= 1 Asked 2 1 by 3",
        "a zero in front": "= 01 asked 2 1 by 3",
        "two spaces": "= 1  asked 2 1 by 3",
        "two spaces in front": "=  1 asked 2 1 by 3",
        "a carriage return": "= 1 asked 2 1 by 3\r",
        "no place": "= asked 2 1 by 3",
        "no reply": "= 1",
        "no text": "= ",
    }
    for name, text in texts.items():
        yield bad(f"differs: {name}", two + text + "\ntick\n", "line 8: differs", STARTED + ASKED)
    yield bad("differs: a last line that is cut", two + "= 1 asked 2 1", "line 8: differs", STARTED + ASKED)
    later = FIRST + OPEN + "tick\n# a comment\n" + TOLD[0] + "tick\n\ntable\n" + TOLD[0]
    table = "2 10.0.0.2:7000 up\n3 10.0.0.3:7000 up\n.\n"
    yield bad(
        "differs: an earlier entry, behind lines that are skipped", later, "line 11: differs", STARTED + ASKED + table
    )
    yield bad("differs: there is no entry", FIRST + OPEN + "gap 2\n= 0 quiet\n", "line 6: differs", "gap none\n")
    yield bad(
        "differs: there is no entry, and it says so", FIRST + OPEN + "gap 2\n= none\n", "line 6: differs", "gap none\n"
    )
    full = FIRST + OPEN.replace("1000", "1") + "tick\ntick\n"
    yield bad("differs: a call met the full journal", full + TOLD[1], "line 7: differs", STARTED + "journal full\n")
    wire = FIRST + OPEN + "hear 10.0.0.2:7000 53\n= 0 wire 1\n"
    yield bad("differs: bytes that are no datagram make no entry", wire, "line 6: differs", "wire 1\n")


def lines_that_tell_no_answer():
    started = FIRST + OPEN + "tick\n"
    for text in ("=", "=0 started judged - probe 2 1", " = 0 quiet", "==", "=\t0 quiet"):
        yield bad(f"word: {text!r}", started + text + "\n", "line 6: word", STARTED)
    yield bad("word: an answer in the header", FIRST + OPEN + TOLD[0], "line 5: word")
    yield bad("word: an answer before the opening", FIRST + TOLD[0] + OPEN, "line 2: word")
    yield bad("word: an answer behind a seed", FIRST + OPEN + SEED + "\n" + TOLD[0], "line 6: word")
    long = started + TOLD[0][:-1].ljust(2049) + "\n"
    yield bad("long: an answer", long, "line 6: long", STARTED)
    yield bad("differs: as long as a line may be", started + TOLD[0][:-1].ljust(2048), "line 6: differs", STARTED)
    yield bad("the opening before an answer", FIRST + "open 1 9 1 3 0 9\ntick\n" + TOLD[0], "line 2: opening 1")


def other_first_lines():
    """What any script is that doesn't begin so: an answer and a life are faults."""
    told = OPEN + "tick\n" + TOLD[0]
    yield bad("a script tells no answer", told, "line 5: word", STARTED)
    yield bad("a script tells no life", OPEN + SEED + " 0\ntick\n", "line 4: extra")
    for first in (
        "journal 2",
        "journal 01",
        "journal",
        "journal 1 ",
        "journal  1",
        " journal 1",
        "Journal 1",
        "journal 1\r",
        "journal 1 x",
    ):
        yield bad(f"the first line {first!r}", f"{first}\n" + told, "line 1: word")
    yield bad("journal behind an empty line", "\n" + FIRST + told, "line 2: word")
    yield bad("journal behind a comment", "# a comment\n" + FIRST + told, "line 2: word")
    yield bad("journal twice", FIRST + FIRST + told, "line 2: word")
    yield bad("journal behind the opening", OPEN + FIRST, "line 4: word")
    yield bad("journal behind the opening of a journal file", FIRST + OPEN + FIRST, "line 5: word")
    yield bad("journal behind an event line", FIRST + OPEN + "tick\n" + FIRST, "line 6: word", STARTED)
    yield good("journal in a comment", "#" + FIRST + OPEN + "tick\n", STARTED)
    yield bad("nothing behind journal", FIRST, "line 0: word")
    yield bad("nothing behind journal, not a line feed", FIRST[:-1], "line 0: word")
    yield bad("comments behind journal", FIRST + "# a comment\n\n", "line 0: word")
    yield bad("an event line behind journal", FIRST + "tick\n", "line 2: word")


def lives():
    """The seed of a journal file. With one member nothing is drawn that could be another."""
    head = FIRST + "open 1 1 1 3 0 1000\nrow 2 10.0.0.2:7000\n"
    for life in ("", " 0", " 1", " 18446744073709551615"):
        yield good(f"a seed with the life {life!r}", head + SEED + life + "\ntick\n" + TOLD[0], STARTED)
    for life in (" ", " 01", " -1", " +1", " x", " 18446744073709551616", "  1", " 0x1"):
        yield bad(f"a seed with the life {life!r}", head + SEED + life + "\n", "line 4: number")
    yield bad("a life, and a word more", head + SEED + " 1 2\n", "line 4: extra")
    yield bad("a life, and an empty word", head + SEED + " 1 \n", "line 4: extra")
    yield bad("a bad seed before its life", head + "seed 00 x\n", "line 4: hex")
    yield bad("a bad life before a word more", head + SEED + " x y\n", "line 4: number")
    yield bad("a second seed of another life", head + SEED + " 1\n" + SEED + " 2\n", "line 5: seed")
    yield bad("an order behind a seed with its life", head + SEED + " 1\norder 2\n", "line 5: seed")
    yield bad("a seed with its life behind a place", head + "place 0\n" + SEED + " x\n", "line 5: seed")


def members_that_failed():
    """Member 3 failed in period 4 of an earlier life, of which 9 periods were used. It is known, and neither probed nor
    asked."""
    head = FIRST + "open 1 1 1 3 9 1000\nrow 3 10.0.0.3:7000 failed 4\nrow 2 10.0.0.2:7000\n"
    ping = "> 10.0.0.2:7000 53570101000000010000000100000002000000000000000a\n"
    shown = "2 10.0.0.2:7000 up\n3 10.0.0.3:7000 failed 4\n.\n"
    calls = [
        ("table\n", shown),
        ("tick\n= 0 started judged - probe 2 10\n", "started judged - probe 2 10\n" + ping),
        ("tick\n= 1 asked 2 10 by -\n", "asked 2 10 by -\n"),
        ("hear 10.0.0.2:7000 535701020000000200000002000000030000000000000005\n= 2 dropped 4\n", "dropped 4\n"),
        ("gap 3\n", "gap none\n"),
        ("join 3 10.0.0.3:7001\n= 3 joined 1\n", "joined 1\n"),
        ("join 3 10.0.0.3:7001\n= 4 refused 2\n", "refused 2\n"),
        ("table\n", shown.replace("7000 failed 4", "7001 up")),
    ]
    yield good(
        "a member that failed before", head + "".join(call for call, _ in calls), "".join(answer for _, answer in calls)
    )
    gone = head + "remove 3\n= 0 removed\nremove 3\n= 1 refused 4\ntable\n"
    yield good("a member that failed before is removed", gone, "removed\nrefused 4\n2 10.0.0.2:7000 up\n.\n")
    alone = FIRST + "open 1 1 1 3 9 1000\nrow 3 10.0.0.3:7000 failed 9\ntick\n= 0 started judged - probe -\n"
    yield good("nobody but a member that failed before", alone, "started judged - probe -\n")
    rows = "".join(f"row {id} 10.0.0.2:7000 failed 1\n" for id in range(2, 130))
    joins = "join 130 10.0.0.2:7000\n= 0 refused 3\njoin 129 10.0.0.2:7000\n= 1 joined 0\n"
    full = FIRST + "open 1 1 1 3 9 1000\n" + rows + joins
    yield good("as many as may be known, all of which failed before", full, "refused 3\njoined 0\n")
    last = "18446744073709551615"
    spent = FIRST + f"open 1 1 1 3 {last} 9\nrow 2 10.0.0.2:7000 failed {last}\ntable\ntick\n= 0 refused 5\n"
    yield good(
        "a member that failed in the last period of all", spent, f"2 10.0.0.2:7000 failed {last}\n.\nrefused 5\n"
    )


def words_of_a_member_that_failed():
    head = FIRST + "open 1 1 1 3 9 1000\n"
    others = [
        " ", " x", " up", " Failed 4", " failed4", " faile", " failedd 4", " 4", "  failed 4", " failed\r", " failed\t4"
    ]
    for end in others:
        yield bad(f"a row with {end!r} behind it", head + f"row 3 10.0.0.3:7000{end}\n", "line 3: extra")
    for end in (
        "", " ", " x", " 04", " -4", " +4", " 4\r", "  4", " 18446744073709551616", " 0x4", " four", " 4,5", " x 5"
    ):
        yield bad(f"a row that failed{end!r}", head + f"row 3 10.0.0.3:7000 failed{end}\n", "line 3: number")
    for end in (" 4 ", " 4 5", " 4 failed 4", " 0 x"):
        yield bad(
            f"a row that failed{end!r}, with words left over",
            head + f"row 3 10.0.0.3:7000 failed{end}\n",
            "line 3: extra",
        )
    yield bad("a bad ID before what is behind the address", head + "row 0 10.0.0.3:7000 failed x\n", "line 3: number")
    yield bad("a bad address before what is behind it", head + "row 3 10.0.0.3 failed x\n", "line 3: peer")
    yield bad("a script tells nobody that failed", OPEN + "row 4 10.0.0.4:7000 failed 4\n", "line 4: extra")
    yield bad("a join tells nobody that failed", head + "join 3 10.0.0.3:7000 failed 4\n", "line 3: extra")
    behind = FIRST + OPEN + "tick\nrow 4 10.0.0.4:7000 failed x\n"
    yield bad("a row that failed, behind an event line", behind, "line 6: word", STARTED)


def periods_that_were_not_used():
    """A member failed in a period from 1 to LAST, and any other number is told where no other fault of the opening
    is."""
    head, row = FIRST + "# the opening is in line 3\nopen 1 1 1 3 9 1000\n", "row 3 10.0.0.3:7000 failed"
    for number in (1, 2, 8, 9):
        yield good(f"a member failed in period {number} of 9", head + f"{row} {number}\ngap 3\n", "gap none\n")
    for number in (0, 10, 11, 2**32, 2**64 - 1):
        yield bad(f"a member failed in period {number} of 9", head + f"{row} {number}\ngap 3\n", "line 3: opening 6")
        yield bad(
            f"a member failed in period {number} of 9, at the end", head + f"{row} {number}\n", "line 3: opening 6"
        )
    for number in (0, 1):
        none = FIRST + f"open 1 1 1 3 0 9\n{row} {number}\n"
        yield bad(f"a member failed in period {number}, and none was used", none, "line 2: opening 6")
    yield bad(
        "the second of two failed in no period", head + f"{row} 4\n{row.replace('3', '4')} 0\n", "line 3: opening 6"
    )
    yield bad(
        "the first of two failed in no period", head + f"{row} 0\n{row.replace('3', '4')} 4\n", "line 3: opening 6"
    )
    yield bad("too many relays first", head.replace("1 1 1 3 9", "1 9 1 3 9") + f"{row} 0\n", "line 3: opening 1")
    yield bad("the timing first", head.replace("1 1 1 3 9", "1 1 1 2 9") + f"{row} 0\n", "line 3: opening 2")
    many = "".join(f"row {id} 10.0.0.2:7000 failed 0\n" for id in range(2, 131))
    yield bad("too many rows first", head + many, "line 3: opening 3")
    yield bad("this member first", head + f"{row} 0\nrow 1 10.0.0.1:7000 failed 0\n", "line 3: opening 4")
    yield bad("a row that stands twice first", head + f"{row} 0\n{row} 4\n", "line 3: opening 5")
    yield bad("a row that stands twice, up and failed", head + f"{row} 4\nrow 3 10.0.0.3:7000\n", "line 3: opening 5")
    yield bad("the event line's own fault first", head + f"{row} 0\ntick x\n", "line 5: extra")
    yield bad("a number that is none first", head + f"{row} 0\n{row} x\n", "line 5: number")
    yield bad("no answer before it", head + f"{row} 0\n= 0 quiet\n", "line 5: word")


def worked_journals():
    for part in (answers_as_they_were, each_kind_of_answer, answers_that_differ, lines_that_tell_no_answer):
        yield from part()
    for part in (
        other_first_lines, lives, members_that_failed, words_of_a_member_that_failed, periods_that_were_not_used
    ):
        yield from part()
