"""Journal files that `swimsim --verify` is given, with what it has to tell of them, worked out by hand from
docs/FORMATS.md.

In the histories below member 1 asks one relay (in `two_relays` two, in `one_member` none is there), waits one tick for
an ack, and has periods of three ticks. No order is told, so that members 2 and 3 are probed in turn, and the first of
them that may be asked is the relay.
"""

import os
import re
import resource
import subprocess
import tempfile

from tests.swimsim.cases import SECONDS, difference
from tests.swimsim.verified_json import BadObject, lines_of
from tests.swimsim.verified_files import (
    ack, one, told, ASKED, EVIDENCE, FIRST, HEAD, HEAD_2, JUDGED, ONE, ONE_TELLS, QUIET, ROWS, STARTED, TELLS, TICK,
    TWO, TWO_TELLS, Verified, WHOLE
)
from tests.swimsim.verified_lives import lives, starts


def judgements():
    """Evidence of each kind."""
    yield one("a judgement", WHOLE, 0, TELLS)
    yield one("no call", HEAD, 0, "a: entries 0 confirmed 0 periods 0 judged 0\n")
    heard = told(STARTED, (ack(2, 1), "heard"), QUIET, QUIET, (TICK, "started judged - probe 3 2"))
    yield one("an ack in time", [*HEAD, *heard], 0, "a: entries 5 confirmed 5 periods 2 judged 0\n")
    late = told(STARTED, ASKED, QUIET, JUDGED, (ack(2, 1), "dropped 6"), (ack(2, 1), "dropped 6"))
    tells = "a: entries 6 confirmed 6 periods 2 judged 1\n" + EVIDENCE
    tells += "ack of 2 for period 1 at entry 4: too late\nack of 2 for period 1 at entry 5: too late\n"
    yield one("an ack that came too late, twice", [*HEAD, *late], 0, tells)
    strays = [(ack(2, 9), "dropped 6"), (ack(3, 1), "dropped 6")]
    others = told(
        STARTED, strays[0], ASKED, QUIET, strays[1], JUDGED, (ack(2, 9), "dropped 6"), (ack(3, 1), "dropped 6")
    )
    tells = "a: entries 8 confirmed 8 periods 2 judged 1\n"
    tells += "judged 2 in period 1: probed at entry 0, relays 3 asked at entry 2, no ack of period 1 until entry 5\n"
    tells += "ack of 2 for period 9 at entry 1: another period\n"
    yield one("acks for another period, and of another member", [*HEAD, *others], 0, tells)
    early = [
        (TICK, "started judged 2 probe 3 2"),
        (ack(3, 1), "dropped 6"),
        (TICK, "asked 3 2 by -"),
        QUIET,
        (TICK, "started judged 3 probe -"),
    ]
    tells = "a: entries 8 confirmed 8 periods 3 judged 2\n" + EVIDENCE
    tells += "judged 3 in period 2: probed at entry 3, no relays asked at entry 5, no ack of period 2 until entry 7\n"
    tells += "ack of 3 for period 1 at entry 4: another period\n"
    yield one("a second judgement, without relays", [*HEAD, *told(STARTED, ASKED, QUIET, *early)], 0, tells)
    three = [
        FIRST,
        "open 1 2 1 3 0 1000\n",
        *ROWS,
        "row 4 10.0.0.4:7000\n",
        *told(STARTED, (TICK, "asked 2 1 by 3,4"), QUIET, JUDGED),
    ]
    tells = "a: entries 4 confirmed 4 periods 2 judged 1\n" + EVIDENCE.replace("relays 3 ", "relays 3, 4 ")
    yield one("two relays", three, 0, tells)
    again = ("join 2 10.0.0.2:7000\n", "joined 1")
    joined = [STARTED, ASKED, QUIET, JUDGED, again, (ack(2, 1), "dropped 6")]
    tells = "a: entries 6 confirmed 6 periods 2 judged 1\n" + EVIDENCE + "ack of 2 for period 1 at entry 5: too late\n"
    yield one("too late, and listed again", [*HEAD, *told(*joined)], 0, tells)


def versions():
    """What is told of a judgement is the same in version 2, and so it is of acks."""
    yield one("a judgement in version 2", [*HEAD_2, *WHOLE[4:]], 0, TELLS)
    yield one("no call in version 2", HEAD_2, 0, "a: entries 0 confirmed 0 periods 0 judged 0\n")
    yield one("version 1, told", [*HEAD[:2], "wire 1\n", *WHOLE[2:]], 0, TELLS)
    calls = [STARTED, (ack(2, 8, 2), "dropped 6"), ASKED, QUIET, JUDGED, (ack(2, 1, 2), "dropped 6")]
    tells = "a: entries 6 confirmed 6 periods 2 judged 1\n"
    tells += "judged 2 in period 1: probed at entry 0, relays 3 asked at entry 2, no ack of period 1 until entry 4\n"
    tells += "ack of 2 for period 8 at entry 1: another period\nack of 2 for period 1 at entry 5: too late\n"
    for name, head in (("of version 1", HEAD), ("of version 2", HEAD_2)):
        yield one(f"acks of version 2, heard by a member {name}", [*head, *told(*calls)], 0, tells)
    request = "hear 10.0.0.2:7000 5357020200000002000000020000000900000000000000090a0000091b58\n"
    relayed = told((request, "sent"), (request.replace("5357020", "5357010").replace("0a0000091b58", ""), "dropped 4"))
    yield one("requests of both versions", [*HEAD_2, *relayed], 0, "a: entries 2 confirmed 2 periods 0 judged 0\n")
    twice = [*HEAD_2, "wire 2\n", *WHOLE[4:]]
    stderr = "swimsim: a: line 6: word, before entry 0\n"
    yield one("a version that is told twice", twice, 1, "a: entries 0 confirmed 0 periods 0 judged 0\n", stderr)
    both = [("one", of_version_2(ONE)), ("two", of_version_2(TWO))]
    yield Verified("two lives of version 2", both, 0, ONE_TELLS + TWO_TELLS)
    header = "".join(of_version_2(TWO).splitlines(True)[:3])
    empty = "two: entries 0 confirmed 0 periods 0 judged 0\n"
    yield Verified("a second life of version 2 whose header is cut", [both[0], ("two", header)], 0, ONE_TELLS + empty)


def of_version_2(file):
    """The file with the line that tells version 2 behind its opening."""
    lines = file.splitlines(True)
    return "".join([*lines[:2], "wire 2\n", *lines[2:]])


def times():
    """The time of a probe stands right behind the line of its start, and is a number and nothing else, or a number, a
    point and three digits. It is told as it stands there."""
    at = lambda comment: [*HEAD, *WHOLE[4:6], *comment, *WHOLE[6:]]
    for time in (
        "1764072000", "0", "18446744073709551615",
        *(f"1764072000.{it}" for it in ("000", "007", "040", "123", "999")), "0.000", "18446744073709551615.999"
    ):
        timed = TELLS.replace("entry 0,", f"entry 0 ({time}),")
        yield one(f"the time {time}", at([f"# {time}\n"]), 0, timed)
    for comment in (
        "#1764072000\n", "# 01764072000\n", "# 1764072000 \n", "# about 1764072000\n", "#\n", "# 18446744073709551616\n"
    ):
        yield one(f"no time: {comment!r}", at([comment]), 0, TELLS)
    for time in (
        *(f"1764072000{it}" for it in (".", ".1", ".12", ".1234", ".12x", ".x12", ". 12", ".-12", ",123", ".123 ", ".1.3")),
        "01764072000.123", "18446744073709551616.000", ".123", " .123", "-1.123", "1764072000.123.123", "17640720 00.123"
    ):
        yield one(f"no time: {time!r}", at([f"# {time}\n"]), 0, TELLS)
    yield one("no time: a line between", at(["\n", "# 1764072000\n"]), 0, TELLS)
    yield one("no time: behind another line", [*HEAD, *WHOLE[4:8], "# 1764072000\n", *WHOLE[8:]], 0, TELLS)
    yield one("a time of the start that judged", [*WHOLE, "# 1764072003\n"], 0, TELLS)
    yield one("the daemon's first comment", [FIRST, "# swimd 1.0 2025-11-25T12:00:00.000Z\n", *WHOLE[1:]], 0, TELLS)


def differences():
    """Lines of WHOLE that are missing, or stand twice: the lines are counted from 1, and the calls are lines 5, 7, 9
    and 11."""
    fault = lambda line, text: f"swimsim: a: line {line}: {text}\n"
    unanswered = lambda line, entry: fault(line, f"no answer stands behind the call of entry {entry}")
    foreign = "swimsim: a: it is no journal file: its first line isn't `journal 1`\n"
    tells = (
        lambda entries, confirmed, periods: f"a: entries {entries} confirmed {confirmed} periods {periods} judged 0\n"
    )
    dropped = {
        1: ("", foreign),
        2: (tells(0, 0, 0), fault(2, "word, before entry 0")),
        3: (tells(1, 0, 0), fault(5, "differs, before entry 0")),
        4: (tells(2, 1, 1), fault(7, "differs, behind entry 0")),
        5: (tells(0, 0, 0), fault(5, "word, before entry 0")),
        6: (tells(4, 0, 0), unanswered(5, 0)),
        7: (tells(1, 1, 1), fault(7, "differs, behind entry 0")),
        8: (tells(4, 1, 1), unanswered(7, 1)),
        9: (tells(2, 2, 1), fault(9, "differs, behind entry 1")),
        10: (tells(4, 2, 1), unanswered(9, 2)),
        11: (tells(3, 3, 1), fault(11, "differs, behind entry 2")),
    }
    for line, (stdout, stderr) in dropped.items():
        yield one(f"line {line} is missing", WHOLE[: line - 1] + WHOLE[line:], 1, stdout, stderr)
    twice = {
        1: (tells(0, 0, 0), fault(2, "word, before entry 0")),
        2: (tells(0, 0, 0), fault(3, "word, before entry 0")),
        3: (tells(0, 0, 0), fault(2, "opening 5, before entry 0")),
        4: (tells(0, 0, 0), fault(2, "opening 5, before entry 0")),
        5: (tells(2, 0, 0), unanswered(5, 0)),
        7: (tells(3, 1, 1), unanswered(7, 1)),
        9: (tells(4, 2, 1), unanswered(9, 2)),
        11: (tells(5, 3, 1), unanswered(11, 3)),
    }
    for line, (stdout, stderr) in twice.items():
        yield one(f"line {line} stands twice", WHOLE[:line] + WHOLE[line - 1 :], 1, stdout, stderr)
    for line in (6, 8, 10, 12):
        yield one(f"the answer of line {line} stands twice", WHOLE[:line] + WHOLE[line - 1 :], 0, TELLS)
    wire = [*HEAD, *told(STARTED), "hear 10.0.0.2:7000 53\n", *told(STARTED, ASKED)[2:]]
    yield one("bytes that are no datagram have no answer", wire, 1, tells(2, 2, 1), unanswered(7, 1))
    full = [line.replace(" 1000\n", " 1\n") for line in HEAD] + [*told(STARTED), TICK, TICK]
    yield one("a full journal has no answer", full, 1, tells(1, 1, 1), unanswered(7, 1))
    shown = [*HEAD, "table\n", *WHOLE[4:6], "gap 2\n", "table\n", *WHOLE[6:]]
    yield one("a table and a gap are no calls", shown, 0, TELLS)
    long = "#" * 2_049
    yield one("a line that is too long", [*WHOLE, long, "\n"], 1, TELLS, fault(13, "long, behind entry 3"))
    yield one("a last line that is too long", [*WHOLE, long], 1, TELLS, fault(13, "long, behind entry 3"))
    yield one("another first line", ["journal 2\n", *WHOLE[1:]], 1, "", foreign)
    yield one("another first line, cut", ["journal 2"], 1, "", foreign)
    yield one("a script", WHOLE[1:4] + [TICK], 1, "", foreign)


def expected_of_front(text, time):
    """What a front of WHOLE, with times, tells: calls are `tick` lines, and lines of answers are told rightly. Where the
    probe's judgement stands in it, so does its time."""
    whole = text[: text.rfind("\n") + 1]
    lines = whole.splitlines()
    answers = [line.split() for line in lines if line.startswith("= ")]
    starts = [words for words in answers if words[2] == "started"]
    judged = [words for words in starts if words[4] != "-"]
    calls = lines.count("tick")
    opened = any(line.startswith("open ") for line in lines)
    stdout = f"a: entries {calls} confirmed {len(answers)} periods {len(starts)} judged {len(judged)}\n"
    if judged:
        stdout += EVIDENCE.replace("entry 0,", f"entry 0 ({time}),")
    if text != whole or calls > len(answers) or not opened:
        stdout += f"cut behind entry {len(answers) - 1}\n" if answers else "cut before entry 0\n"
    return stdout


def cuts():
    """Two files, of either version, cut at each byte."""
    for time, later in (("1764072000", "1764072003"), ("1764072000.123", "1764072003.124")):
        text = "".join([*WHOLE[:6], f"# {time}\n", *WHOLE[6:], f"# {later}\n"])
        for file, name in ((text, ""), (of_version_2(text), ", of version 2")):
            for count in range(len(file) + 1):
                front, what = file[:count], f"cut behind {count} bytes, with times as {time}{name}"
                yield one(what, [front], 0, expected_of_front(front, time))


CASES = [judgements, versions, times, differences, lives, starts, cuts]

# Of member 1, which knows nobody and has periods of three ticks: so many of them, each with its time, and what is told.
PERIODS = 20_000
LONG_TELLS = f"a: entries {3 * PERIODS} confirmed {3 * PERIODS} periods {PERIODS} judged 0\n".encode()
# Limits of a program's memory in KiB: with the first it can't be loaded, with the last there is enough.
LIMITS = [*range(1_000, 12_000, 250), 64_000]
WANTS = re.compile(rb"swimsim: a: no memory (?:before entry 0|behind entry (\d+))\n|(?:swimsim|error): out of memory\n")


def verified(program, case):
    """What isn't as expected of files that are verified, as lines and as JSON."""
    with tempfile.TemporaryDirectory() as folder:
        for name, text in case.files:
            with open(f"{folder}/{name}", "w", encoding="ascii") as file:
                file.write(text)
        words = [os.path.abspath(program), "--verify", *(name for name, _ in case.files)]
        run = lambda *more: subprocess.run([*words, *more], cwd=folder, capture_output=True, timeout=SECONDS)
        ran, json = run(), run("--json")
    said = [] if ran.returncode == case.status else [f"status {ran.returncode}, and not {case.status}"]
    said += difference("standard output", case.stdout.encode(), ran.stdout)
    said += difference("standard error", case.stderr.encode(), ran.stderr)
    return said + said_otherwise(ran, json)


def said_otherwise(ran, json):
    """What a run with `--json` doesn't say as the same without it does."""
    said = [] if json.returncode == ran.returncode else [f"as JSON: status {json.returncode}, and not {ran.returncode}"]
    said += difference("standard error as JSON", ran.stderr, json.stderr)
    try:
        return said + difference("standard output as JSON", ran.stdout, lines_of(json.stdout.decode()).encode())
    except (BadObject, ValueError, KeyError, TypeError) as fault:
        return [*said, f"as JSON: {fault!r} in {json.stdout[:400]!r}"]


def verified_with_other_digits(program):
    """Each digit of WHOLE, changed to each other: it is told, or nothing that is told changes."""
    text, said = "".join(WHOLE), []
    for at in (at for at, byte in enumerate(text) if byte.isdigit()):
        for other in "0123456789".replace(text[at], ""):
            said += same_or_told(program, text[:at] + other + text[at + 1 :])
    return said


def verified_with_another_version(program):
    """A life of another version than the one before it doesn't follow it."""
    said = []
    for files in ((ONE, of_version_2(TWO)), (of_version_2(ONE), TWO)):
        with tempfile.TemporaryDirectory() as folder:
            paths = [f"{folder}/{name}" for name in ("one", "two")]
            for path, text in zip(paths, files):
                with open(path, "w", encoding="ascii") as file:
                    file.write(text)
            ran = subprocess.run([program, "--verify", *paths], capture_output=True, timeout=SECONDS)
        wanted = f"swimsim: {paths[1]}: does not follow {paths[0]}: ".encode()
        is_told = ran.stderr.startswith(wanted) and ran.stderr.count(b"\n") == 1
        said += [] if ran.returncode == 1 and is_told else [f"lives of two versions: {ran}"]
    return said


def verified_with_moved_lines(program):
    """Each line of WHOLE, moved to each other place: it is told, or nothing that is told changes."""
    said = []
    for at in range(len(WHOLE)):
        others = WHOLE[:at] + WHOLE[at + 1 :]
        for place in (it for it in range(len(WHOLE)) if it != at):
            said += same_or_told(program, "".join([*others[:place], WHOLE[at], *others[place:]]))
    return said


def same_or_told(program, text):
    ran = subprocess.run([program, "--verify", "-"], input=text.encode(), capture_output=True, timeout=SECONDS)
    is_told = ran.returncode == 1 and ran.stderr.startswith(b"swimsim: -: ")
    is_same = ran.returncode == 0 and ran.stdout == TELLS.replace("a:", "-:", 1).encode() and not ran.stderr
    return [] if is_told or is_same else [f"{text!r}: status {ran.returncode}, {ran.stdout!r} and {ran.stderr!r}"]


def long_file():
    """A good file."""
    yield f"{FIRST}open 1 0 1 3 0 {3 * PERIODS}\n"
    for period in range(PERIODS):
        yield f"tick\n= {3 * period} started judged - probe -\n# {1764072000 + period}\n"
        yield f"tick\n= {3 * period + 1} quiet\ntick\n= {3 * period + 2} quiet\n"


def verified_in_little_memory(program):
    """A good file is verified, or want of memory is told with a status of its own: it is never accused. A limit with
    which the program can't be loaded says nothing."""
    said, met = [], set()
    with tempfile.TemporaryDirectory() as folder:
        with open(f"{folder}/a", "w", encoding="ascii") as file:
            file.writelines(long_file())
        for limit in LIMITS:
            ran = subprocess.run(
                [os.path.abspath(program), "--verify", "a"], cwd=folder, capture_output=True, timeout=SECONDS,
                preexec_fn=lambda limit=limit: resource.setrlimit(resource.RLIMIT_AS, (limit << 10, limit << 10))
            )
            met.add(how_it_ended(ran))
            said += [] if None not in met else [f"{limit} KiB: {ran}"]
            met.discard(None)
    wanted = {"verified", "wanting behind an entry"}
    return said + [f"with none of these limits it is {it}" for it in sorted(wanted - met)]


def how_it_ended(ran):
    """How a program ended that verified the long file; None where it may not end so."""
    wants = WANTS.fullmatch(ran.stderr)
    if (ran.returncode, ran.stdout, ran.stderr) == (0, LONG_TELLS, b""):
        return "verified"
    if ran.returncode == 4 and wants:
        return "wanting behind an entry" if wants[1] else "wanting"
    is_unloaded = ran.returncode < 0 or ran.returncode == 127
    return "not loaded" if is_unloaded and not ran.stdout and b"a:" not in ran.stderr else None


# A file name with a quote, a backslash, a control character and a letter of two bytes, and its text in JSON.
STRANGE, SPELLED = "a\"\\\x1f\xe9", r'"a\"\\\u001f'.encode() + "\xe9\"".encode()


def verified_bytes_as_json(program):
    """The bytes of objects, written down by hand."""
    timed = [*WHOLE[:6], "# 1764072000.007\n", *WHOLE[6:], ack(2, 1), "= 4 dropped 6\n"]
    with tempfile.TemporaryDirectory() as folder:
        with open(f"{folder}/{STRANGE}", "w", encoding="ascii") as file:
            file.writelines(timed)
        words = [os.path.abspath(program), "--json", "--verify", STRANGE]
        ran = subprocess.run(words, cwd=folder, capture_output=True, timeout=SECONDS)
    entry = lambda place: b'{"file":%s,"entry":%d}' % (SPELLED, place)
    wanted = b'{"file":%s,"entries":5,"confirmed":5,"periods":2,"judged":1,' % SPELLED
    wanted += b'"sound":true,"cut":false,"new_start":false}\n'
    wanted += b'{"judged":2,"period":1,"probed":%s,"time":1764072000.007,"relays":[3],' % entry(0)
    wanted += b'"asked":%s,"until":%s}\n' % (entry(1), entry(3))
    wanted += b'{"ack":2,"period":1,"at":%s,"why":"too late"}\n' % entry(4)
    return difference("standard output", wanted, ran.stdout)


def verified_with_other_words(program):
    """`--verify` stands beside files, of which there is one at least, and which can be opened, and `--json` alone."""
    said = []
    for words in (
        ["--verify"],
        ["--verify", "a", "--decode"],
        ["--explain", "--verify", "a"],
        ["--verify", "a", "--", "b"],
        ["--force", "--verify", "a"],
        ["--json", "--verify", "a", "--decode"],
        ["--verify", "a", "--json", "--judged", "2"],
    ):
        ran = subprocess.run([program, *words], capture_output=True, timeout=SECONDS)
        if ran.returncode != 2 or ran.stdout or not ran.stderr.startswith(b"error: "):
            said.append(f"{words}: {ran}")
    ran = subprocess.run([program, "--verify", "/nowhere", "/"], capture_output=True, timeout=SECONDS)
    lines = ran.stderr.splitlines()
    named = len(lines) == 2 and all(
        line.startswith(b"swimsim: " + path + b": ") for line, path in zip(lines, (b"/nowhere", b"/"))
    )
    if ran.returncode != 1 or ran.stdout or not named:
        said.append(f"files that can't be opened: {ran}")
    ran = subprocess.run(
        [program, "--verify", "-"], input="".join(WHOLE).encode(), capture_output=True, timeout=SECONDS
    )
    return said + difference("of standard input", TELLS.replace("a:", "-:", 1).encode(), ran.stdout)


def verified_cases():
    for make in CASES:
        for case in make():
            yield f"verified: {make.__name__}: {case.name}", lambda program, case=case: verified(program, case)
    for attempt in (
        verified_with_other_digits, verified_with_another_version, verified_with_moved_lines, verified_with_other_words,
        verified_in_little_memory, verified_bytes_as_json
    ):
        yield attempt.__name__, attempt
