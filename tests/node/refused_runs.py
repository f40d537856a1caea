"""What programs have to write where one request for memory is refused. Each function gives, for one run after the
other, how it ended and what isn't as it has to be."""

import os
import re
import subprocess

from tests.generators.cut_scripts import answers
from tests.support.daemons import PORTS_TRIED, DaemonFault, Machine, PortTaken, must, until
from tests.support.datagrams import PING, datagram, fields
from tests.support.journals import front, journals, must_play, told
from tests.support.sayings import first_line_of
from tests.generators.growing_scripts import joined
from tests.node.refusing import REFUSED, Ran
from tests.swimd.worked_configs import BELOW, is_as

AS_EVER, NO_MEMORY, NOT_KEPT, NOT_BEGUN = (
    "as ever", "a call without memory", "a line that isn't kept", "nothing was done"
)
NOT_COMPARED, CUT = "an answer that isn't compared", "a journal that is cut"
UNHELD = "a connection without memory for its answers"
PASSED = b"\ntest result: ok\n"
PASSED_REFUSED = b"a call was refused\n" + PASSED
MEMORY = re.compile(rb"line (\d+): memory\n")
DIFFERS = re.compile(rb"line (\d+): differs\n")
EVENTS = ("tick", "hear ", "join ", "remove ", "table", "gap ")
EXPLAINED = (
    rb"line (\d+): memory\n  expected: memory to keep what the line tells\n(no memory to sum the run up\n|entries .*)"
)
EXPLAINED_MEMORY = re.compile(EXPLAINED, re.S)
WORDS = re.compile(rb"^  .*\n", re.M)
NAME = re.compile(rb"^((?:dropped|refused|wire) [0-9]+) [a-z].*$", re.M)
NO_PROGRAM = re.compile(rb"(swimsim|error): out of memory\n")
UNVERIFIED = re.compile(rb"swimsim: -: no memory (behind entry \d+|before entry 0)\n")
UNTRACED = re.compile(rb"swimsim: no memory to trace\n")


def of_a_test(refuser, words):
    """The test passes, whatever was refused: it says itself what has to hold. It writes a line where a call that it
    names was refused, and nothing else."""
    ran = refuser.run(words)
    yield AS_EVER, [] if ran == (PASSED, b"", 0) else [f"without a refusal: {ran}"]
    for number, ran in refuser.refusals(words):
        way = NO_MEMORY if ran.stdout == PASSED_REFUSED else AS_EVER
        yield way, [] if ran in ((PASSED, b"", 0), (PASSED_REFUSED, b"", 0)) else [f"request {number}: {ran}"]


# A script, and what is written where its first tick is refused: the others are those of a script with one tick less.
FIRST_TICK = b"open 1 1 1 3 0 1000\nrow 2 10.0.0.2:7000\nrow 3 10.0.0.3:7000\ntick\ntick\ntick\ntick\ntable\n"
REFUSED_FIRST_TICK = b"""no memory
started judged - probe 2 1
> 10.0.0.2:7000 535701010000000100000001000000020000000000000001
asked 2 1 by 3
> 10.0.0.3:7000 535701020000000100000001000000020000000000000001
quiet
2 10.0.0.2:7000 up
3 10.0.0.3:7000 up
.
"""


def of_a_first_tick(refuser, program):
    """The runs in which the first tick is refused, which changes nothing: the next one is answered in its place."""
    for number, ran in refuser.refusals([program], FIRST_TICK):
        if ran.stdout.startswith(b"no memory\n"):
            is_good = ran == Ran(REFUSED_FIRST_TICK, b"", 0)
            yield NO_MEMORY, [] if is_good else [f"request {number}: {ran}"]


def without(lines, place):
    return [*lines[:place], *lines[place + 1 :]]


def without_words(ran, options):
    """What was written but for the words of `--decode`. Without that option nothing is left out of what is compared."""
    return ran._replace(stdout=WORDS.sub(b"", ran.stdout)) if "--decode" in options else ran


def of_a_script(refuser, program, script, played, *options):
    """Either the run is as ever; or one call is answered `no memory`, and all else as in a run of a script without its
    line; or an `order` or a `place` can't be kept; or the script isn't begun. `played` says what is written where no
    request is refused. The words of `--decode` may be left out."""
    lines = script.lines()
    head, text = len(lines) - len(script.events), joined(lines)
    whole, command = played(text), [program, *options]
    first = without_words(refuser.run(command, text), options)
    yield AS_EVER, [] if first == whole else ["without a refusal it writes something else"]
    for number, ran in refuser.refusals(command, text):
        ran = without_words(ran, options)
        line = MEMORY.fullmatch(ran.stderr)
        if ran == whole:
            yield AS_EVER, []
        elif ran.status == 0 and b"no memory\n" in ran.stdout and not ran.stderr:
            said = loses_one_call(script.events, lines[:head], ran.stdout, played)
            yield NO_MEMORY, [f"request {number}: {it}" for it in said]
        elif ran.status == 1 and not ran.stdout and line and lines[int(line[1]) - 1].startswith(("order ", "place ")):
            yield NOT_KEPT, []
        else:
            is_good = ran.status == 4 and not ran.stdout and NO_PROGRAM.fullmatch(ran.stderr)
            yield NOT_BEGUN, [] if is_good else [f"request {number}: {str(ran)[-1_000:]}"]


def of_an_explained_script(refuser, program, script, played):
    """With the word `--explain` the answers are those without it, as above, but for names, which may be left out; and a
    line that can't be kept has its explanation. In the end it is summed up, or said that there was no memory for
    that."""
    lines = script.lines()
    head, text = len(lines) - len(script.events), joined(lines)
    wanted, words = played(text).stdout, [program, "--explain"]
    whole = refuser.run(words, text)
    yield AS_EVER, [] if NAME.sub(rb"\1", whole.stdout) == wanted else ["without a refusal it answers something else"]
    for number, ran in refuser.refusals(words, text):
        answered, line = NAME.sub(rb"\1", ran.stdout), EXPLAINED_MEMORY.fullmatch(ran.stderr)
        is_summed = ran.stderr in (whole.stderr, b"no memory to sum the run up\n")
        if ran.status == 0 and answered == wanted and is_summed:
            yield AS_EVER, []
        elif ran.status == 0 and b"no memory\n" in answered and b"\nno memory: 1\n" in ran.stderr:
            said = loses_one_call(script.events, lines[:head], answered, played)
            yield NO_MEMORY, [f"request {number}: {it}" for it in said]
        elif ran.status == 1 and not answered and line and lines[int(line[1]) - 1].startswith(("order ", "place ")):
            yield NOT_KEPT, []
        else:
            is_good = ran.status == 4 and not answered and NO_PROGRAM.fullmatch(ran.stderr)
            yield NOT_BEGUN, [] if is_good else [f"request {number}: {str(ran)[-1_000:]}"]


def of_a_journal_file(refuser, program, file, wanted):
    """Either the run is as ever; or an answer that is told can't be compared; or one call is answered `no memory`, and
    the line right behind it that tells its answer differs; or an `order` or a `place` can't be kept, or the file isn't
    begun."""
    lines = file.decode().split("\n")
    yield AS_EVER, [] if refuser.run([program], file) == wanted else ["without a refusal it writes something else"]
    for number, ran in refuser.refusals([program], file):
        line, is_front = MEMORY.fullmatch(ran.stderr), wanted.stdout.startswith(ran.stdout)
        if ran == wanted:
            yield AS_EVER, []
        elif ran.status == 1 and is_front and line and lines[int(line[1]) - 1].startswith("= "):
            yield NOT_COMPARED, []
        elif b"no memory\n" in ran.stdout:
            said = is_met(lines, ran, wanted)
            yield NO_MEMORY, [] if said else [f"request {number}: a call without memory isn't met: {str(ran)[-1_000:]}"]
        elif ran.status == 1 and not ran.stdout and line and lines[int(line[1]) - 1].startswith(("order ", "place ")):
            yield NOT_KEPT, []
        else:
            is_good = ran.status == 4 and not ran.stdout and NO_PROGRAM.fullmatch(ran.stderr)
            yield NOT_BEGUN, [] if is_good else [f"request {number}: {str(ran)[-1_000:]}"]


def of_a_verified_file(refuser, program, file):
    """Either it is verified as ever; or want of memory is told, with a status of its own, and nothing speaks against
    the file; or its own fault is told as ever, below a report of less."""
    words = [program, "--verify", "-"]
    whole = refuser.run(words, file)
    yield AS_EVER, [] if whole.status in (0, 1) else [f"without a refusal: {whole}"]
    for number, ran in refuser.refusals(words, file):
        if ran == whole or (ran.stderr, ran.status) == (whole.stderr, whole.status) == (ran.stderr, 1):
            yield AS_EVER, []
        elif ran.status == 4 and UNVERIFIED.fullmatch(ran.stderr):
            yield NO_MEMORY, []
        else:
            is_good = ran.status == 4 and not ran.stdout and NO_PROGRAM.fullmatch(ran.stderr)
            yield NOT_BEGUN, [] if is_good else [f"request {number}: {str(ran)[-1_000:]}"]


def of_a_traced_file(refuser, program, file):
    """Either it is traced as ever; or want of memory is told, of the file or of all, with a status of its own."""
    for words in ([program, "--trace", "-"], [program, "--json", "--trace", "-"]):
        whole = refuser.run(words, file)
        yield AS_EVER, [] if whole.status == 0 and whole.stdout else [f"without a refusal: {whole}"]
        for number, ran in refuser.refusals(words, file):
            if ran == whole:
                yield AS_EVER, []
            elif ran.status == 4 and (UNVERIFIED.fullmatch(ran.stderr) or UNTRACED.fullmatch(ran.stderr)):
                yield NO_MEMORY, []
            else:
                is_good = ran.status == 4 and not ran.stdout and NO_PROGRAM.fullmatch(ran.stderr)
                yield NOT_BEGUN, [] if is_good else [f"request {number}: {str(ran)[-1_000:]}"]


def is_met(lines, ran, wanted):
    """Whether the line right behind a call without memory differs, where it tells an answer, and the answers before are
    as ever."""
    differs = DIFFERS.fullmatch(ran.stderr)
    end = int(differs[1]) - 1 if differs else len(lines)
    places = [at for at, line in enumerate(lines[:end]) if line.startswith(EVENTS)]
    found = answers([lines[at] for at in places], ran.stdout)
    lost = found.index(["no memory"])
    front = "".join(f"{line}\n" for answer in found[:lost] for line in answer).encode()
    behind = next(
        (at for at, line in enumerate(lines) if at > places[lost] and not line.startswith("#") and line), len(lines)
    )
    is_told = behind < len(lines) and lines[behind].startswith("= ")
    return wanted.stdout.startswith(front) and ran.status == bool(differs) and (not is_told or end == behind)


def loses_one_call(events, head, stdout, played):
    """What isn't as in a run without the call that is answered `no memory`."""
    found = answers(events, stdout)
    place = found.index(["no memory"])
    less = without(events, place)
    wanted = answers(less, played(joined([*head, *less])).stdout)
    return [] if without(found, place) == wanted else [
        f"after `no memory` to event {place} it goes on otherwise: {stdout!r}"
    ]


def of_a_configuration(refuser, program, document, wanted):
    """Either `swimd check` answers as ever, but that it says less below a fault, or `no memory`."""
    whole = refuser.run([program, "check"], document)
    is_whole = (whole.stdout, whole.status) == (wanted.stdout, wanted.status) and is_as(whole.stderr, wanted.stderr)
    yield AS_EVER, [] if is_whole else [f"without a refusal it writes {whole}"]
    for number, ran in refuser.refusals([program, "check"], document):
        is_refused = ran == (b"", b"no memory\n", 4)
        is_less = (ran.stdout, ran.status) == (whole.stdout, whole.status) and says_less(ran.stderr, whole.stderr)
        yield NO_MEMORY if is_refused else AS_EVER, [] if is_refused or is_less else [f"request {number}: {ran}"]


def says_less(text, whole):
    """Whether a text has the first line of another, and below it lines that begin with two spaces, as many at most. Of
    a text that has none it is the same."""
    first, *below = whole.splitlines(True) or [b""]
    if not all(it.startswith(b"  ") for it in below):
        return text == whole
    return is_as(text, first + BELOW) and len(text.splitlines()) <= len(whole.splitlines())


def answered(daemon, text):
    """What a daemon answers to control lines. Nothing where it had no memory for the connection, and has closed it."""
    try:
        return daemon.ask(text)
    except ConnectionError:
        return b""


def asked(daemon, peer):
    """What a daemon answers to a ping, and then to control lines, and what it answered to them on a connection before
    that it closed. None as the first where no ack comes."""
    peer.settimeout(1)
    peer.sendto(datagram(PING, 9, 9, 1, 1), daemon.address)
    try:
        ack = fields(peer.recv(100))
    except OSError:
        ack = None
    text = b"join 3 10.0.0.3:7000\nlist\nremove 3\nlist\nstop\n"
    front, answer = b"", answered(daemon, text)
    if not answer.endswith(b"stopping\n"):
        front, answer = answer, answered(daemon, text)
    return ack, answer.decode().splitlines(), front


def lines_wanted(join, remove):
    """Where one of the two calls has no memory, it changes nothing."""
    two, three = "2 10.0.0.2:7000 up", "3 10.0.0.3:7000 up"
    removed = "refused 4" if join == "no memory" else remove
    after = [two, *([three] if remove == "no memory" else [])]
    return [join, two, *([three] if join != "no memory" else []), ".", removed, *after, ".", "stopping"]


def how_it_runs(refuser, programs, number):
    """How a daemon ends whose request of that number is refused, and what isn't as it has to be. None where it asked
    for less. Where there is a simulator, too, the daemon writes a journal file."""
    with Machine(*programs) as machine:
        daemon = machine.daemon(1, members=[(2, "10.0.0.2:7000")], tick_ms=60_000)
        daemon.launch(env={**os.environ, "LD_PRELOAD": refuser.library, "REFUSE": str(number)})
        until(lambda: daemon.child.poll() is not None or daemon.answers(), "it runs or ends")
        found = asked(daemon, machine.socket()) if daemon.child.poll() is None else None
        stdout, stderr = daemon.child.communicate(timeout=20)
        ran = Ran(stdout, first_line_of(stderr.replace(REFUSED, b"", 1)), daemon.child.returncode)
        if ran.stderr == b"bind listen\n":
            raise PortTaken(f"port {daemon.port} is taken")
        if not found:
            must(REFUSED in stderr, f"it ended without a refusal: {ran}")
            return NOT_BEGUN, [] if must_not_begin(ran) else [f"request {number}: {ran}"]
        ending = goes_on(ran, *found, number, machine)
    return ending if REFUSED in stderr or ending != (AS_EVER, []) else None


def must_not_begin(ran):
    lines = (b"", b"ended no memory entries 0 judged 0 unsent 0 wire 0 refused 0\n")
    return ran.status == 4 and ran.stderr in (b"no memory\n", b"no place\n") and ran.stdout in lines


def goes_on_behind(ran, ack, lines, front, number, machine):
    """A connection had no memory for its answers: it was closed behind a front of them. The next one is served. What
    the first one asked before was done, and so was the call whose answer is lost."""
    two, three = "2 10.0.0.2:7000 up", "3 10.0.0.3:7000 up"
    behind = "\n".join(["", two, three, ".", "removed", two, ".", "stopping", ""]).encode()
    is_front = any((b"joined %d%b" % (place, behind)).startswith(front) for place in (0, 1))
    told = front.count(b"joined") + front.count(b"removed")
    for made in {told, min(told + 1, 2)}:
        first = r"refused 2" if made == 1 else r"joined [01]"
        is_as_ever = re.fullmatch(first, lines[0]) and lines[1:] == [two, three, ".", "removed", two, ".", "stopping"]
        closing = f"ended stopped entries {3 + made} judged 0 unsent 0 wire 0 refused 0\n".encode()
        is_told = is_front and is_as_ever and ack is not None and ran == (closing, b"", 0)
        if is_told and (not machine.simulator or is_written(machine, 3 + made, False)):
            return UNHELD, []
    return UNHELD, [f"request {number}: {ack}, {front!r}, {lines}, {ran}"]


def goes_on(ran, ack, lines, front, number, machine):
    if front or lines[:1] == ["refused 2"]:
        return goes_on_behind(ran, ack, lines, front, number, machine)
    join = "no memory" if lines[0] == "no memory" else "joined N"
    remove = "no memory" if "no memory" in lines[1:] else "removed"
    lost = [ack is None, join == "no memory", remove == "no memory"].count(True)
    wanted = lines_wanted(join, remove)
    good = [re.sub(r"^joined [01]$", "joined N", it) for it in lines] == wanted and lost <= 1
    closing = f"ended stopped entries {3 - lost} judged 0 unsent 0 wire 0 refused {lost}".encode()
    is_cut = machine.simulator and ran.stdout.endswith(b" journal cut\n")
    good = good and ran == (closing + (b" journal cut\n" if is_cut else b"\n"), b"", 0)
    good = good and (not machine.simulator or is_written(machine, 3 - lost, is_cut))
    way = NO_MEMORY if lost else CUT if is_cut else AS_EVER
    return way, [] if good else [f"request {number}: {ack}, {lines}, {ran}"]


def is_written(machine, entries, is_cut):
    """Whether the journal's file holds as many entries as the life had, or where that is cut, not more. What it holds
    is played; a file that is cut before its first answer holds nothing to play."""
    texts = [it.text for it in journals(f"{machine.journals}/0")]
    for it in filter(None, map(front, texts)):
        must_play(machine.simulator, it, "what is there of it")
    counts = [len(told(it)) for it in texts]
    return counts == [entries] or (is_cut and sum(counts) <= entries and len(counts) <= 1)


def of_a_daemon(refuser, pool, *programs):
    """Either a daemon doesn't begin, and says `no memory`; or one call has no memory, is counted, and changes nothing;
    or its file is told as cut, and holds a front of its journal; or it runs as ever."""

    def tried(number, ports=PORTS_TRIED):
        try:
            return how_it_runs(refuser, programs, number)
        except PortTaken as fault:
            return tried(number, ports - 1) if ports > 1 else (NOT_BEGUN, [f"request {number}: {fault}"])
        except (DaemonFault, OSError, subprocess.SubprocessError, LookupError) as fault:
            return NOT_BEGUN, [f"request {number}: {type(fault).__name__}: {fault}"]

    number, is_over = 1, False
    while not is_over:
        for ended in pool.map(tried, range(number, number + 16)):
            is_over = is_over or not ended
            if ended:
                yield ended
        number += 16
        must(number < 10_000, "each of 10,000 daemons met a refusal")
