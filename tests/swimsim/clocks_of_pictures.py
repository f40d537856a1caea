"""The clock line of pictures, as tests/swimsim/pictures makes them: what the comments of a journal file tell of times,
what isn't as it has to be of the line, and journal files with times."""

import datetime
import itertools
import re

from tests.swimsim.verified_files import HEAD, JUDGED, QUIET, STARTED, TICK, told

SVG = "{http://www.w3.org/2000/svg}"
TIME = re.compile(r"# (0|[1-9]\d*)(\.\d{3})?")
START = re.compile(r"= (\d+) started ")
# How wide the characters of a label are that has to have room, in pixels.
CHARACTER = 6.5
# 2026-11-29, twenty seconds before the next day begins, in UTC.
EVENING = 1_795_996_780


def times_of(lines):
    """When the starts of a journal file were, by their entries: in UTC, and the milliseconds as they stand there. A script
    that isn't a journal file tells none."""
    if lines[:1] != ["journal 1"]:
        return {}
    found = {}
    for line, comment in zip(lines, lines[1:]):
        start, time = START.match(line), TIME.fullmatch(comment)
        if start and time and int(time[1]) < 253_402_207_200:
            utc = datetime.datetime.fromtimestamp(int(time[1]), datetime.timezone.utc)
            found[int(start[1])] = utc, time[2] or ""
    return found


def words_of(tick, utc, milliseconds):
    """What a label says to those who hear it, and what it shows."""
    told = f"a period began at {utc:%Y-%m-%dT%H:%M:%S}{milliseconds}Z, tick {tick}"
    return told, f"{utc:%H:%M:%S}{milliseconds}"


def clock_faults(root, starts, period, first):
    """What isn't as it has to be of the clock line of a picture whose first tick is that, with the starts (tick, UTC,
    milliseconds) that are shown."""
    texts = [it for it in root.iter(f"{SVG}text") if (it.get("class") or "").startswith("tick ")]
    group = root.find(f"{SVG}g[@id='clock']")
    if not starts:
        return [] if group is None and not texts else ["there is a clock line, and no time is told"]
    if group is None:
        return ["there is no clock line"]
    within = list(group.iter(f"{SVG}text"))
    said = [] if [it.text for it in texts if it not in within] == ["UTC"] else ["the line doesn't say that it is UTC"]
    labels = [(it, it.find(f"{SVG}title")) for it in within if it.get("class") == "tick clock"]
    shown = [(int(it.get("x")), title.text, title.tail) for it, title in labels]
    wanted = {words_of(*start): start for start in starts}
    if not set(it[1:] for it in shown) <= set(wanted):
        return [*said, f"labels are {shown}, and the starts are {list(wanted)}"]
    labelled = [wanted[it[1:]] for it in shown]
    said += spaced_unlike([(tick - first) // period for tick, *_ in starts], [(it[0] - first) // period for it in labelled],
                          [it[0] for it in shown], max(10, *(len(it[2]) for it in shown)) * CHARACTER)
    grid = [int(it) for it in re.findall(r"M(\d+) ", root.find(f".//{SVG}path[@class='grid']").get("d"))]
    stand = [grid[(it[0] - first) // period] for it in labelled]
    said += [] if stand == [it[0] for it in shown] else [f"labels stand at {[it[0] for it in shown]}, and not at {stand}"]
    dates = [(int(it.get("x")), it.text) for it in within if it.get("class") == "tick date"]
    days = [f"{utc:%Y-%m-%d}" for _, utc, _ in labelled]
    begun = [(it[0], day) for it, day, before in zip(shown, days, [None, *days]) if day != before]
    return said + ([] if dates == begun else [f"the dates are {dates}, and not {begun}"])


def spaced_unlike(periods, labelled, places, width):
    """What is wrong with which periods are labelled: the first whose time is known, and then each that is so far behind
    the last one, where that is the same distance all along; and none overlaps the next."""
    said = [f"labels overlap at {places}"] if any(b - a < width for a, b in zip(places, places[1:])) else []
    steps = min([b - a for a, b in zip(labelled, labelled[1:])], default=1)
    wanted, next_one = [], 0
    for period in periods:
        if period >= next_one:
            wanted.append(period)
            next_one = period + steps
    # The last one may have no room at the right.
    return said if labelled in (wanted, wanted[:-1]) and labelled else [*said, f"labelled are {labelled} of {periods}"]


def quiet_file(comments):
    """A file of member 1, which knows nobody and has periods of three ticks, each start with one of these comments."""
    yield "journal 1\nopen 1 0 1 3 0 100000\n"
    for period, comment in enumerate(comments):
        start = [(TICK, "started judged - probe -"), QUIET, QUIET]
        for place, (call, answer) in enumerate(start):
            yield f"{call}= {3 * period + place} {answer}\n{'' if place else comment}"


def plain_script(comments):
    """The calls of such a file, as a script that isn't a journal file, with the comments behind the starts."""
    yield "open 1 0 1 3 0 100000\n"
    for comment in comments:
        yield f"tick\n{comment}tick\ntick\n"


def judged_file(*comments):
    """A file in which a member is judged at the end of the first of its periods, and another that answers is probed
    then. Comments stand behind both starts."""
    lines = told(STARTED, (TICK, "asked 2 1 by 3"), QUIET, JUDGED)
    at = [place for place, line in enumerate(lines) if " started " in line]
    for place, comment in reversed(list(zip(at, comments))):
        lines.insert(place + 1, comment)
    return [*HEAD, *lines]


def files_with_times():
    """Journal files, and scripts that aren't, by what they are for."""
    seconds = lambda count, step=1: [f"# {EVENING + step * it}\n" for it in range(count)]
    exact = lambda count: [f"# {EVENING + it // 4}.{it % 4 * 250:03}\n" for it in range(count)]
    yield "one period with a time", quiet_file(seconds(1))
    yield "times of few periods, over a day's end", quiet_file(seconds(9, 4))
    yield "times with milliseconds", quiet_file(exact(12))
    yield "times of many periods", quiet_file(seconds(150))
    yield "times of many periods with milliseconds", quiet_file(exact(450))
    yield "some times alone", quiet_file(it if place % 3 else "" for place, it in enumerate(seconds(40)))
    yield "no time at first", quiet_file(["", "", "", *seconds(3)])
    yield "the last time alone", quiet_file([*[""] * 39, *seconds(1)])
    back = [f"# {EVENING - 86_400 * it}\n" for it in range(6)]
    yield "a clock that is set back", quiet_file(back)
    yield "times of days", quiet_file(seconds(20, 43_200))
    both = itertools.chain.from_iterable(zip(seconds(10), exact(10)))
    yield "times of both forms", quiet_file(both)
    far = ["# 18446744073709551615\n", "# 253402300800\n", "# 18446744073709551615.999\n", "# 9223372036854775807\n"]
    yield "times beyond all years", quiet_file(far)
    yield "times beyond all years, and one", quiet_file([*far, "# 0\n"])
    other = ["# 1.5\n", "\n# 5\n", "# then\n", "#5\n", "# 05\n"]
    yield "comments that are no times", quiet_file(other)
    yield "no journal file", plain_script(seconds(5))
    yield "times round a verdict", judged_file(f"# {EVENING}\n", f"# {EVENING + 3}.007\n")
