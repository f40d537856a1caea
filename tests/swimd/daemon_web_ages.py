"""How long ago members failed and were last heard, as the page of `swimd web` has it, by its script alone and in a
browser. The spans were worked out by hand from docs/FORMATS.md."""

import contextlib
import shutil

from tests.support.browsers import Browser, chromium
from tests.support.configurations import HOST
from tests.support.daemons import must
from tests.support.parts import leave_out
from tests.support.web_servers import WebServer
from tests.swimd.daemon_ages import MOST, NUMBER, SECONDS, counts
from tests.swimd.daemon_web_guests import FakeDaemon
from tests.swimd.daemon_web_page import shown

# From here on not each whole number is a double.
LARGE = 2**53 + 1
# The period that runs, the seconds of a period, and what is told of members that failed at the end of others.
WORKED = [
    (
        LARGE,
        b"1.000",
        {
            # The table is read of the daemon a moment later than its counts.
            LARGE + 2: "0 s",
            LARGE: "0 s",
            LARGE - 1: "1 s",
            LARGE - 119: "119 s",
            LARGE - 120: "2 min",
            LARGE - 7_199: "119 min",
            LARGE - 7_200: "2 h",
            LARGE - 172_799: "47 h",
            LARGE - 172_800: "2 days",
            1: "104249991374 days",
        },
    ),
    (1_795_897_374_581, b"2.000", {1_795_897_374_456: "4 min"}),
    (15, b"0.399", {12: "1 s", 13: "0 s"}),
    (MOST, b"60.000", {1: "213503982334 days"}),
]
# What is told of members that are up, by the period in which they were last heard: none has no sample.
HEARD = {
    LARGE + 1: "up heard about 0 s ago",
    LARGE: "up heard about 0 s ago",
    LARGE - 3: "up heard about 3 s ago",
    LARGE - 120: "up heard about 2 min ago",
    1: "up heard about 104249991374 days ago",
    None: "up",
}
UNTOLD = [b".\n", NUMBER + b".\n", SECONDS + b".\n", NUMBER + b'swimd_period_seconds{member="1"} x\n.\n']
NARROW = 400
# Two lines are higher.
LINE_HEIGHT = 30
# The page asks every five seconds; on a machine with much to do what it shows comes later.
NEXT = 15
AGE = "document.querySelector('#members .age').textContent"


def table_of(periods):
    """What a daemon answers to `list` whose members failed at the end of these, with long ids and addresses."""
    rows = [b"%d 255.255.255.255:65535 failed %d\n" % it for it in enumerate(periods, 65_500)]
    return b"".join(rows) + b".\n"


@contextlib.contextmanager
def served(machine):
    """Somebody who answers as a daemon does, and the server of its page."""
    path = f"{machine.folder}/fake.sock"
    daemon = FakeDaemon(path)
    try:
        with WebServer(machine, path) as web:
            yield daemon, web
    finally:
        daemon.close()


def ages_by_the_script(machine):
    """Each unit on both sides of its limits, with numbers that no double holds; none without both samples."""
    if not shutil.which("node"):
        return leave_out("node is not on PATH, so the script of the page of swimd web isn't run")
    with served(machine) as (daemon, web):
        for number, seconds, ages in WORKED:
            daemon.answers.update({b"list\n": table_of(ages), b"stats\n": counts(number, seconds)})
            found = [row[2] for row in shown(web)["members"]]
            wanted = [f"failed in period {it} about {age} ago" for it, age in ages.items()]
            must(found == wanted, f"in period {number} of {seconds} s the page shows {found}")
        daemon.answers[b"list\n"] = table_of([5])
        for stats in UNTOLD:
            daemon.answers[b"stats\n"] = stats
            page = shown(web)
            found = [row[2].rstrip() for row in page["members"]]
            must((found, page["alarm"]) == (["failed in period 5"], ""), f"with the counts {stats} the page is {page}")


def heard_by_the_script(machine):
    """A member that is up is told with when it was last heard, and without if that isn't known."""
    if not shutil.which("node"):
        return leave_out("node is not on PATH, so the script of the page of swimd web isn't run")
    rows = list(enumerate(HEARD, 2))
    heard = b"".join(b'swimd_member_heard_period{member="1",id="%d"} %d\n' % it for it in rows if it[1] is not None)
    with served(machine) as (daemon, web):
        daemon.answers[b"list\n"] = b"".join(b"%d 10.0.0.2:7000 up\n" % id for id, _ in rows) + b".\n"
        for front, wanted in ((counts(LARGE, b"1.000"), [*HEARD.values()]), (NUMBER + b".\n", ["up"] * len(HEARD))):
            daemon.answers[b"stats\n"] = front.removesuffix(b".\n") + heard + b".\n"
            found = [row[2].rstrip() for row in shown(web)["members"]]
            must(found == wanted, f"with the counts {front} the page shows {found}")


def ages_on_a_narrow_screen(machine):
    """In Chromium: an age changes with the daemon's counts, fits beside the longest numbers, and isn't told when these
    counts no longer come."""
    if not chromium():
        return leave_out("chromium is not on PATH, so no browser shows the page of swimd web")
    with served(machine) as (daemon, web), Browser(machine.folder, NARROW) as it:
        daemon.answers.update({b"list\n": table_of([MOST - 120, 1]), b"stats\n": counts(MOST - 1, b"60.000")})
        it.open(f"http://{HOST}:{web.port}/")
        it.wait("document.querySelector('#members .age')?.textContent === 'about 119 min ago'")
        must(it.value("document.documentElement.scrollWidth") <= NARROW, "the page is wider than the screen")
        boxes = "[...document.querySelectorAll('#members .age')].map(it => it.getBoundingClientRect())"
        found = it.value(f"{boxes}.map(it => [it.left, it.right, it.height])")
        fits = all(0 <= left < right <= NARROW and height < LINE_HEIGHT for left, right, height in found)
        must(len(found) == 2 and fits, f"ages are at {found}")
        daemon.answers[b"stats\n"] = counts(MOST, b"60.000")
        it.wait(f"{AGE} === 'about 2 h ago'", NEXT)
        daemon.answers[b"stats\n"] = b".\n"
        it.wait(f"{AGE} === ''", NEXT)
        must(it.value("document.getElementById('alarm').hidden"), "the alarm is shown")
        daemon.answers[b"stats\n"] = counts(MOST, b"60.000")
        it.wait(f"{AGE} === 'about 2 h ago'", NEXT)
        daemon.answers[b"list\n"] = b"fault 2\n"
        it.wait(f"{AGE} === '' && !document.getElementById('alarm').hidden", NEXT)


AGES_SHOWN = [ages_by_the_script, heard_by_the_script, ages_on_a_narrow_screen]
