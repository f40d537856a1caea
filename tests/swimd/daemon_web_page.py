"""What the script of the page of `swimd web` shows, by node, and what it asks for, and when."""

import json
import re
import shutil
import subprocess
import time

from tests.support.configurations import HOST
from tests.support.daemons import must, until
from tests.support.parts import TOP, leave_out
from tests.support.web_servers import WebServer
from tests.swimd.daemon_watchers import watched

AGE = re.compile(r" about (\d+) s ago$")
# Milliseconds after which a stream that the browser has given up is opened anew, one time after the other.
DELAYS = [2_000, 4_000, 8_000, 16_000, 32_000, 60_000, 60_000]
# What the page does over streams that are told a life each, by tests/support/page_course.js.
COURSE = {
    # It asks for one thing at a time, and once more for all that was to be asked meanwhile.
    "whileAsking": {"now": 1, "most": 1, "members": 0},
    "onceAnswered": {"now": 0, "most": 1, "members": 2},
    "first": ["life 2 began", "life 1 began"],
    # A stream that the browser opens again goes on.
    "whileReopening": [],
    "reopened": ["life 2 began", "life 1 began"],
    "delays": DELAYS,
    "opened": 1 + len(DELAYS),
    # A new one tells all changes once more.
    "anew": ["life 2 began"],
    "afterThat": DELAYS[0],
    "held": {"label": "Continue", "at": True, "lives": ["life 3 began"], "stream": 2, "timers": 0, "asked": 0},
    "goesOn": {"label": "Pause", "stream": 0, "asked": 1},
}


def by_node(name, web):
    """What a file of tests/support says of the page."""
    words = ["node", f"{TOP}/tests/support/{name}", f"http://{HOST}:{web.port}/"]
    ran = subprocess.run(words, capture_output=True, timeout=60)
    must(ran.returncode == 0 and not ran.stderr, f"node says {ran.stderr.decode()[-2_000:]}")
    return json.loads(ran.stdout)


def shown(web):
    """What the page's script shows, by node."""
    return by_node("page_screen.js", web)


def what_the_page_shows(machine):
    """The members, the failed one first, the changes, the newest first, and counts; without a daemon the alarm."""
    if not shutil.which("node"):
        return leave_out("node is not on PATH, so the script of the page of swimd web isn't run")
    began = time.monotonic()
    daemon, path = watched(machine, members=[(2, "127.0.0.1:9"), (30, "127.0.0.1:9")], k=0, rtt=1, period=3, tick_ms=20)
    with WebServer(machine, daemon.control, "--events", path) as web:
        until(lambda: set(daemon.states().values()) == {"failed"}, "two verdicts")
        must(daemon.ask(b"join 4 127.0.0.1:7\nremove 2\n").endswith(b"removed\n"), "a removal is refused")
        until(lambda: daemon.states() == {4: "failed", 30: "failed"}, "a third verdict")
        until(lambda: b"swimd_period_number" in daemon.ask(b"stats\n"), "the daemon has counts")
        page, numbers = shown(web), {id: row.state.split(" ")[1] for id, row in daemon.table().items()}
        rows = [[str(id), f"127.0.0.1:{7 if id == 4 else 9}", f"failed in period {it}"] for id, it in numbers.items()]
        shown_rows = [[*row[:2], AGE.sub("", row[2])] for row in page["members"]]
        must(sorted(shown_rows) == sorted(rows), f"the members are shown as {page['members']}")
        ages = [int(found[1]) for row in page["members"] if (found := AGE.search(row[2]))]
        must(len(ages) == 2 and max(ages) <= time.monotonic() - began, f"the ages of verdicts are shown as {ages}")
        must(page["sum"] == "2 failed, 0 up", f"their sum is shown as {page['sum']}")
        must(page["title"] == "(2 failed) Member 1\u2019s view of its group", f"the title is {page['title']}")
        changes = [row[:2] for row in page["events"]][:3]
        wanted = [["4", f"failed in period {numbers[4]}"], ["2", "removed"], ["4", "up at 127.0.0.1:7"]]
        must(changes == wanted, f"the changes are shown as {changes}, and not as {wanted}")
        must(["Verdicts", "3"] in page["counts"] and page["alarm"] == "", f"the page shows {page}")
        must(daemon.stop().status == 0, "the daemon ended otherwise")
        until(lambda: web.get("/healthz").status == 503, "nobody answers")
        must(shown(web)["alarm"] == "The daemon doesn\u2019t answer.", f"the alarm is {shown(web)['alarm']!r}")


def what_the_page_asks(machine):
    """One thing at a time. A stream that the browser has given up is opened anew, each time later. A page that is held
    asks for nothing, and nothing on it moves."""
    if not shutil.which("node"):
        return leave_out("node is not on PATH, so the script of the page of swimd web isn't run")
    with WebServer(machine, f"{machine.folder}/nobody") as web:
        found = by_node("page_course.js", web)
    for name, wanted in COURSE.items():
        must(found.get(name) == wanted, f"{name}: the page comes to {found.get(name)}, and not to {wanted}")


SHOWN = [what_the_page_shows, what_the_page_asks]
