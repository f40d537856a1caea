"""The page of `swimd web` in a browser: a kill that shows, how long ago it was, its link, and the page about the
verdict, which is as dark and as narrow; and the page while it is held."""

import time

from tests.support.browsers import Browser, chromium
from tests.support.configurations import HOST
from tests.support.daemons import introduced, must, until
from tests.support.parts import leave_out
from tests.support.web_servers import WebServer
from tests.swimd.daemon_watchers import MINUTE, watched

# Members that answer aren't judged on a machine with much to do. A verdict shows so many seconds later than it has to.
CALM = {"k": 0, "rtt": 20, "period": 60, "tick_ms": 10}
ROOM = 1.5
TABS = 10
# The page asks every five seconds; on a machine with much to do what it shows comes later.
NEXT = 15
# What was asked for is answered within a second, and the page asks again within these.
SETTLED, HELD = 1, 6


def group_of_three(machine):
    """Three daemons that know one another, and where the first tells events."""
    first, path = watched(machine, **CALM)
    return introduced([first, machine.started(2, **CALM), machine.started(3, **CALM)]), path


def follow(browser, number):
    """Goes to the page of a verdict by keys alone."""
    for _ in range(TABS):
        browser.press("Tab")
        if browser.value("document.activeElement.pathname || ''") == f"/verdicts/2/{number}":
            browser.press("Enter")
            return
    must(False, "no key leads to the verdict")


def must_tell_an_age(browser, daemon, killed):
    """The row tells how long ago the verdict was, and by itself that it is longer ago, as the time by the viewer's
    clock."""
    row = "document.querySelector('#members .age')"
    first = browser.wait(f"/^about \\d+ s ago$/.exec({row}.textContent)?.[0]", NEXT)
    must(browser.value(f"{row}.parentNode.textContent").endswith(f" {first}"), "the age isn't behind the state")
    second = browser.wait(f"{row}.textContent !== '{first}' && {row}.textContent", NEXT)
    ages, ago = [int(it.split(" ")[1]) for it in (first, second)], time.monotonic() - killed
    must(0 <= ages[0] < ages[1] <= ago + daemon.period_seconds, f"a kill {ago:.1f} s ago is told as {ages} s ago")
    # From the daemon's answer on the age stays as it is told.
    times = f"[...Array({NEXT}).keys()].map(it => clock(Date.now() - 1000 * ({ages[1]} + it)))"
    must(browser.value(f"{times}.includes({row}.title)"), "the time of the verdict is another")
    heard = "[...document.querySelectorAll('#members .age')].map(it => it.textContent)[1]"
    browser.wait(f"/^heard about \\d+ s ago$/.test({heard})", NEXT)


def must_fit(browser):
    """On a narrow screen nothing is beside it, and the ids stand below one another."""
    browser.call("Emulation.setDeviceMetricsOverride", width=400, height=800, deviceScaleFactor=1, mobile=False)
    lefts = "[...document.querySelectorAll('#members tr')].map(it => it.firstChild.getBoundingClientRect().left)"
    found = browser.value(lefts)
    must(len(found) == 2 and len(set(found)) == 1, f"ids begin at {found}")
    must(browser.value("document.documentElement.scrollWidth") <= 400, "the page is wider than the screen")
    found = browser.value("document.querySelector('#members .age').getBoundingClientRect().right")
    must(0 < found <= 400, f"an age ends at {found}")
    browser.call("Emulation.setEmulatedMedia", features=[{"name": "prefers-color-scheme", "value": "dark"}])
    found = browser.value("getComputedStyle(document.body).backgroundColor")
    must(found == "rgb(13, 17, 23)", f"in the dark the page is {found}")


def must_fit_as_well(browser):
    """The page of a verdict is no wider than the screen, and dark with its picture, whose style its policy allows."""
    must(browser.value("document.documentElement.scrollWidth") <= 400, "the page of the verdict is wider")
    for name, style, wanted in (
        ("body", "backgroundColor", "rgb(13, 17, 23)"),
        (".wide", "backgroundColor", "rgb(13, 17, 23)"),
        ("svg .heading", "fill", "rgb(230, 237, 243)"),
        ("svg .grid", "stroke", "rgb(42, 49, 60)"),
    ):
        found = browser.value(f"getComputedStyle(document.querySelector('{name}')).{style}")
        must(found == wanted, f"in the dark {name} has {style} {found}")


def a_kill_is_followed_to_its_page(machine):
    """In Chromium: a member that is killed shows within two periods and two seconds, and its link leads to the page with
    its evidence and its picture. Nothing is asked for elsewhere, and nothing goes wrong in the page."""
    if not chromium():
        return leave_out("chromium is not on PATH, so no browser shows the page of swimd web")
    (first, second, third), path = group_of_three(machine)
    folder = first.values["journal_dir"]
    with WebServer(machine, first.control, "--events", path, "--journals", folder) as web, Browser(machine.folder) as it:
        home = f"http://{HOST}:{web.port}/"
        it.open(home)
        it.wait("document.getElementById('sum')?.textContent === 'All 2 members up'")
        killed = time.monotonic()
        second.kill()
        link = it.wait("document.querySelector('#members a')?.textContent", 2 * first.period_seconds + 2 + ROOM)
        number = int(link.removeprefix("failed in period "))
        name = it.value("document.querySelector('#members a').ariaLabel")
        must(name == f"Member 2 failed in period {number}: the evidence", f"the link is named {name}")
        until(lambda: web.get(f"/verdicts/2/{number}").status == 200, "the verdict is explained")
        it.wait(f"document.querySelector('#events a')?.pathname === '/verdicts/2/{number}'")
        must_tell_an_age(it, first, killed)
        must_fit(it)
        follow(it, number)
        heading = f"Member 2 was judged failed in period {number}"
        it.wait(f"document.querySelector('h1')?.textContent === '{heading}'")
        words = it.value("document.querySelector('pre').textContent")
        must(words.startswith(f"judged 2 in period {number}: probed at entry "), f"the evidence is {words}")
        must(it.value("document.querySelector('svg').getBoundingClientRect().height") > 100, "there is no picture")
        must_fit_as_well(it)
        must(it.value("document.title") == f"Member 2, period {number}", "the page has another title")
        must(not it.faults, f"the page says {it.faults}")
        elsewhere = [url for url in it.asked if not url.startswith((home, "data:"))]
        must(not elsewhere, f"{elsewhere} is asked for")
    must([daemon.stop().status for daemon in (first, third)] == [0, 0], "a daemon ended otherwise")


def no_dead_links(machine):
    """Without journal files a verdict is shown without a link."""
    if not chromium():
        return leave_out("chromium is not on PATH, so no browser shows the page of swimd web")
    daemon = machine.started(members=[(2, "127.0.0.1:9")], k=0, rtt=1, period=3, tick_ms=20)
    until(lambda: daemon.states() == {2: "failed"}, "a verdict")
    with WebServer(machine, daemon.control) as web, Browser(machine.folder) as it:
        it.open(f"http://{HOST}:{web.port}/")
        it.wait("document.getElementById('sum')?.textContent === '1 failed, 0 up'")
        must(it.value("document.querySelectorAll('tbody a').length") == 0, "a verdict has a link")
    must(daemon.stop().status == 0, "the daemon ended otherwise")


def must_not_move(browser):
    """Nothing is asked for, and what is shown stays."""
    shown = "document.body.innerText"
    time.sleep(SETTLED)
    before, asked = browser.value(shown), len(browser.asked)
    time.sleep(HELD)
    must(browser.value(shown) == before, f"the page that is held shows {browser.value(shown)}")
    must(len(browser.asked) == asked, f"the page that is held asks for {browser.asked[asked:]}")


def a_page_is_held_by_a_key(machine):
    """In Chromium: the first key leads to the button that holds the page. It shows what came meanwhile as soon as it goes
    on."""
    if not chromium():
        return leave_out("chromium is not on PATH, so no browser shows the page of swimd web")
    daemon, path = watched(machine, members=[(2, "10.0.0.2:7000")], tick_ms=MINUTE)
    with WebServer(machine, daemon.control, "--events", path) as web, Browser(machine.folder) as it:
        it.open(f"http://{HOST}:{web.port}/")
        it.wait("document.getElementById('sum')?.textContent === 'All 1 member up'")
        it.press("Tab")
        must(it.value("document.activeElement.textContent") == "Pause", "the first key leads elsewhere")
        it.press("Enter")
        must(it.value("document.activeElement.textContent") == "Continue", "the page isn't held")
        must(daemon.ask(b"join 4 10.0.0.4:7000\n").startswith(b"joined"), "a join is refused")
        must_not_move(it)
        it.press("Enter")
        it.wait("document.getElementById('sum').textContent === 'All 2 members up'")
        it.wait("document.querySelector('#events tr')?.textContent.startsWith('4up at 10.0.0.4:7000')")
        must(not it.faults, f"the page says {it.faults}")
    must(daemon.stop().status == 0, "the daemon ended otherwise")


BROWSED = [a_kill_is_followed_to_its_page, no_dead_links, a_page_is_held_by_a_key]
