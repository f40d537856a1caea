"""The places of `swimd web`: how many guests there are at a time, who has to go, and in whose turn."""

import contextlib
import select
import time

from tests.support.daemons import must, until
from tests.support.web_servers import WebServer, all_of
from tests.swimd.daemon_web_guests import GIVEN_UP, FakeDaemon, request

PLACES = 32
COMING = 100
# How long a guest has if all places are taken.
FULL = 0.3
# Within the second in which a daemon has to answer.
LATER, MUCH_LATER = 0.3, 0.6
PIPELINED, WAITING = 20, 8


def places(machine):
    """Of a hundred who come at once and send nothing 32 are let in at a time, and sent away soon. One less may stay."""
    with WebServer(machine, f"{machine.folder}/nobody") as web, contextlib.ExitStack() as opened:
        before, counts, guests = web.descriptors(), [], []
        for _ in range(COMING):
            guests.append(opened.enter_context(web.connect()))
            counts.append(web.descriptors() - before)

        def is_left():
            counts.append(web.descriptors() - before)
            return select.select(guests[PLACES - 1 : PLACES], [], [], 0)[0]

        until(is_left, "the first 32 are sent away", GIVEN_UP / 2)
        must(max(counts) == PLACES, f"{max(counts)} are let in")
    with WebServer(machine, f"{machine.folder}/nobody") as web, contextlib.ExitStack() as opened:
        before = web.descriptors()
        for _ in range(PLACES - 1):
            opened.enter_context(web.connect())
        time.sleep(3 * FULL)
        must(web.descriptors() - before == PLACES - 1, "somebody leaves who has time")


def a_request_that_came_meanwhile(machine):
    """A whole request that came while the server waited for the daemon is answered, though that takes longer than a
    guest has when all places are taken."""
    daemon = FakeDaemon(f"{machine.folder}/fake")
    daemon.answers[b"list\n"] = b""
    with WebServer(machine, f"{machine.folder}/fake") as web, contextlib.ExitStack() as opened:
        early, asking = (opened.enter_context(web.connect()) for _ in range(2))
        asking.sendall(request(web, more=b"Connection: close\r\n"))
        until(lambda: daemon.lines, "the daemon is asked")
        early.sendall(request(web, more=b"Connection: close\r\n"))
        for _ in range(PLACES):
            opened.enter_context(web.connect())
        for guest, name in ((asking, "who asked"), (early, "whose request came meanwhile")):
            must(all_of(guest).startswith(b"HTTP/1.1 503 "), f"the guest {name} isn't answered")
    daemon.close()


def each_in_turn(machine):
    """Between two answers to requests that one guest has sent at once others have theirs."""
    daemon = FakeDaemon(f"{machine.folder}/fake")
    daemon.delay = LATER
    with WebServer(machine, f"{machine.folder}/fake") as web, web.connect() as greedy:
        greedy.sendall(request(web) * PIPELINED)
        until(lambda: daemon.lines, "the daemon is asked")
        for _ in range(2):
            began = time.monotonic()
            must(web.get("/healthz").status == 200, "a guest beside a pipeline is refused")
            took = time.monotonic() - began
            must(took < 4 * LATER, f"beside a pipeline an answer takes {took:.2f} s")
    daemon.close()


def answer_to(guest):
    """The next answer, whole."""
    found = b""
    while not found.endswith(b"\r\n\r\nok\n"):
        more = guest.recv(65_536)
        must(more, f"the connection ends behind {found!r}")
        found += more
    return found


def places_are_given_on(machine):
    """With all places taken connections are closed behind their answers, and those who waited have the places; with
    fewer guests they stay."""
    daemon = FakeDaemon(f"{machine.folder}/fake")
    daemon.delay = MUCH_LATER
    with WebServer(machine, f"{machine.folder}/fake") as web, contextlib.ExitStack() as opened:
        first = opened.enter_context(web.connect())
        first.sendall(request(web))
        until(lambda: daemon.lines, "the daemon is asked")
        # While the server waits for the daemon all of these come, in this order.
        daemon.delay = 0
        others = [opened.enter_context(web.connect()) for _ in range(PLACES - 1 + WAITING)]
        for it in others:
            it.sendall(request(web))
        closes = [b"\r\nconnection: close\r\n" in answer_to(it) for it in (first, *others)]
        must(closes[:PLACES] == [False] + [True] * (PLACES - 1), f"with all places taken closed are {closes}")
        must([it.recv(1) for it in others[: PLACES - 1]] == [b""] * (PLACES - 1), "a connection stays that has to go")
        # One may have come in the place of the first, whose time was over before the others had gone.
        must(not any(closes[PLACES + 1 :]), f"with fewer guests closed are {closes}")
        for it in others[PLACES:]:
            it.sendall(request(web))
            answer_to(it)
    daemon.close()


OF_PLACES = [places, a_request_that_came_meanwhile, each_in_turn, places_are_given_on]
