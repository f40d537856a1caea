"""Clients of every kind at once: silent ones, halves of lines, pollers, and such as read nothing. None holds up
another, a life's end, or `stop`."""

import select
import subprocess
import threading
import time

from tests.support.daemons import SECONDS, connected, introduced, must, stop_all, talk, until
from tests.support.datagrams import ACK, PING, datagram, fields

MINUTE = 60_000
EACH = 8
LIVES = 10
PLACES = 64
MOST_SECONDS = 1.0
SILENT_SECONDS = 60
ROWS = [(2, "10.0.0.2:7000"), (3, "10.0.0.3:7000")]
LISTED = b"2 10.0.0.2:7000 up\n3 10.0.0.3:7000 up\n.\n"
STOPPED = (0, "stopped", 0, 0, 0, 0, 0)


def whole_answer(connection):
    """The answer to a `list`, or less where the connection ended."""
    found = b""
    while not found.endswith(b".\n"):
        more = connection.recv(65_536)
        if not more:
            break
        found += more
    return found


def is_closed(connection):
    """Whether the daemon has hung up: the rest of what it sent is taken."""
    while select.select([connection], [], [], 0)[0]:
        try:
            if not connection.recv(65_536):
                return True
        except ConnectionResetError:
            return True
    return False


class Poller(threading.Thread):
    """A client that asks ten times a second, and notes the longest wait and what it was told of failures."""

    def __init__(self, daemon):
        super().__init__(daemon=True)
        self.path, self.longest, self.asked, self.is_over = daemon.control, 0.0, 0, False
        self.failed = set()

    def run(self):
        try:
            with connected(self.path) as connection:
                while not self.is_over:
                    began = time.monotonic()
                    connection.sendall(b"list\n")
                    answer = whole_answer(connection)
                    if not answer.endswith(b".\n"):
                        break
                    self.longest, self.asked = max(self.longest, time.monotonic() - began), self.asked + 1
                    self.failed |= {line.split(b" ")[0] for line in answer.split(b"\n") if b" failed " in line}
                    time.sleep(0.1)
        except OSError:
            pass


class Crowd:
    """Eight clients of each kind."""

    def __init__(self, daemon):
        self.silent = [connected(daemon.control) for _ in range(EACH)]
        self.halves = [connected(daemon.control) for _ in range(EACH)]
        self.greedy = [connected(daemon.control) for _ in range(EACH)]
        for it in self.halves:
            it.sendall(b"li")
        for it in self.greedy:
            it.setblocking(False)
        self.pollers = [Poller(daemon) for _ in range(EACH)]
        for it in self.pollers:
            it.start()

    def push(self):
        """Those that read nothing ask for as much as they may."""
        for it in self.greedy:
            try:
                it.send(b"list\n" * 1_000)
            except OSError:
                pass

    def leave(self):
        for it in self.pollers:
            it.is_over = True
        for it in self.silent + self.halves + self.greedy:
            it.close()
        for it in self.pollers:
            it.join(SECONDS)


def clients_of_every_kind(machine):
    """Through ten lives nobody is judged, then the member that is killed is, and `stop` is served at once."""
    values = {"k": 3, "rtt": 5, "period": 20, "tick_ms": 20}
    first = machine.started(1, journal=60, **values)
    # They are told of each other when all are there: so nobody is judged who came late.
    members = introduced([first, *(machine.started(id, **values) for id in range(2, 6))])
    last = members[-1]
    crowd = Crowd(first)
    try:

        def lives():
            crowd.push()
            return first.lives_so_far() >= LIVES

        until(lives, "ten lives", 4 * SECONDS)
        for it in members:
            must(set(it.states().values()) == {"up"}, f"member {it.id} lists {it.states()}")
        must(not any(it.failed for it in crowd.pollers), "a poller saw a member judged")
        last.kill()
        others = members[:-1]
        until(
            lambda: all(it.states()[last.id] == "failed" for it in others), "the verdict on the member that was killed"
        )
        for it in others:
            states = it.states()
            must({id for id in states if states[id] == "failed"} == {last.id}, f"member {it.id} lists {states}")
        must(all(it.is_alive() and it.asked > LIVES for it in crowd.pollers), "a poller was cut off")
        began = time.monotonic()
        closing = first.stop()
        took = time.monotonic() - began
    finally:
        crowd.leave()
    longest = max(it.longest for it in crowd.pollers)
    waited = f"a poller waited {longest * 1000:.0f} milliseconds at most, `stop` {took * 1000:.0f}"
    print(f"  through {len(first.lives)} lives {waited}")
    must(closing.status == 0, f"it ended {closing}")
    must(longest < MOST_SECONDS, f"a poller waited {longest:.2f} seconds")
    must(took < MOST_SECONDS, f"`stop` took {took:.2f} seconds")
    must(all(it.status == 0 for it in stop_all(others[1:])), "another member ended otherwise")


def half_a_line_and_stop(machine):
    """Half a line of one client, a silent one, and `stop` of a third."""
    daemon = machine.started(members=ROWS, tick_ms=MINUTE)
    with daemon.connect() as half, daemon.connect() as silent:
        half.sendall(b"li")
        began = time.monotonic()
        must(daemon.stop() == STOPPED, "it ended otherwise")
        must(time.monotonic() - began < MOST_SECONDS, "`stop` waits for others")
        must(is_closed(half) and is_closed(silent), "a connection outlives the daemon")


def a_life_ends_beside_silent_clients(machine):
    """A full journal ends a life at once, and the connections go on in the next: half a line is one there."""
    daemon, peer = machine.started(members=ROWS, tick_ms=MINUTE, journal=1), machine.socket()
    with daemon.connect() as silent, daemon.connect() as half:
        half.sendall(b"li")
        for number in range(1, 2 * LIVES):
            began = time.monotonic()
            peer.sendto(datagram(PING, 9, 9, 1, number), daemon.address)
            if number % 2:
                must(fields(peer.recv(100)) == (ACK, 1, 9, 1, number), f"another ack of ping {number}")
                must(time.monotonic() - began < MOST_SECONDS, "a life's end waits for a client")
        half.sendall(b"st\n")
        must(whole_answer(half) == LISTED, "half a line is lost with its life")
        silent.sendall(b"remove 9\n")
        must(silent.recv(100) == b"journal full\n", "a call at a full journal is answered otherwise")
        until(lambda: is_closed(silent), "the connection that met the full journal is closed")
        half.sendall(b"list\n")
        must(whole_answer(half) == LISTED, "another connection is closed with it")
    closing = daemon.stop()
    must(daemon.lives == [(it, 1, 0, 0, 0, 0) for it in range(LIVES)], f"its lives are {daemon.lives}")
    must(closing == STOPPED, f"it ended {closing}")


def stop_ends_short_lives(machine):
    """Where lives end all the time, one `stop` ends the daemon: no life begins behind it."""
    at_full = 0
    for id in range(1, 21):
        daemon = machine.started(id, members=[(30, "10.0.0.2:7000")], k=0, rtt=1, period=3, tick_ms=1, journal=1)
        until(lambda: daemon.lives_so_far() >= 3, "three lives of one tick")
        closing = daemon.stop()
        must(closing.status == 0 and closing.why == "stopped" and closing.entries <= 1, f"it ended {closing}")
        at_full += closing == STOPPED
    print(f"  of 20 stops {at_full} were told as of a life without an entry")


def answers_that_are_not_taken(machine):
    """Within some seconds such a client is cut off, and nobody waits for it."""
    daemon = machine.started(members=[(id, f"10.0.0.2:{id}") for id in range(2, 130)], tick_ms=MINUTE)
    with daemon.connect() as greedy:
        greedy.setblocking(False)
        began, is_cut = time.monotonic(), False
        while not is_cut:
            must(time.monotonic() - began < SECONDS, "a client that reads nothing is never cut off")
            try:
                greedy.send(b"list\n" * 100)
            except BlockingIOError:
                time.sleep(0.01)
            except OSError:
                is_cut = True
            asked = time.monotonic()
            must(daemon.ask(b"list\n").count(b"\n") == 129, "another client is answered otherwise")
            must(time.monotonic() - asked < MOST_SECONDS, "another client waits")
    print(f"  a client that reads nothing is cut off after {time.monotonic() - began:.1f} seconds")
    must(daemon.stop() == STOPPED, "it ended otherwise")


def more_clients_than_places(machine):
    """Those for whom there is no place wait for one."""
    daemon = machine.started(members=ROWS, tick_ms=MINUTE)
    here = [daemon.connect() for _ in range(PLACES)]
    try:
        for it in here:
            it.sendall(b"gap 2\n")
            must(it.recv(100) == b"gap none\n", "a client in its place")
        with connected(daemon.control) as waiting:
            waiting.sendall(b"list\n")
            must(not select.select([waiting], [], [], 0.3)[0], "there are more places")
            here.pop().close()
            must(talk(waiting, []) == LISTED, "nobody takes a place that is free")
    finally:
        for it in here:
            it.close()
    must(daemon.stop() == STOPPED, "it ended otherwise")


def a_minute_of_silence(machine):
    """A client that sends no whole line for a minute is cut off, one that sends bytes of a line too."""
    daemon = machine.started(members=ROWS, tick_ms=MINUTE)
    with daemon.connect() as silent, daemon.connect() as slow, daemon.connect() as polling:
        began, ended = time.monotonic(), {}
        while time.monotonic() - began < SILENT_SECONDS + 3:
            for name, it in (("silent", silent), ("slow", slow)):
                if name not in ended and is_closed(it):
                    ended[name] = time.monotonic() - began
            if "slow" not in ended:
                slow.send(b"l")
            polling.sendall(b"list\n")
            must(whole_answer(polling) == LISTED, "a client that asks is answered otherwise")
            time.sleep(1)
        must(set(ended) == {"silent", "slow"}, f"of two silent clients {set(ended)} are cut off")
        must(min(ended.values()) > SILENT_SECONDS - 2, f"a client is cut off after {min(ended.values()):.0f} seconds")
        must(max(ended.values()) < SILENT_SECONDS + 3, f"a client is cut off after {max(ended.values()):.0f} seconds")
    must(daemon.stop().status == 0, "it ended otherwise")


def ask_waits_for_the_end(machine):
    """`swimd ask` of `stop` ends when the daemon's end of the connection does: then its last line is written."""
    for id in (1, 4, 5):
        daemon = machine.started(id, members=ROWS, tick_ms=MINUTE)
        words = [daemon.program, "ask", "--control", daemon.control]
        ran = subprocess.run(words, input=b"stop\n", capture_output=True, timeout=SECONDS)
        must((ran.stdout, ran.stderr, ran.returncode) == (b"stopping\n", b"", 0), f"`ask` ended {ran}")
        must(daemon.lives_so_far() == 1, "`ask` ends before the daemon's last line is written")
        must(daemon.ended() == STOPPED, "it ended otherwise")


CONNECTIONS = [
    clients_of_every_kind,
    half_a_line_and_stop,
    a_life_ends_beside_silent_clients,
    stop_ends_short_lives,
    answers_that_are_not_taken,
    more_clients_than_places,
    a_minute_of_silence,
    ask_waits_for_the_end,
]
