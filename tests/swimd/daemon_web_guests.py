"""Who asks `swimd web`: what is no request, pieces and pipelines, bodies that nobody wants, guests who are slow beside
one who isn't, and a fuzz, behind which the daemon was asked for its table and its counts and nothing else."""

import os
import random
import socket
import threading
import time

from tests.support.daemons import must, until
from tests.support.web_servers import WebServer, all_of
from tests.swimd.daemon_watchers import MINUTE
from tests.swimd.daemon_web import judged_and_ended

TABLE = b"2 10.0.0.2:7000 up\n3 10.0.0.3:7000 failed 12\n.\n"
STATS = b'swimd_member_id{member="1"} 1\nswimd_ticks_total{member="1"} 4711\n.\n'
SLOW = 100
HONEST = 2
# A guest who sends no whole request, or doesn't take its answer, is gone within so many seconds.
GIVEN_UP = 12
# An answer for which nobody is waited comes within this.
AT_ONCE = 0.5
LONG = 10_000_000
MUTATIONS = 10_000
SEED = 61
PIECES = (b"\r\n", b"\r\n\r\n", b" ", b"\0", b"stop\n", b"%0a", b"Transfer-Encoding: chunked\r\n")


class FakeDaemon:
    """Somebody who answers at a control socket as a daemon does, and notes each line."""

    def __init__(self, path):
        self.answers = {b"list\n": TABLE, b"stats\n": STATS, b"stop\n": b"stopping\n"}
        self.lines, self.delay, self.listener = [], 0, socket.socket(socket.AF_UNIX)
        self.listener.bind(path)
        self.listener.listen(64)
        threading.Thread(target=self.accept, daemon=True).start()

    def accept(self):
        while True:
            try:
                connection, _ = self.listener.accept()
            except OSError:
                return
            threading.Thread(target=self.serve, args=(connection,), daemon=True).start()

    def serve(self, connection):
        with connection, connection.makefile("rb") as lines:
            for line in lines:
                delay = self.delay
                self.lines.append(line)
                time.sleep(delay)
                connection.sendall(self.answers.get(line, b"fault 2\n"))

    def close(self):
        self.listener.close()


def request(web, method="GET", path="/healthz", more=b""):
    return f"{method} {path} HTTP/1.1\r\nHost: localhost:{web.port}\r\n".encode() + more + b"\r\n"


def statuses(connection, count):
    """Those of so many responses that come next."""
    found = b""
    while found.count(b"HTTP/1.1 ") < count or not found.endswith(b"\n"):
        more = connection.recv(65_536)
        must(more, f"the connection ends behind {found!r}")
        found += more
    return [part[:3] for part in found.split(b"HTTP/1.1 ")[1:]]


def what_is_refused(machine):
    """Each with its status, and the server goes on."""
    daemon = machine.started(members=[(2, "10.0.0.2:7000")], tick_ms=MINUTE)
    with WebServer(machine, daemon.control) as web:
        host = f"Host: localhost:{web.port}\r\n".encode()
        fields = b"".join(b"X%d: a\r\n" % it for it in range(65))
        for text, status in (
            (request(web), 200),
            (request(web, path="/healthz?x=1"), 200),
            (b"GET /healthz HTTP/1.1\r\n" + host.upper() + b"\r\n", 200),
            (b"GET /healthz HTTP/1.0\r\n" + host + b"\r\n", 200),
            (request(web, "POST"), 405),
            (request(web, "DELETE", "/members.json"), 405),
            (request(web, "OPTIONS"), 405),
            (request(web, "TRACE"), 405),
            (request(web, "get"), 405),
            (request(web, path="/healthz/"), 404),
            (request(web, path="/../healthz"), 404),
            (request(web, path="/verdicts/2/7"), 404),
            (request(web, "POST", more=b"Content-Length: 1\r\n") + b"a", 413),
            (request(web, more=b"Transfer-Encoding: gzip, chunked\r\n"), 501),
            (request(web, more=b"X: " + b"a" * 9_000 + b"\r\n"), 431),
            (request(web, more=fields), 431),
            (request(web, path="/" + "a" * 9_000), 414),
            (b"GET /healthz HTTP/1.1\r\nHost: evil.example\r\n\r\n", 421),
            (b"GET /healthz HTTP/1.1\r\nHost: localhost\r\n\r\n", 421),
            (b"GET /healthz HTTP/1.0\r\n\r\n", 421),
            (b"GET /healthz HTTP/1.1\r\n\r\n", 400),
            (b"GET http://evil.example/healthz HTTP/1.1\r\n" + host + b"\r\n", 421),
            (b"CONNECT localhost:%d HTTP/1.1\r\n" % web.port + host + b"\r\n", 421),
            (b"GET /healthz HTTP/1.1\r\nHost: a b\r\n\r\n", 400),
            (b"GET /healthz HTTP/1.1\r\n" + host + b"Host: evil.example\r\n\r\n", 400),
            (b"GET /healthz HTTP/1.1\r\n" + host.replace(b":", b" :", 1) + b"\r\n", 400),
            (request(web, path="/health\0z"), 400),
            (request(web, more=b"X: a\0b\r\n"), 400),
            (request(web, more=b"Content-Length: 0\r\nTransfer-Encoding: chunked\r\n") + b"0\r\n\r\n", 400),
            (request(web, more=b"Content-Length: 0\r\nContent-Length: 1\r\n"), 400),
            (request(web, more=b"Content-Length: +0\r\n"), 400),
            (b"\x16\x03\x01\x02\x00\x01\x00\x01\xfc\x03\x03\r\n\r\n", 400),
            (b"", 0),
        ):
            found = web.status(text)
            must(found == status, f"{text[:60]!r} is answered {found}, and not {status}")
        must(web.get("/healthz").status == 200, "the server doesn't go on")
    must(daemon.stop().status == 0, "the daemon ended otherwise")


def refusals_close(machine):
    """What is no request, or is too large, is answered without a body, and the server hangs up by itself."""
    with WebServer(machine, f"{machine.folder}/nobody") as web:
        for text, status in (
            (b"GET /healthz HTTP/1.1\r\n\r\n", b"400"),
            (request(web, "POST", more=b"Content-Length: 1\r\n") + b"a", b"413"),
            (request(web, path="/" + "a" * 9_000), b"414"),
            (request(web, more=b"X: " + b"a" * 9_000 + b"\r\n"), b"431"),
            (request(web, more=b"Transfer-Encoding: gzip, chunked\r\n"), b"501"),
            # A request within a body is none.
            (request(web, "POST", more=b"Content-Length: 40\r\n") + request(web), b"413"),
            (request(web, more=b"Transfer-Encoding: chunked\r\n") + b"40\r\n" + request(web), b"413"),
        ):
            with web.connect() as connection:
                connection.sendall(text)
                line, *fields = all_of(connection).split(b"\r\n")
            must(line.startswith(b"HTTP/1.1 " + status + b" "), f"{text[:60]!r} is answered {line!r}")
            wanted = {b"content-length: 0", b"connection: close"}
            must(set(fields[:-2]) == wanted and fields[-2:] == [b"", b""], f"behind {line!r} stands {fields}")


def pieces_and_pipelines(machine):
    """Requests that come at once are answered in order, and one that comes byte by byte as if it had come at once."""
    daemon = FakeDaemon(f"{machine.folder}/fake")
    with WebServer(machine, f"{machine.folder}/fake") as web:
        both = web.send((request(web) + request(web, path="/other")) * 10)
        found = [part[:3] for part in both.split(b"HTTP/1.1 ")[1:]]
        must(found == [b"200", b"404"] * 10, f"a pipeline is answered {found}")
        old = b"GET /healthz HTTP/1.0\r\nHost: localhost:%d\r\n" % web.port
        found = web.send((old + b"Connection: keep-alive\r\n\r\n") * 2 + old + b"\r\n" + request(web))
        must(found.count(b"HTTP/1.0 200 ") == 3 and b"HTTP/1.1 " not in found, f"HTTP/1.0 is answered {found!r}")
        with web.connect() as connection:
            connection.setsockopt(socket.IPPROTO_TCP, socket.TCP_NODELAY, 1)
            for byte in request(web, more=b"Connection: close\r\n"):
                connection.sendall(bytes([byte]))
            must(all_of(connection).startswith(b"HTTP/1.1 200 "), "a request in pieces isn't answered")
        with web.connect() as connection:
            connection.sendall(request(web)[:-5])
            connection.shutdown(socket.SHUT_WR)
            must(not all_of(connection).startswith(b"HTTP/1.1 200 "), "half a request is answered")
        must(set(daemon.lines) == {b"list\n"} and len(daemon.lines) == 14, f"{len(daemon.lines)} lines were asked")
    daemon.close()


def slow_guests(machine):
    """Behind a hundred half requests an honest one is answered within two seconds, and they are given up."""
    daemon = FakeDaemon(f"{machine.folder}/fake")
    with WebServer(machine, f"{machine.folder}/fake") as web:
        slow = [web.connect(GIVEN_UP) for _ in range(SLOW)]
        for it in slow:
            it.sendall(request(web)[:-5])
        for _ in range(3):
            began = time.monotonic()
            must(web.get("/healthz").status == 200, "an honest request is refused")
            took = time.monotonic() - began
            must(took <= HONEST, f"an honest request took {took:.2f} s")
        must([all_of(it) for it in slow] == [b""] * SLOW, "half a request is answered")
        for it in slow:
            it.close()
        until(lambda: web.descriptors() < 20, "descriptors are given back")
    daemon.close()


def who_waits_for_continue(machine):
    """A request with `Expect: 100-continue` isn't left waiting, whether a body follows or not."""
    daemon = FakeDaemon(f"{machine.folder}/fake")
    with WebServer(machine, f"{machine.folder}/fake") as web:
        for more, first, body, second in (
            (b"", b"200", b"", None),
            (b"Content-Length: 0\r\n", b"100", b"", b"200"),
            (b"Content-Length: 5\r\n", b"413", b"", None),
            (b"Transfer-Encoding: chunked\r\n", b"100", b"0\r\n\r\n", b"200"),
            (b"Transfer-Encoding: chunked\r\n", b"100", b"1\r\na\r\n", b"413"),
        ):
            with web.connect() as connection:
                began = time.monotonic()
                connection.sendall(request(web, more=b"Expect: 100-continue\r\n" + more))
                found = statuses(connection, 1)
                must(found[0] == first, f"with {more} it is answered {found}")
                connection.sendall(body)
                found += statuses(connection, 1) if second and len(found) < 2 else []
                must(found[1:] == ([second] if second else []), f"with {more} it is answered {found}")
                took = time.monotonic() - began
                must(took < AT_ONCE, f"with {more} it is answered after {took:.2f} s")
    daemon.close()


def long_bodies(machine):
    """Whoever sends a long body and reads the refusal behind that gets it whole."""
    with WebServer(machine, f"{machine.folder}/nobody") as web, web.connect() as connection:
        connection.sendall(request(web, "POST", more=b"Content-Length: %d\r\n" % LONG))
        for _ in range(10):
            connection.sendall(b"a" * (LONG // 10))
        found = all_of(connection)
        must(found.startswith(b"HTTP/1.1 413 ") and found.endswith(b"\r\n\r\n"), f"a long body is answered {found!r}")


def sends_on(connection):
    """Sends bytes until nobody takes them."""
    try:
        while True:
            connection.sendall(b"a" * 10_000)
            time.sleep(0.01)
    except OSError:
        return


def who_is_given_up(machine):
    """Whoever sends half a request, reads no answer, or goes on sending behind a refusal has to go."""
    with WebServer(machine, f"{machine.folder}/nobody") as web:
        before, began = web.descriptors(), time.monotonic()
        half, deaf, talker = (web.connect(GIVEN_UP) for _ in range(3))
        half.sendall(request(web)[:-5])
        deaf.setblocking(False)
        deaf.send(request(web, path="/") * 1_000)
        talker.sendall(b"GET /healthz HTTP/1.1\r\n\r\n")
        threading.Thread(target=sends_on, args=(talker,), daemon=True).start()
        must(web.get("/healthz").status == 503, "an honest request is refused beside them")
        must(all_of(half) == b"" and time.monotonic() - began < GIVEN_UP, "a slow guest stays")
        until(lambda: web.descriptors() == before, "all are gone", GIVEN_UP)
        must(time.monotonic() - began < GIVEN_UP, "somebody stays")
        for it in (half, deaf, talker):
            it.close()


def mutated(chance, text):
    """The text with some of its bytes left out, doubled, or changed."""
    text = bytearray(text)
    for _ in range(chance.choice((0, 1, 1, 2, 5, 20))):
        at = chance.randrange(len(text)) if text else 0
        kind = chance.randrange(5)
        if kind == 0:
            del text[at : at + chance.randrange(1, 9)]
        elif kind == 1:
            text[at:at] = text[max(0, at - chance.randrange(1, 40)) : at]
        elif kind == 2:
            text[at:at] = chance.choice(PIECES)
        elif text:
            text[at % len(text)] = chance.randrange(256)
    return bytes(text)


def ten_thousand_mutations(machine):
    """The daemon was asked `list` and `stats`, and nothing else; the server answers, and has grown by little."""
    _, file, number = judged_and_ended(machine)
    folder, verdict = os.path.dirname(file.path), f"/verdicts/2/{number}"
    daemon, chance = FakeDaemon(f"{machine.folder}/fake"), random.Random(SEED)
    with WebServer(machine, f"{machine.folder}/fake", "--journals", folder) as web:
        valid = [
            request(web, method, path, more)
            for method in ("GET", "HEAD", "POST")
            for path in ("/", "/healthz", "/metrics", "/members.json", "/events", "/verdicts.json", verdict, "/stop")
            for more in (b"", b"Content-Length: 5\r\n", b"Last-Event-ID: 7\r\nConnection: keep-alive\r\n")
        ]
        for case in range(MUTATIONS):
            text = mutated(chance, b"".join(chance.choice(valid) for _ in range(chance.choice((1, 1, 1, 3)))))
            web.send(text)
            must(web.child.poll() is None, f"the server has ended after case {case}: {text!r}")
            if case == MUTATIONS // 10:
                before = web.memory()
        must(set(daemon.lines) == {b"list\n", b"stats\n"}, f"{set(daemon.lines)} were asked")
        must(web.get("/healthz").status == 200, "the server doesn't go on")
        grown = web.memory() - before
        must(grown < 1_000_000, f"it has grown by {grown} bytes")
    daemon.close()


GUESTS = [
    what_is_refused,
    refusals_close,
    pieces_and_pipelines,
    slow_guests,
    who_waits_for_continue,
    long_bodies,
    who_is_given_up,
    ten_thousand_mutations,
]
