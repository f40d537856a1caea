"""`swimd ask` against those that aren't a daemon: nothing that it meets makes it hang, or is taken for an answer."""

import os
import socket
import threading
import time

from tests.support.daemons import SECONDS, come, must
from tests.swimd.daemon_asking import SOON, full_queue, must_be, ran


class Server:
    """A server at a path that answers each connection in a way of its own, and counts them."""

    def __init__(self, path, serve):
        self.socket, self.lines, self.serve = socket.socket(socket.AF_UNIX), [], serve
        self.socket.bind(path)
        self.socket.listen()
        self.thread = threading.Thread(target=self.run, daemon=True)
        self.thread.start()

    def run(self):
        while True:
            try:
                connection = self.socket.accept()[0]
            except OSError:
                return
            with connection:
                connection.settimeout(SECONDS)
                try:
                    self.serve(self, connection)
                except OSError:
                    pass

    def take(self, connection):
        line = b""
        while not line.endswith(b"\n"):
            more = connection.recv(1)
            if not more:
                break
            line += more
        if line:
            self.lines.append(line)
        return line

    def close(self):
        self.socket.shutdown(socket.SHUT_RDWR)
        self.socket.close()
        self.thread.join(SECONDS)


def against(machine, name, serve, *words, **streams):
    """What asking such a server gives, the lines that it took, and how long it lasted."""
    path = f"{machine.folder}/{name}.sock"
    server = Server(path, serve)
    try:
        began = time.monotonic()
        found = ran(machine.program, "ask", "--control", path, *words, **streams)
        return found, server.lines, time.monotonic() - began
    finally:
        server.close()


def answers_that_are_no_tables(machine):
    """With `--toml` what is no member table is passed on as it is, and the status says so."""
    for answer in (b"closed\n", b"fault 2\n", b"2 10.0.0.2 up\n.\n", b'2 "\n.\n', b"0 10.0.0.2:7000 up\n.\n", b"..\n"):

        def telling(server, connection, answer=answer):
            if server.take(connection):
                connection.sendall(answer)

        found, lines, _ = against(machine, "telling", telling, "list", "--toml")
        must_be(found, (answer, b"", 3), f"{answer} as tables")
        must_be(lines, [b"list\n"], f"what one is asked who answers {answer}")
        os.remove(f"{machine.folder}/telling.sock")


def servers_that_answer_badly(machine):
    """No answer that isn't whole is passed on, nothing is asked twice, and nothing hangs."""

    def half(server, connection):
        if server.take(connection):
            connection.sendall(b"gap no")

    def rows_alone(server, connection):
        if server.take(connection):
            connection.sendall(b"2 10.0.0.2:7000 up\n")

    def at_once(server, connection):
        pass

    def two_lines(server, connection):
        if server.take(connection):
            connection.sendall(b"gap none\nstopping\n")

    def without_end(server, connection):
        if server.take(connection):
            connection.sendall(b"1" * 1_000_000)

    unanswered = (b"", b"ask unanswered\n", 5)
    for serve in (half, rows_alone, two_lines, without_end):
        found, lines, _ = against(machine, serve.__name__, serve, input=b"gap 2\nlist\n")
        must_be(found, unanswered, serve.__name__)
        must_be(lines, [b"gap 2\n"], f"what {serve.__name__} was asked")
    found, lines, _ = against(machine, "at_once", at_once, "gap", "2")
    must_be((found, lines), (unanswered, []), "at_once")


def answers_that_do_not_come(machine):
    """An answer that doesn't come in time ends asking, also where bytes come now and then."""

    def silent(server, connection):
        server.take(connection)
        connection.recv(1)

    def half(server, connection):
        if server.take(connection):
            connection.sendall(b"gap no")
            connection.recv(1)

    def dripping(server, connection):
        while server.take(connection):
            for _ in range(100):
                connection.sendall(b"1")
                time.sleep(0.1)

    def never_ending(server, connection):
        if server.take(connection):
            connection.sendall(b"stopping\n")
            connection.recv(1)

    for serve in (silent, half, dripping):
        found, lines, seconds = against(machine, serve.__name__, serve, "--timeout", "1", input=b"gap 2\nlist\n")
        must_be((found, lines), ((b"", b"ask timeout\n", 5), [b"gap 2\n"]), serve.__name__)
        must(0.9 < seconds < SOON, f"{serve.__name__}: a limit of a second lasts {seconds:.1f}")
    found, _, seconds = against(machine, "never_ending", never_ending, "--timeout", "1", "stop")
    must_be(found, (b"stopping\n", b"ask timeout\n", 5), "a `stop` behind which nothing ends")
    must(seconds < SOON, f"a limit of a second lasts {seconds:.1f}")


def one_limit_for_both(machine):
    """A queue that is full for two of three seconds, and then nobody who answers: three seconds are waited, not
    five."""
    path = f"{machine.folder}/late.sock"
    with full_queue(path) as (full, waiting):
        took = []
        taking = threading.Timer(2.0, lambda: took.extend(full.accept() for _ in waiting))
        taking.start()
        try:
            began = time.monotonic()
            found = ran(machine.program, "ask", "--control", path, "--timeout", "3", "list")
            seconds = time.monotonic() - began
        finally:
            taking.join(SECONDS)
        must_be(found, (b"", b"ask timeout\n", 5), "a socket whose queue is full for two seconds")
        must(2.9 < seconds < 4.5, f"a limit of three seconds lasts {seconds:.1f}")
        for it, _ in took:
            it.close()


def answering(text):
    """A server that answers each line so."""

    def serve(server, connection):
        while server.take(connection):
            connection.sendall(text)

    return serve


def stops_that_are_not_answered(machine):
    """Nobody ends well who isn't told that the daemon stops, or met its end."""
    for text in (b"x\n", b"gap none\n", b"stopped\n", b"2 10.0.0.2:7000 up\n.\n"):
        found, lines, _ = against(machine, "answering", answering(text), "stop")
        must_be((found, lines), ((b"", b"ask unanswered\n", 5), [b"stop\n"]), f"a `stop` answered {text!r}")
        os.remove(f"{machine.folder}/answering.sock")
    for text in (b"fault 2\n", b"refused 9\n"):
        found, lines, _ = against(machine, "answering", answering(text), "stop")
        must_be((found, lines), ((text, b"", 3), [b"stop\n"]), f"a `stop` answered {text!r}")
        os.remove(f"{machine.folder}/answering.sock")

    def hanging_up(server, connection):
        server.take(connection)

    found, lines, seconds = against(machine, "hanging_up", hanging_up, "--timeout", "1", "stop")
    must_be((found, lines[0]), ((b"", b"ask unanswered\n", 5), b"stop\n"), "a `stop` behind which another listens")
    must(seconds < SOON, f"a limit of a second lasts {seconds:.1f}")

    def ending(server, connection):
        server.take(connection)
        os.remove(f"{machine.folder}/ending.sock")

    found, lines, _ = against(machine, "ending", ending, "stop")
    must_be((found, lines), ((b"stopping\n", b"", 0), [b"stop\n"]), "a `stop` behind which nobody listens")


def what_came_of_a_reload(machine):
    """A configuration that was refused is something that wasn't done; keys that need a start aren't."""
    answers = [
        (b"reloaded\n", 0), (b"reloaded; tick_ms needs a start; wire needs a start\n", 0),
        (b"configuration 6 keys\n", 3), (b"configuration file\n", 3), (b"no memory\n", 3),
    ]
    for text, status in answers:
        for words in (["reload"], ["--explain", "reload"]):
            found, lines, _ = against(machine, "answering", answering(text), *words)
            must_be((found, lines), ((text, b"", status), [b"reload\n"]), f"a `reload` answered {text!r}")
            os.remove(f"{machine.folder}/answering.sock")


IMPOSTORS = [
    answers_that_are_no_tables,
    servers_that_answer_badly,
    answers_that_do_not_come,
    one_limit_for_both,
    stops_that_are_not_answered,
    what_came_of_a_reload,
]
