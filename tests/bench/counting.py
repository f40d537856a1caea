"""Instructions of the built programs, counted by valgrind. Counts are the same wherever they are made: the C library is
told to copy and clear in the plain way, which each processor has. What the system does isn't counted."""

import re
import socket
from pathlib import Path

from tests.bench import bench_scripts, traced_files
from tests.bench.measuring import VALGRIND, BenchFault, instructions
from tests.support.configurations import HOST
from tests.support.daemons import SECONDS, Machine, must, udp_socket, until
from tests.support.datagrams import PING, datagram
from tests.support.tags import FIRST, key_texts, sealed
from tests.support.web_servers import WebServer

MINUTE = 60_000
# A verdict comes within four ticks. Few ticks pass while pings are counted, and at each the receiver looks at the table.
SILENT = {"members": [(2, "127.0.0.1:9")], "k": 0, "rtt": 1, "period": 3, "tick_ms": 4_000}
# So many wait for their acks at a time: a daemon that is counted is slow, and what waits too long is dropped.
WINDOW = 16
WARM = 1_000
# So many datagrams a second never come.
WIDEST_FENCE = 2**32 - 1
KEYED = {"keys": key_texts(FIRST)}
# What is said of a thread in the file that valgrind writes of it.
TOTAL = re.compile(r"^(?:summary|totals): (\d+)", re.MULTILINE)


def ping(daemon, count):
    """Sends so many pings, and waits for the ack of each."""
    has_key = "keys" in daemon.values
    with udp_socket() as own:
        own.connect((HOST, daemon.port))
        for first in range(1, count + 1, WINDOW):
            numbers = range(first, min(first + WINDOW, count + 1))
            for number in numbers:
                text = datagram(PING, 9, 9, 1, number)
                own.send(sealed(FIRST, text) if has_key else text)
            try:
                for _ in numbers:
                    own.recv(512)
            except socket.timeout:
                raise BenchFault(f"a ping from {first} on was not answered") from None


class Counter:
    """A program that is counted while it runs, in a folder."""

    def __init__(self, path, folder):
        wrapper, self.out = Path(folder, "counted"), Path(folder, "counts")
        self.out.mkdir()
        words = f"{' '.join(VALGRIND)} -q --separate-threads=yes --callgrind-out-file='{self.out}/of'"
        wrapper.write_text(f"#!/bin/sh\nexec {words} '{path}' \"$@\"\n")
        wrapper.chmod(0o755)
        self.program = str(wrapper)

    def totals(self):
        """The instructions of each of its threads, by the thread's number, once it has ended."""
        found = {it.name: TOTAL.search(it.read_text()) for it in self.out.iterdir()}
        return {name: int(it[1]) for name, it in found.items() if it}


def counted(path, values, load):
    """The instructions of each thread of a daemon that bears a load, and how it ended."""
    with Machine(path) as machine:
        counter = Counter(path, machine.folder)
        machine.program = counter.program
        daemon = machine.started(**{"tick_ms": MINUTE, **values})
        if values.get("members") == SILENT["members"]:
            until(lambda: daemon.states() == {2: "failed"}, "the silent member is judged", seconds=60)
        load(daemon)
        end = daemon.stop()
        must(end.status == 0, "the daemon ended otherwise than by `stop`")
        return counter.totals(), end


def web_counted(path, machine, control, words, load):
    """The instructions of each thread of a `swimd web` that bears a load, beside the daemon with that control socket."""
    counter = Counter(path, machine.folder)
    machine.program = counter.program
    with WebServer(machine, control, *words) as web:
        load(web)
        web.child.terminate()
        web.child.wait(timeout=SECONDS)
    return counter.totals()


def get(web, page, count=1):
    """Asks for a page so often. A daemon has no counts in its first moments."""
    until(lambda: web.get(page).status == 200, f"{page} is there")
    for _ in range(count - 1):
        reply = web.get(page)
        must(reply.status == 200, f"{page} is answered with status {reply.status}")


def most_more(many, few):
    """How many instructions one run has more than another, in the thread where that is the most."""
    if not few:
        raise BenchFault("valgrind counted no instructions")
    return max(it - few.get(name, 0) for name, it in many.items())


def of_load(path, values, load, count, warm):
    """The instructions of one of `count` pieces of a load, in the thread that takes the most."""
    many, few = (counted(path, values, lambda it, n=n: load(it, n))[0] for n in (count + warm, warm))
    return most_more(many, few) / count


def of_ping(path, values, count):
    return of_load(path, values, ping, count, WARM)


def of_page(path, values, page, count, warm=10):
    """The instructions of one of `count` requests for a page, beside a daemon that isn't counted."""
    totals = []
    for requests in (count + warm, warm):
        with Machine(path) as machine:
            daemon = machine.started(**{"tick_ms": MINUTE, **values})
            totals.append(web_counted(path, machine, daemon.control, (), lambda it, n=requests: get(it, page, n)))
    return most_more(*totals) / count


def of_verdict(simulator, path, few=2_000, many=20_000):
    """The instructions of an entry of a journal file, in the page about a verdict at its end. No daemon is asked."""
    totals = []
    for entries in (many, few):
        with Machine(path) as machine:
            file = Path(machine.journals, "1-1700000000-0.swim")
            member, number = traced_files.write_judged(simulator, file, entries)
            page, words = f"/verdicts/{member}/{number}", ("--journals", machine.journals)
            totals.append(web_counted(path, machine, f"{machine.folder}/none.sock", words, lambda it, p=page: get(it, p)))
    return most_more(*totals) / (many - few)


def of_event(path, part, folder, few=2_000, many=20_000):
    """The instructions of an event of a script, start and end left out."""
    counts = []
    for events in (few, many):
        script = f"{folder}/{part.__name__}-{events}.swim"
        bench_scripts.write(script, part, most_events=events)
        counts.append(instructions([path], script))
    return (counts[1] - counts[0]) / (many - few)
