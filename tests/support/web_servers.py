"""Servers of pages, `swimd web`, and who asks them: requests as they are, or as bytes."""

import http.client
import os
import socket
import subprocess
from typing import NamedTuple

from tests.support.configurations import HOST
from tests.support.daemons import PORTS_TRIED, SECONDS, DaemonFault, lying_in, must, until

LINE_OF_START = b" serves http://"


class Reply(NamedTuple):
    """A response: its status, its fields by their names in small letters, and its body."""

    status: int
    fields: dict
    body: bytes


def free_port():
    with socket.socket() as it:
        it.bind((HOST, 0))
        return it.getsockname()[1]


class WebServer:
    """A `swimd web` that runs, at this port, or one where nobody else listens."""

    def __init__(self, machine, control, *words, host=HOST, port=None, **how):
        self.program, self.words, self.host = machine.program, ["--control", control, *words], host
        self.wanted, self.how = port, how

    def __enter__(self):
        for _ in range(PORTS_TRIED):
            self.port = self.wanted or free_port()
            words = [self.program, "web", "--listen", f"{self.host}:{self.port}", *self.words]
            self.child = subprocess.Popen(words, stdin=subprocess.DEVNULL, stdout=subprocess.PIPE,
                                          stderr=subprocess.PIPE, bufsize=0, **self.how)
            self.said = b""
            until(lambda: self.hear() and b"\n" in self.said, "it says where it serves")
            if LINE_OF_START in self.said:
                return self
            must(self.said.startswith(b"bind web\n"), f"it says {self.said!r}")
            self.end()
        raise DaemonFault(f"{PORTS_TRIED} ports that were free are taken")

    def __exit__(self, *_):
        self.end()

    def end(self):
        self.child.kill()
        self.child.communicate()

    def hear(self):
        """What it has said more by now."""
        more = lying_in(self.child.stderr)
        self.said += more
        return more

    def connect(self, seconds=SECONDS):
        return socket.create_connection((HOST, self.port), timeout=seconds)

    def get(self, path, method="GET", **fields):
        """What it answers to a request, on a connection of its own."""
        connection = http.client.HTTPConnection(HOST, self.port, timeout=SECONDS)
        try:
            connection.request(method, path, headers={name.replace("_", "-"): it for name, it in fields.items()})
            reply = connection.getresponse()
            return Reply(reply.status, {name.lower(): it for name, it in reply.getheaders()}, reply.read())
        finally:
            connection.close()

    def send(self, text):
        """All that it answers to these bytes, behind which nothing comes."""
        with self.connect() as connection:
            try:
                connection.sendall(text)
                connection.shutdown(socket.SHUT_WR)
            except OSError:
                # It hung up before it took all of it.
                pass
            return all_of(connection)

    def status(self, text):
        """The status that it answers to these bytes; 0 where it answers nothing."""
        words = self.send(text).split(b" ", 2)
        return int(words[1]) if len(words) == 3 and words[0].startswith(b"HTTP/1.") else 0

    def memory(self):
        with open(f"/proc/{self.child.pid}/status") as file:
            return next(int(line.split()[1]) * 1_024 for line in file if line.startswith("VmRSS:"))

    def descriptors(self):
        return len(os.listdir(f"/proc/{self.child.pid}/fd"))


def all_of(connection):
    """What comes up to the end of a connection."""
    found = b""
    try:
        while True:
            more = connection.recv(65_536)
            if not more:
                return found
            found += more
    except OSError:
        return found
