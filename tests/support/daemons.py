"""Daemons on this machine: they are configured, started, asked, and ended. Ports are chosen by the system, and each
wait has a limit."""

import glob
import os
import re
import select
import shutil
import signal
import socket
import subprocess
import sys
import tempfile
import time
from contextlib import suppress
from typing import NamedTuple

from tests.support.configurations import HOST, configuration
from tests.support.sayings import LIFE, LIVES_AND_CLOSING, Closing, but_for_notices, first_line_of, lives_in

SECONDS = 20
# So many ports are tried: one that was free a moment ago may be taken.
PORTS_TRIED = 10
ROW = re.compile(rb"(\d+) ([\d.]+:\d+) (up|failed \d+)")


class DaemonFault(Exception):
    """What a daemon did that isn't as expected."""


class PortTaken(DaemonFault):
    """Somebody has the port."""


class Row(NamedTuple):
    peer: str
    state: str


def end_what_was_started():
    """From now on a signal to end leaves this program as a fault does: the daemons and folders that it made go
    first."""
    signal.signal(signal.SIGTERM, lambda *_: sys.exit(1))


def must(holds, text):
    if not holds:
        raise DaemonFault(text)


def until(question, what, seconds=SECONDS):
    """The first answer to the question that counts as true."""
    end = time.monotonic() + seconds
    while True:
        answer = question()
        if answer:
            return answer
        must(time.monotonic() < end, f"{what}: not within {seconds} seconds")
        time.sleep(0.005)


def free_ports(count):
    """Ports on which nobody receives now."""
    sockets = [udp_socket() for _ in range(count)]
    ports = [it.getsockname()[1] for it in sockets]
    for it in sockets:
        it.close()
    return ports


def udp_socket():
    it = socket.socket(socket.AF_INET, socket.SOCK_DGRAM)
    it.bind((HOST, 0))
    it.settimeout(SECONDS)
    return it


def lying_in(pipe):
    """What lies in a pipe by now."""
    text = b""
    while select.select([pipe], [], [], 0)[0]:
        more = os.read(pipe.fileno(), 65_536)
        if not more:
            break
        text += more
    return text


def put_aside(folder):
    """Makes the folder anew, and keeps what it held in another one beside it."""
    if os.path.exists(folder):
        os.rename(folder, tempfile.mkdtemp(prefix=os.path.basename(folder) + "-", dir=os.path.dirname(folder)))
    os.mkdir(folder)


def connected(path):
    it = socket.socket(socket.AF_UNIX, socket.SOCK_STREAM)
    it.settimeout(SECONDS)
    try:
        it.connect(path)
    except OSError:
        it.close()
        raise
    return it


def talk(connection, pieces, hang_up=True, seconds=SECONDS):
    """Sends the pieces, each by a call of its own, and takes what is answered up to the end of the connection."""
    left, answer, end = list(pieces) or [b""], b"", time.monotonic() + seconds
    connection.setblocking(False)
    try:
        while True:
            must(time.monotonic() < end, f"a control connection has not ended after {seconds} seconds")
            readable, writable, _ = select.select([connection], [connection] if left else [], [], 0.5)
            if writable:
                sent = connection.send(left[0])
                left[:1] = [left[0][sent:]] if sent < len(left[0]) else []
                if not left and hang_up:
                    connection.shutdown(socket.SHUT_WR)
            if readable:
                more = connection.recv(65_536)
                if not more:
                    return answer
                answer += more
    except (BrokenPipeError, ConnectionResetError):
        # The daemon hung up before it took all that was sent. What it answered may still lie here.
        return answer + rest_of(connection)


def rest_of(connection):
    """What still lies in a connection whose other end is gone."""
    rest = b""
    try:
        while True:
            more = connection.recv(65_536)
            if not more:
                return rest
            rest += more
    except OSError:
        return rest


def come(stream, length):
    """So many bytes of a pipe, or fewer where they don't come within some seconds."""
    found, end = b"", time.monotonic() + SECONDS
    while len(found) < length and select.select([stream], [], [], max(0.0, end - time.monotonic()))[0]:
        more = os.read(stream.fileno(), length - len(found))
        if not more:
            break
        found += more
    return found


def states_of_threads(process):
    """A letter a thread of a process, as the system has it: `T` is one that a signal stopped."""
    for path in glob.glob(f"/proc/{process}/task/*/stat"):
        # A thread may end before it is read. Its state stands behind its name, which may have parentheses of its own.
        with suppress(FileNotFoundError, ProcessLookupError), open(path, encoding="utf-8", errors="replace") as file:
            yield file.read().rpartition(") ")[2][0]


class Daemon:
    """A daemon with its folder. What isn't given of its configuration is that of a group on one fast machine."""

    def __init__(self, program, folder, id, port, members=(), **values):
        self.program, self.id, self.port, self.child = program, id, port, None
        self.read, self.said, self.lives, self.told = b"", b"", [], b""
        # The lives that are told as cut, and whether any may be. In a folder of its own journal files are put aside
        # before a start: those of one second have the same names.
        self.cut, self.may_be_cut, self.has_own_folder = [], False, False
        self.control = f"{folder}/{id}.sock"
        self.file = f"{folder}/{id}.toml"
        usual = {"k": 1, "rtt": 3, "period": 12, "tick_ms": 20, "seed": f"{id:064x}", "journal": 1_000_000}
        self.values = {"id": id, "listen": f"{HOST}:{port}", "control": self.control, **usual, **values}
        self.members = members
        self.write()

    def write(self):
        """Writes its configuration, with its values as they are now."""
        with open(self.file, "w", encoding="utf-8") as file:
            file.write(configuration(members=self.members, **self.values))

    def launch(self, words=(), is_clean=True, **how):
        """Starts it, also with more words, and doesn't wait. Where it is clean its control path is removed before."""
        if is_clean and os.path.exists(self.control):
            os.remove(self.control)
        if self.has_own_folder:
            put_aside(self.values["journal_dir"])
        self.read, self.said, words = b"", b"", [self.program, "run", "--config", self.file, *words]
        streams = {"stdin": subprocess.DEVNULL, "stdout": subprocess.PIPE, "stderr": subprocess.PIPE, **how}
        self.child = subprocess.Popen(words, **streams, bufsize=0)

    def start(self, **how):
        """Starts it, and waits until it can be asked."""
        self.launch(**how)
        return self.ready()

    def ready(self):
        """Waits until it answers. One that connects while the socket isn't its owner's alone yet may be turned away."""
        until(lambda: self.child.poll() is not None or self.answers(), f"member {self.id} starts")
        if self.child.poll() is not None:
            said = self.child.communicate()[1]
            raise (PortTaken if first_line_of(said) == b"bind listen\n" else DaemonFault)(
                f"member {self.id} ended at once: {said!r}"
            )
        return self

    def answers(self):
        try:
            with connected(self.control) as connection:
                return talk(connection, [b"list\n"]).endswith(b".\n")
        except OSError:
            return False

    @property
    def address(self):
        return (HOST, self.port)

    @property
    def period_seconds(self):
        return self.values["period"] * self.values["tick_ms"] / 1000

    def connect(self):
        return connected(self.control)

    def ask(self, *pieces):
        """What it answers to these pieces of control lines, on a connection of their own."""
        with self.connect() as connection:
            return talk(connection, pieces)

    def table(self):
        """Its member table, by id."""
        lines = self.ask(b"list\n").split(b"\n")
        must(lines[-2:] == [b".", b""], f"no table of member {self.id}: {lines!r}")
        found = [ROW.fullmatch(line) for line in lines[:-2]]
        must(all(found), f"rows of member {self.id} that are none: {lines!r}")
        return {int(it[1]): Row(it[2].decode(), it[3].decode()) for it in found}

    def states(self):
        """What it lists of each member: `up` or `failed`."""
        return {id: row.state.split(" ")[0] for id, row in self.table().items()}

    def join(self, *others):
        """Tells it of other members."""
        for it in others:
            answer = self.ask(f"join {it.id} {HOST}:{it.port}\n".encode())
            must(answer.startswith(b"joined "), f"member {self.id} answers a join of member {it.id} with {answer!r}")

    def stop(self):
        """Stops it by a control line, and says how it ended."""
        answer = self.ask(b"stop\n")
        must(answer == b"stopping\n", f"member {self.id} answers `stop` with {answer!r}")
        return self.ended()

    def ended(self, seconds=SECONDS):
        """Waits for its end, and says how it ended."""
        try:
            stdout, stderr = self.child.communicate(timeout=seconds)
        except subprocess.TimeoutExpired:
            raise DaemonFault(f"member {self.id} has not ended after {seconds} seconds") from None
        found = LIVES_AND_CLOSING.fullmatch(self.read + stdout)
        must(found, f"the closing line of member {self.id} is {stdout[-1_000:]!r}")
        self.told = self.said + stderr
        must(but_for_notices(self.told) == b"", f"member {self.id} writes {self.told!r} on standard error")
        self.lives = lives_in(found[1])
        must(len(self.lives) == found[1].count(b"\n"), f"lines of lives that are none: {found[1][:1_000]!r}")
        numbers = [it.number for it in self.lives]
        must(numbers == list(range(len(numbers))), f"the lives of member {self.id} are numbered {numbers[:20]}")
        self.cut = [number for number, it in enumerate([*(it[6] for it in LIFE.findall(found[1])), found[8]]) if it]
        must(
            self.may_be_cut or not self.cut,
            f"the lives {self.cut[:20]} of member {self.id} are told as cut: {self.told[-1_000:]!r}",
        )
        return Closing(self.child.returncode, found[2].decode(), *map(int, found.groups()[2:7]))

    def lives_so_far(self):
        """How many lives it told of by now."""
        self.read += lying_in(self.child.stdout)
        return self.read.count(b"\n")

    def told_so_far(self):
        """What it told on standard error by now."""
        self.said += lying_in(self.child.stderr)
        return self.said

    def stand_still(self):
        """Stops it by a signal, and comes back once each of its threads stands: on a machine at work they go on for a
        moment after the signal."""
        self.child.send_signal(signal.SIGSTOP)
        until(lambda: set(states_of_threads(self.child.pid)) == {"T"}, f"member {self.id} stands still")

    def go_on(self):
        """Lets it go on after it stood still."""
        self.child.send_signal(signal.SIGCONT)

    def kill(self):
        """Ends it without a word, as a machine that fails does."""
        if self.child and self.child.poll() is None:
            self.child.kill()
            self.child.communicate()


# Each thread has an arena of memory of its own, in the C library, and what they keep varies from run to run. With one
# arena, what a daemon holds at two moments can be compared.
ONE_ARENA = {"GLIBC_TUNABLES": "glibc.malloc.arena_max=1"}


def memory_of(daemon, what="VmRSS"):
    """The bytes that it holds now, or with VmHWM the most that it ever held."""
    with open(f"/proc/{daemon.child.pid}/status") as file:
        return next(int(line.split()[1]) * 1_024 for line in file if line.startswith(f"{what}:"))


def introduced(daemons):
    """Tells each of all others."""
    for it in daemons:
        it.join(*(other for other in daemons if other is not it))
    return daemons


def stop_all(daemons):
    """Stops them one soon after the other, and says how each ended."""
    for it in daemons:
        it.ask(b"stop\n")
    return [it.ended() for it in daemons]


class Machine:
    """A place for daemons and sockets, which are gone behind it. Where there is a simulator that can play them, each
    daemon writes journal files into a folder of its own, or all into one; but those that are told another folder, or
    None. Where there is the reference, it plays them as well."""

    def __init__(self, program, simulator=None, reference=None):
        self.program, self.simulator, self.reference = program, simulator, reference
        self.folder = tempfile.mkdtemp(prefix="swimd-")
        self.journals, self.has_one_folder = f"{self.folder}/journals", False
        os.mkdir(self.journals)
        self.daemons, self.sockets = [], []

    def __enter__(self):
        return self

    def __exit__(self, *_):
        for it in self.daemons:
            it.kill()
        for it in self.sockets:
            it.close()
        shutil.rmtree(self.folder, ignore_errors=True)

    def daemon(self, id, port=None, members=(), **values):
        own = self.journals if self.has_one_folder else f"{self.journals}/{len(self.daemons)}"
        if self.simulator:
            values = {"journal_dir": own, "journal_keep": 0, **values}
        if values.get("journal_dir") is None:
            values = {key: it for key, it in values.items() if not key.startswith("journal_")}
        it = Daemon(self.program, self.folder, id, port or free_ports(1)[0], members, **values)
        it.has_own_folder = values.get("journal_dir") == own != self.journals
        self.daemons.append(it)
        return it

    def started(self, id=1, how=None, **values):
        """A daemon that runs. A port that was free a moment ago may have been taken, and then another is."""
        for _ in range(PORTS_TRIED):
            try:
                return self.daemon(id, **values).start(**(how or {}))
            except PortTaken:
                pass
        raise DaemonFault(f"{PORTS_TRIED} ports that were free are taken")

    def members(self, count, **values):
        """So many daemons that aren't started, each of which knows all others."""
        ports = dict(enumerate(free_ports(count), 1))
        others = lambda id: [it for it in ports.items() if it[0] != id]
        return [self.daemon(id, port, others(id), **values) for id, port in ports.items()]

    def group(self, count, **values):
        """So many daemons, each of which is told of all others when all are there: so nobody is judged who came
        late."""
        return introduced([self.daemon(id, port, **values).start() for id, port in enumerate(free_ports(count), 1)])

    def socket(self):
        it = udp_socket()
        self.sockets.append(it)
        return it
