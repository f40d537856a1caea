"""Journal files of daemons: a file for each life, what stands in it and since when."""

import datetime
import itertools
import os
import random
import re
import stat
import subprocess
import sys
import threading
import time

from tests.support.daemons import ONE_ARENA, SECONDS, memory_of, must, until
from tests.support.datagrams import ACK, PING, datagram, fields
from tests.support.documents import code_in
from tests.support.journals import front, in_one_folder, journals, must_play
from tests.support.journals import must_verify, must_verify_each, told, written
from tests.support.sayings import TIME
from tests.swimd.daemon_groups import MOST_GROWTH, Answerer

MINUTE = 60_000
ROWS = [(102, "10.0.0.2:7000"), (103, "10.0.0.3:7000")]
JUDGED = re.compile(rb"^= \d+ started judged (\d+) probe \d+ (\d+)$", re.MULTILINE)
TICKS = {"k": 1, "rtt": 1, "period": 4, "tick_ms": 10}
# What a call may take to its file, and how far a comment's time may be off.
SOON, OFF = 0.5, 2.0
# What was answered so long before a daemon is killed stands in a file. A moment at which this machine itself, or its
# disk, was so late that nobody could write in time tells nothing of the daemon: another one takes its place.
BEFORE, LATE = 0.2, 0.05
KILLED, AT_ONCE, MOST_LATE = 50, 5, 100
LIVES = 40


def pinged(peer, daemon, number):
    """Sends a ping, takes what comes up to its ack, and says what a file has to tell of the ping."""
    text, wanted = datagram(PING, 9, 9, daemon.id, number), (ACK, daemon.id, 9, daemon.id, number)
    peer.sendto(text, daemon.address)
    until(lambda: fields(peer.recv(100)) == wanted, f"ping {number} is answered")
    return b"hear 127.0.0.1:%d %s\n" % (peer.getsockname()[1], text.hex().encode())


def filled(daemon, peer, lives, first=1):
    """Sends pings until so many lives have ended: the one that meets a full journal is in no life, and isn't
    answered."""
    numbers = itertools.count(first)
    peer.settimeout(0.2)

    def are_over():
        peer.sendto(datagram(PING, 9, 9, daemon.id, next(numbers)), daemon.address)
        try:
            peer.recv(100)
        except OSError:
            pass
        return daemon.lives_so_far() >= lives

    until(are_over, f"{lives} lives", 3 * SECONDS)
    peer.settimeout(SECONDS)
    return next(numbers)


def must_be_told(daemon, closing, files):
    """Each life that isn't told as cut has one file, which holds as many answers as the line of the life tells
    entries."""
    entries = dict(enumerate([*(it.entries for it in daemon.lives), closing.entries]))
    wanted = {life: count for life, count in entries.items() if life not in daemon.cut}
    found = {it.life: len(told(it.text)) for it in files if it.life not in daemon.cut}
    # Where a life that is full is told to stop, the last line is of none.
    is_none = closing.entries == 0 and len(daemon.lives) not in found
    unlike = [(it, wanted.get(it), found.get(it)) for it in {*wanted, *found} if wanted.get(it) != found.get(it)]
    must(unlike == [] or (is_none and unlike == [(len(daemon.lives), 0, None)]),
         f"lives with their entries, and those of files: {unlike[:9]}")
    must(len({it.seconds for it in files}) == 1,
         f"the lives of one daemon began at {[it.seconds for it in files][:20]}")


def header(daemon, members, life, last):
    """The lines that stand in front, after the configuration and what is known when the life begins."""
    it = daemon.values
    numbers = [it["id"], it["k"], it["rtt"], it["period"], last, it["journal"]]
    rows = [f"row {id} {at}" for id, at in members]
    version = ["wire 2"] * (it.get("wire") == 2)
    return ["journal 1", "open " + " ".join(map(str, numbers)), *version, *rows, f"seed {it['seed']} {life}"]


def each_life_has_a_file(machine):
    """Of its name, its owner's alone whatever the mask, with the header of its life, and played without a
    difference."""
    for id, (mask, version) in enumerate(((0, {}), (0o022, {"wire": 2}), (0o077, {"wire": 1})), 1):
        before, peer = int(time.time()), machine.socket()
        how = {"preexec_fn": lambda: os.umask(mask)}
        daemon = machine.started(id, how=how, members=ROWS[: id - 1], last=7, tick_ms=MINUTE, journal=5, **version)
        after = int(time.time())
        filled(daemon, peer, 3)
        closing, files = daemon.stop(), journals(machine.journals, id)
        must_be_told(daemon, closing, files)
        for it in files:
            must(stat.S_IMODE(os.stat(it.path).st_mode) == 0o600, f"with mask {mask:o} {it.path} has another mode")
            must(before <= it.seconds <= after, f"{it.path} is of a start between {before} and {after}")
            must(it.header == header(daemon, daemon.members, it.life, 7), f"{it.path} begins with {it.header}")
            ran = subprocess.run([machine.simulator, it.path], capture_output=True, timeout=SECONDS)
            must((ran.returncode, ran.stderr) == (0, b""),
                 f"{it.path} is played with status {ran.returncode}, {ran.stderr!r}")
            must_play(machine.simulator, re.sub(rb"^#.*\n", b"", it.text, flags=re.MULTILINE),
                      f"{it.path} without comments")


def each_kind_of_call_is_told(machine):
    """Ticks, datagrams, joins and removals, also refused ones, in their order; what makes no entry isn't told."""
    daemon, peer = machine.started(members=ROWS, tick_ms=MINUTE), machine.socket()
    lines = [pinged(peer, daemon, 1)]
    peer.sendto(b"none", daemon.address)
    lines.append(pinged(peer, daemon, 2))
    answers = daemon.ask(b"join 4 10.0.0.4:7000\njoin 102 1.2.3.4:5\nremove 4\nremove 9\nlist\ngap 102\nfault\n")
    closing, (file,) = daemon.stop(), journals(machine.journals)
    place = re.match(rb"(joined \d)\nrefused 2\nremoved\nrefused 4\n", answers)
    must(place, f"the lines are answered {answers!r}")
    asked = [b"join 4 10.0.0.4:7000\n", b"join 102 1.2.3.4:5\n", b"remove 4\n", b"remove 9\n"]
    wanted = [*zip(lines, [b"sent"] * 2), *zip(asked, [place[1], b"refused 2", b"removed", b"refused 4"])]
    calls = b"".join(b"%s= %d %s\n" % (line, at, answer) for at, (line, answer) in enumerate(wanted))
    must(file.text.endswith(calls) and file.text.count(b"\n= ") == len(wanted), f"the file is {file.text!r}")
    must(closing == (0, "stopped", len(wanted), 0, 0, 1, 0), f"it ended {closing}")


def a_life_begins_with_what_was_left(machine):
    """The rows of a file tell who was up or failed when its life began, and the opening the last number that was
    used."""
    third = Answerer(machine.socket(), 3, lambda *_: True)
    silent = machine.socket().getsockname()[1]
    daemon = machine.started(members=[(2, silent), (3, third.port)], **{**TICKS, "k": 0, "tick_ms": 30}, journal=60)
    until(lambda: daemon.lives_so_far() >= 3, "three lives")
    state = daemon.table()[2].state
    closing, files = daemon.stop(), journals(machine.journals)
    must_be_told(daemon, closing, files)
    must(re.fullmatch(r"failed [12]", state), f"a member that never answers is {state}")
    peers, failed, last = {2: f"127.0.0.1:{silent}", 3: f"127.0.0.1:{third.port}"}, {}, 0
    for it in files:
        rows = [(id, peer + (f" failed {failed[id]}" if id in failed else "")) for id, peer in peers.items()]
        wanted = header(daemon, rows, it.life, last)
        must(sorted(it.header) == sorted(wanted), f"life {it.life} begins with {it.header}, and not {wanted}")
        # A busy machine may have kept the third from answering: then the file tells its verdict, too.
        failed.update((int(id), int(number) - 1) for id, number in JUDGED.findall(it.text))
        last = max([last, *(int(number) for number in re.findall(rb"^= \d+ started .* (\d+)$", it.text, re.MULTILINE))])
        must_play(machine.simulator, it.text, it.path)
    must(state == f"failed {failed.get(2)}", f"the silent member is {state}, and its file tells {failed}")
    must_verify(machine.simulator, *files)
    swapped = subprocess.run([machine.simulator, "--verify", files[2].path, files[1].path], capture_output=True,
                             timeout=SECONDS)
    must(swapped.returncode == 1 and b"does not follow" in swapped.stderr, f"two lives that are swapped: {swapped}")


def restarts_are_verified_together(machine):
    """The files of a daemon that was killed and started again: each start is told, and nothing speaks against any."""
    peer = machine.socket()
    for _ in range(3):
        daemon = machine.started(members=ROWS, tick_ms=MINUTE, journal=5)
        filled(daemon, peer, 2)
        daemon.kill()
    files = journals(machine.journals)
    firsts = [it.path.encode() for it in files if it.life == 0]
    must(len(firsts) == 3 and len(files) >= 9, f"three starts of three lives left {[it.path for it in files]}")
    must_verify(machine.simulator, *files)
    ran = subprocess.run([machine.simulator, "--verify", *(it.path for it in files)], capture_output=True,
                         timeout=SECONDS)
    found = re.findall(rb"^(.*): a new start$", ran.stdout, re.MULTILINE)
    must(found == firsts[1:], f"of the starts {firsts} it tells {found}")


def probed_for_a_while(machine, **more):
    """When pings came in, by their numbers, at a member that answers them; when its daemon began; and the lines of the
    daemon's file."""
    member, arrivals = machine.socket(), {}
    began = time.time()
    daemon = machine.started(members=[(2, member.getsockname()[1])], k=0, rtt=1, period=3, tick_ms=100, **more)
    while time.time() < began + 3:
        number = fields(member.recv(100))[4]
        arrivals[number] = time.time()
        member.sendto(datagram(ACK, 2, 1, 2, number), daemon.address)
    daemon.stop()
    return arrivals, began, journals(machine.journals)[0].text.decode().splitlines()


def starts_of(lines):
    """The places of the lines of started periods. Behind each stands a comment, and elsewhere none but the first."""
    started = [at for at, line in enumerate(lines) if re.match(r"= \d+ started", line)]
    must({at for at, line in enumerate(lines) if line.startswith("#")} == {1, *(at + 1 for at in started)},
         "comments stand elsewhere")
    return started


def comments_tell_the_time(machine):
    """Behind the first line the program, its version and the time; behind each started period the seconds, and nowhere
    else."""
    arrivals, began, lines = probed_for_a_while(machine)
    version = subprocess.run([machine.program, "--version"], capture_output=True, text=True,
                             timeout=SECONDS).stdout.strip()
    found = re.fullmatch(rf"# {re.escape(version)} ({TIME.decode()})", lines[1])
    must(found, f"behind the first line stands {lines[1]!r}, and the version is {version!r}")
    at = datetime.datetime.strptime(found[1], "%Y-%m-%dT%H:%M:%S.%fZ").replace(tzinfo=datetime.timezone.utc).timestamp()
    must(abs(at - began) < OFF, f"the file is of {at}, and the daemon began at {began}")
    times = {int(lines[at].split()[-1]): int(lines[at + 1][2:]) for at in starts_of(lines)}
    off = [times[number] - at for number, at in arrivals.items()]
    must(len(off) >= 5 and all(abs(it) < OFF for it in off), f"the times of periods are off by {off}")


def comments_tell_milliseconds(machine):
    """With `journal_ms = 1` each of these times has three digits behind a point. Those of successive periods are a period
    apart, which whole seconds couldn't tell."""
    arrivals, _, lines = probed_for_a_while(machine, journal_ms=1)
    told = {int(lines[at].split()[-1]): lines[at + 1] for at in starts_of(lines)}
    must(all(re.fullmatch(r"# (0|[1-9]\d*)\.\d{3}", it) for it in told.values()), f"comments are {told}")
    must(len({it[-3:] for it in told.values()}) > 2, f"the milliseconds of all are alike: {told}")
    times = {number: float(it[2:]) for number, it in told.items()}
    off = [times[number] - at for number, at in arrivals.items()]
    must(len(off) >= 5 and all(abs(it) < OFF for it in off), f"the times of periods are off by {off}")
    apart = sorted(times[number + 1] - times[number] for number in times if number + 1 in times)
    must(apart and 0.2 < apart[len(apart) // 2] < 0.4, f"periods of 0.3 s are {apart} apart")


def a_verdict_tells_milliseconds(machine):
    """The line of a judgement has the time of its probe as the comment has it."""
    daemon = machine.started(members=[(2, 9)], k=0, rtt=1, period=3, tick_ms=20, journal_ms=1)
    until(lambda: "failed" in daemon.states().values(), "member 2 is judged")
    daemon.stop()
    file = journals(machine.journals)[0]
    ran = subprocess.run([machine.simulator, "--verify", file.path], capture_output=True, text=True, timeout=SECONDS)
    found = re.search(r"^judged 2 in period (\d+): probed at entry (\d+) \((\d+\.\d{3})\),", ran.stdout, re.MULTILINE)
    must(ran.returncode == 0 and found, f"it tells {ran}")
    number, entry, told = found.groups()
    line = f"\n= {entry} started judged - probe 2 {number}\n# {told}\n".encode()
    must(line in file.text, f"{line!r} isn't in the file")


def a_call_is_soon_in_its_file(machine):
    """While the daemon goes on, and the next tick is a minute away."""
    daemon, peer, longest = machine.started(members=ROWS, tick_ms=MINUTE), machine.socket(), 0.0
    for number in range(1, 11):
        line = pinged(peer, daemon, number)
        began = time.monotonic()
        written(machine.journals, line + b"= %d sent\n" % (2 * number - 2), SOON)
        must(daemon.ask(b"remove 9\n") == b"refused 4\n", "it doesn't go on")
        written(machine.journals, b"remove 9\n= %d refused 4\n" % (2 * number - 1), SOON)
        longest = max(longest, time.monotonic() - began)
    print(f"  two calls are in their file within {longest * 1000:.0f} milliseconds")
    must(daemon.stop().entries == 20, "it made other entries")


def a_player_of_ones_own(machine):
    """The program that stands in docs/CHECKING.md plays the files of such a daemon, and refuses each with another
    answer in it."""
    player, other = f"{machine.folder}/player.py", f"{machine.folder}/other.swim"
    with open(player, "w") as file:
        file.write(code_in("CHECKING.md"))
    daemon = machine.started(members=[(2, machine.socket().getsockname()[1])], k=0, rtt=1, period=3, tick_ms=5,
                             journal=30)
    until(lambda: daemon.lives_so_far() >= 2, "two lives")
    daemon.stop()
    for it in journals(machine.journals):
        with open(other, "wb") as file:
            file.write(it.text.replace(b" quiet\n", b" heard\n", 1))
        ran = [subprocess.run([sys.executable, player, path], capture_output=True, timeout=SECONDS)
               for path in (it.path, other)]
        statuses = [one.returncode for one in ran]
        must(statuses == [0, int(b" quiet\n" in it.text)], f"{it.path} is played with the statuses {statuses}: {ran}")


class Pinger(threading.Thread):
    """Pings a daemon that lives and dies, and notes when each ping was answered."""

    def __init__(self, machine, daemon):
        super().__init__(daemon=True)
        self.socket, self.daemon_pinged, self.answered, self.is_over = machine.socket(), daemon, {}, False
        self.socket.settimeout(0.05)

    def run(self):
        for number in range(1, 10**6):
            if self.is_over:
                return
            text = datagram(PING, 9, 9, self.daemon_pinged.id, number)
            self.socket.sendto(text, self.daemon_pinged.address)
            try:
                while fields(self.socket.recv(100))[4] != number:
                    pass
                self.answered[text.hex()] = time.monotonic()
            except OSError:
                pass
            time.sleep(0.002)


class Clock(threading.Thread):
    """Sleeps a hundredth of a second again and again, and has the disk of this folder keep a byte. It notes how much
    longer each of these sleeps was, and how long the disk took: while that keeps one file, no other is written."""

    def __init__(self, folder):
        super().__init__(daemon=True)
        self.path, self.late, self.is_over = f"{folder}/clock", [], False

    def run(self):
        with open(self.path, "wb", buffering=0) as file:
            while not self.is_over:
                began = time.monotonic()
                time.sleep(0.01)
                slept = time.monotonic()
                self.late.append((slept, slept - began - 0.01))
                file.write(b".")
                os.fsync(file.fileno())
                now = time.monotonic()
                self.late.append((now, now - slept))

    def lateness(self, since, until):
        """The most that it was late in that time, or in a sleep or a wait for the disk that reached into it."""
        return max((late for at, late in list(self.late) if since <= at and at - late <= until), default=0.0)


def killed_at_once(machine, ids, r):
    """Kills each of these at a moment of its own: by its id the pings that it answered, with the seconds before that,
    and how late the machine was meanwhile."""
    daemons = [machine.daemon(id, members=ROWS, journal=r.choice([5, 40, 1_000]), **TICKS) for id in ids]
    pingers, clock = {it.id: Pinger(machine, it) for it in daemons}, Clock(machine.folder)
    for it in daemons:
        it.launch()
    clock.start()
    for it in daemons:
        it.ready()
        pingers[it.id].start()
    began, moments, killed = time.monotonic(), {}, {}
    for moment, daemon in sorted(((r.uniform(0.2, 0.8), it) for it in daemons), key=lambda it: it[0]):
        time.sleep(max(0.0, began + moment - time.monotonic()))
        moments[daemon.id] = time.monotonic()
        daemon.kill()
    for it in [*pingers.values(), clock]:
        it.is_over = True
        it.join(SECONDS)
    for id, at in moments.items():
        ages = {text: at - when for text, when in pingers[id].answered.items()}
        killed[id] = ages, clock.lateness(at - 2 * BEFORE, at)
    return killed


def killed_at_any_moment(machine):
    """What was answered some time before stands in a file, and each file is played up to its last answer."""
    r, count, latest, late, ids = random.Random(time.time_ns()), 0, [], [], itertools.count(1)
    while len(latest) < KILLED:
        for id, (ages, lateness) in killed_at_once(machine, list(itertools.islice(ids, AT_ONCE)), r).items():
            files = [it.text for it in journals(machine.journals, id)]
            there = set(re.findall(r"^hear \S+ ([0-9a-f]+)\n= \d+ sent\n", b"".join(files).decode(), re.MULTILINE))
            since = max((age for text, age in ages.items() if text not in there), default=0.0)
            must(since < BEFORE or lateness >= LATE,
                 f"a call lacks that was answered {since:.2f} s before, at a lateness of {lateness:.2f} s")
            (late if lateness >= LATE else latest).append(since)
            must(all(front(it) for it in files[:-1]), "a life that ended left a file without an answer")
            count += len(there & set(ages))
        must(len(late) <= MOST_LATE, f"this machine was late by {LATE} s and more at {len(late)} moments")
    files = [it for it in journals(machine.journals) if front(it.text)]
    must_verify_each(machine.simulator, files[:: max(1, len(files) // 100)])
    said = f"of {len(latest)} daemons that were killed {len(files)} files are left, with {count} pings"
    print(f"  {said}; lacking since {max(latest):.2f} s at most; {len(late)} moments more didn't count")
    must(count > KILLED, f"the files have {count} pings")


def many_lives_quickly(machine):
    """No file is lost, no descriptor stays open, and memory doesn't grow."""
    peer, how = machine.socket(), {"env": {**os.environ, **ONE_ARENA}}
    for id, limit in ((1, 1), (2, 10)):
        daemon = machine.started(id, how=how, members=ROWS, tick_ms=MINUTE, journal=limit)
        number, found = 1, []
        for lives in (LIVES // 2, LIVES):
            number = filled(daemon, peer, lives, number)
            daemon.table()
            found.append((len(os.listdir(f"/proc/{daemon.child.pid}/fd")), memory_of(daemon)))
        closing = daemon.stop()
        files = journals(machine.journals, id)
        must_be_told(daemon, closing, files)
        must(found[0][0] == found[1][0],
             f"with journals of {limit} descriptors were {found[0][0]}, and are {found[1][0]}")
        must(found[1][1] < found[0][1] + MOST_GROWTH,
             f"with journals of {limit} memory was {found[0][1]:,}, and is {found[1][1]:,}")


JOURNALS = [
    in_one_folder(it)
    for it in (
        each_life_has_a_file,
        each_kind_of_call_is_told,
        a_life_begins_with_what_was_left,
        restarts_are_verified_together,
        comments_tell_the_time,
        comments_tell_milliseconds,
        a_verdict_tells_milliseconds,
        a_call_is_soon_in_its_file,
        a_player_of_ones_own,
        killed_at_any_moment,
        many_lives_quickly,
    )
]
