"""Daemons whose journal files lie on a disk that hangs: nobody waits for it, and what becomes of the files is told."""

import itertools
import os
import re
import time

from tests.support.daemons import SECONDS, introduced, must, until
from tests.support.datagrams import PING, datagram
from tests.support.disks import disk, fill, hanging
from tests.support.journals import front, journals, must_play, told
from tests.support.parts import content
from tests.support.sayings import TIME, but_for_notices
from tests.swimd.daemon_journal_faults import told_faults
from tests.swimd.daemon_journals import MINUTE, filled, must_be_told
from tests.swimd.daemon_metrics import stats_of
from tests.swimd.daemon_patience import FEWER, must_be_whole
from tests.swimd.daemon_shortages import MOST_SECONDS, soon
from tests.swimd.daemon_starting import SHORT

JOURNAL, HANGS = 300, 4.0
# A period of a second.
TIMES = {"tick_ms": 20, "rtt": 10, "period": 50}
# So many files may wait for the disk.
MOST_FILES = 4
TOO_MANY = re.compile(
    TIME + rb" journal [^\n]*-(\d+)\.swim: too many files wait for their disk, lives without a file (\d+)\n"
)
# So many have more than a block of the disk.
FEW = 200
# The lines of so many lives have more than 8 KiB; each of these lives takes a tenth of a second.
MANY = 200
# Of so many lives behind those that were left out some are told.
LATER = 5
# So many seconds four lives may take.
MOST_TURNS = 30


class Pings:
    """Pings, and how long it ever took until one more was answered."""

    def __init__(self, machine, daemon):
        self.daemon, self.peer, self.numbers = daemon, machine.socket(), itertools.count(1)
        self.peer.setblocking(False)
        self.answered, self.longest = time.monotonic(), 0.0

    def go_on(self, seconds):
        end = time.monotonic() + seconds
        self.answered = time.monotonic()
        while time.monotonic() < end:
            self.peer.sendto(datagram(PING, 9, 9, self.daemon.id, next(self.numbers)), self.daemon.address)
            time.sleep(0.002)
            try:
                while self.peer.recv(100):
                    now = time.monotonic()
                    self.longest, self.answered = max(self.longest, now - self.answered), now
            except BlockingIOError:
                self.longest = max(self.longest, time.monotonic() - self.answered)


def a_disk_that_hangs_holds_up_nobody(machine):
    """Pings, ticks and operators are answered, nobody is judged, lives change, and `stop` ends them. Four files wait, and
    the lives behind them have none. Once the disk goes on each file is whole whose life isn't told as cut."""
    with disk(machine) as folder:
        if folder is None:
            return
        daemon = machine.daemon(1, **TIMES, fence=0, journal=JOURNAL, journal_dir=folder, journal_keep=0)
        daemon.may_be_cut = True
        # The datagram that meets a full journal is lost, so there is a relay.
        others = [machine.daemon(id, **TIMES) for id in (2, 3)]
        introduced([it.start() for it in (daemon, *others)])
        pings = Pings(machine, daemon)
        pings.go_on(0.5)
        with hanging(folder):
            before, began, lives = daemon.lives_so_far(), time.monotonic(), 0
            while time.monotonic() < began + HANGS or (lives <= MOST_FILES and time.monotonic() < began + SECONDS):
                pings.go_on(0.2)
                must(soon(daemon).endswith(b".\n") and soon(daemon, b"stats\n").endswith(b".\n"), "it isn't answered")
                must(set(daemon.states().values()) == {"up"}, f"it lists {daemon.states()}")
                for it in others:
                    must(it.states()[1] == "up", f"member {it.id} has judged it")
                lives = daemon.lives_so_far() - before
            must(lives > MOST_FILES, f"there are {lives} lives")
            must(pings.longest < MOST_SECONDS / 2, f"a ping is answered after {pings.longest:.2f} seconds")
            must(daemon.ask(b"stop\n") == b"stopping\n", "it doesn't stop")
            until(lambda: daemon.lives_so_far() and b"ended stopped" in daemon.read, "it ends", 2 * MOST_SECONDS)
            must(daemon.child.poll() is None, "the disk doesn't hang")
        closing = daemon.ended()
        must(closing.status == 0, f"it ended {closing}")
        for it in others:
            must(it.stop().status == 0, f"member {it.id} ended otherwise")
        must_have_waited(machine, daemon, closing, journals(folder))
        print(f"  in {lives} lives no ping was answered later than {pings.longest:.2f} seconds after the one before")


def must_have_waited(machine, daemon, closing, files):
    """The lives without a file are told, counted, and told as cut; each other one has its file, which is whole."""
    without = [(int(life), int(count)) for life, count in TOO_MANY.findall(daemon.told)]
    lives = [it[0] for it in without]
    must(lives and [it[1] for it in without] == list(range(1, len(lives) + 1)), f"lives without a file: {without}")
    must(daemon.cut == lives, f"told as cut are {daemon.cut}, and without a file {lives}")
    must(not set(lives) & {it.life for it in files}, f"of the lives {lives} there are files")
    must_be_told(daemon, closing, files)
    for it in files:
        must_play(machine.simulator, it.text, it.path)


def a_disk_that_hangs_for_a_moment(machine):
    """What waited is written when it goes on, in its order, and no life is told as cut."""
    with disk(machine) as folder:
        if folder is None:
            return
        daemon = machine.started(**TIMES, fence=0, journal=JOURNAL, journal_dir=folder, journal_keep=0)
        pings = Pings(machine, daemon)
        for _ in range(3):
            with hanging(folder):
                pings.go_on(0.5)
            pings.go_on(0.5)
        # A machine that has much to do takes longer for that many lives.
        for _ in range(MOST_TURNS):
            if daemon.lives_so_far() <= 3:
                pings.go_on(1)
        closing, files = daemon.stop(), journals(folder)
        must(closing.status == 0 and len(daemon.lives) > 3, f"it ended {closing}")
        must_be_told(daemon, closing, files)
        for it in files:
            must_play(machine.simulator, it.text, it.path)


def a_fault_that_comes_late(machine):
    """Where a disk that hung turns out to be full behind the end of a life, that is told then."""
    with disk(machine) as folder:
        if folder is None:
            return
        daemon = machine.started(tick_ms=MINUTE, fence=0, journal=FEW, journal_dir=folder, journal_keep=0)
        daemon.may_be_cut, peer = True, machine.socket()
        until(lambda: journals(folder) and journals(folder)[0].text, "its file is begun")
        fill(f"{folder}/ballast")
        with hanging(folder):
            filled(daemon, peer, 1)
            path = journals(folder)[0].path
        until(lambda: b"no space is left" in daemon.told_so_far(), "it is told", MOST_SECONDS)
        os.remove(f"{folder}/ballast")
        closing = daemon.stop()
        must(closing.status == 0 and 0 not in daemon.cut, f"it ended {closing}, with {daemon.cut} cut")
        must((path, "no space is left") in told_faults(daemon), f"it tells {told_faults(daemon)}")
        must_play(machine.simulator, front(journals(folder)[0].text), path)


def with_streams_in(folder, daemon):
    """Starts it with standard output and standard error in files of that folder."""
    with open(f"{folder}/out", "wb") as out, open(f"{folder}/err", "wb") as err:
        daemon.launch(stdout=out, stderr=err)
    until(daemon.answers, "it answers")
    return daemon


def lives_of(daemon):
    return stats_of(daemon)["swimd_lives_total", None]


def streams_on_a_disk_that_hangs(machine):
    """Standard output and standard error are files there: pings and operators are answered, lives change, and `stop`
    ends them. Once the disk goes on each line is there, and the program ends."""
    with disk(machine) as folder:
        if folder is None:
            return
        daemon = with_streams_in(folder, machine.daemon(1, **TIMES, fence=0, journal=JOURNAL))
        pings = Pings(machine, daemon)
        pings.go_on(0.5)
        with hanging(folder):
            pings.go_on(HANGS)
            must(pings.longest < MOST_SECONDS / 2, f"a ping is answered after {pings.longest:.2f} seconds")
            must(soon(daemon).endswith(b".\n"), "it isn't answered")
            lives = lives_of(daemon)
            must(lives > 2, f"there are {lives} lives")
            must(daemon.ask(b"stop\n") == b"stopping\n", "it doesn't stop")
            time.sleep(0.5)
            must(daemon.child.poll() is None, "the disk doesn't hang")
        must(daemon.child.wait(SECONDS) == 0, "it ended otherwise")
        out, err = content(f"{folder}/out"), content(f"{folder}/err")
        numbers = must_be_whole(out)
        must(len(numbers) >= lives - 1 and numbers == list(range(len(numbers))), f"of {lives} lives it tells {numbers}")
        must(b"\nended stopped " in out, f"it ends with {out[-300:]!r}")
        must(but_for_notices(err) == b"" and err.count(b" begins\n") == len(numbers) + 1, f"it tells {err!r}")
        print(f"  in {lives:.0f} lives no ping was answered later than {pings.longest:.2f} seconds after the last")


def streams_whose_disk_hangs_long(machine):
    """Where more lines wait than there is room for, each further one is left out whole, and counted."""
    with disk(machine) as folder:
        if folder is None:
            return
        daemon = with_streams_in(folder, machine.daemon(1, members=[(2, "10.0.0.2:7000")], **SHORT, journal_dir=None))
        with hanging(folder):
            until(lambda: lives_of(daemon) > MANY, f"{MANY} lives", 3 * SECONDS)
        lives = lives_of(daemon)
        until(lambda: content(f"{folder}/out"), "the disk goes on")
        until(lambda: lives_of(daemon) > lives + LATER, f"{LATER} lives more")
        must(daemon.ask(b"stop\n") == b"stopping\n", "it doesn't stop")
        must(daemon.child.wait(SECONDS) == 0, "it ended otherwise")
        out, err = content(f"{folder}/out"), content(f"{folder}/err")
        numbers, fewer = must_be_whole(out), FEWER.findall(err)
        must(len(numbers) < MANY, f"of {MANY} lives it tells {len(numbers)}")
        must(but_for_notices(err) == b"", f"it tells {err[-300:]!r}")
        must([int(it) for it in fewer] == [numbers[-1] + 1 - len(numbers)], f"of {numbers} it tells {fewer}")
        must(out.rsplit(b"\n", 2)[1].startswith(b"ended stopped "), f"it ends with {out[-300:]!r}")


DISKS = [
    a_disk_that_hangs_holds_up_nobody,
    a_disk_that_hangs_for_a_moment,
    a_fault_that_comes_late,
    streams_on_a_disk_that_hangs,
    streams_whose_disk_hangs_long,
]
