"""Journal files that aren't whole: it is told at once, and `stats` and the metrics' file say so."""

import os
import subprocess
import time

from tests.support.daemons import ONE_ARENA, SECONDS, memory_of, must, until
from tests.support.datagrams import PING, datagram
from tests.support.disks import disk, fill, hanging
from tests.support.journals import front, journals, must_play, told
from tests.swimd.daemon_disks import FEW, JOURNAL, MOST_FILES, TIMES, TOO_MANY
from tests.swimd.daemon_journal_faults import told_faults
from tests.swimd.daemon_journals import MINUTE, filled, must_be_told, pinged
from tests.swimd.daemon_metrics import AT_ONCE, FILES_NAMES, NAMES, counted, file_of, parsed, stats_of, written
from tests.swimd.daemon_shortages import soon

OK, CUT = ("swimd_journal_file_ok", None), ("swimd_journal_files_cut_total", None)
SMALL_DISK = 16_384
LARGE = 1_000_000
# So many bytes of a file have room in memory, and a ping has at least so many of them.
ROOM_BYTES, PING_BYTES = 262_144, 80
PINGS_AT_A_TIME = 64
# What a daemon takes for four files.
FILES_BYTES, MOST_MORE = MOST_FILES * ROOM_BYTES, 65_536


def files_of(daemon):
    """Whether the newest life's file is whole so far, and how many lives have no whole one."""
    stats = stats_of(daemon)
    return stats[OK], stats[CUT]


def must_have_told(daemon, *wanted):
    """It tells these files and words, and nothing more of files, whatever it does until its end."""
    closing = daemon.stop()
    must(closing.status == 0, f"it ended {closing}")
    must(told_faults(daemon) == [*wanted], f"it tells {told_faults(daemon)}")
    return closing


def until_told(daemon, words, what):
    """At once, while the life goes on."""
    lives = daemon.lives_so_far()
    until(lambda: words in daemon.told_so_far(), what, AT_ONCE)
    must(daemon.lives_so_far() == lives, "it is told when the life ends")


def a_small_disk_that_is_full(machine):
    """It is told as soon as a write fails, and told once. The next life's file is whole, once there is room again."""
    folder = f"{machine.folder}/small"
    os.mkdir(folder)
    words = ["mount", "-t", "tmpfs", "-o", f"size={SMALL_DISK},mode=700", "tmpfs", folder]
    if os.getuid() != 0 or subprocess.run(words, capture_output=True, timeout=SECONDS).returncode:
        print("  not tried, since no file system may be mounted here")
        return
    try:
        full_and_empty(machine, folder)
    finally:
        subprocess.run(["umount", "-l", folder], timeout=SECONDS)


def full_and_empty(machine, folder):
    daemon, path = counted(machine, tick_ms=MINUTE, fence=0, journal=2 * SMALL_DISK // PING_BYTES, journal_dir=folder)
    daemon.may_be_cut, peer = True, machine.socket()
    pinged(peer, daemon, 1)
    until(lambda: files_of(daemon) == (1, 0), "its file is well", AT_ONCE)
    for number in range(2, SMALL_DISK // PING_BYTES + 20):
        pinged(peer, daemon, number)
    until_told(daemon, b": no space is left\n", "it is told that the disk is full")
    must(files_of(daemon) == (0, 1), f"it counts {files_of(daemon)}")
    first = journals(folder)[0]
    must_play(machine.simulator, front(first.text), first.path)
    os.remove(first.path)
    filled(daemon, peer, 1, SMALL_DISK)
    until(lambda: files_of(daemon) == (1, 1), "the next life's file is well", AT_ONCE)
    must_have_told(daemon, (first.path, "no space is left"))
    must(daemon.cut == [0] and (written(path)[OK], written(path)[CUT]) == (1, 1), f"it says {file_of(path)}")
    for it in journals(folder):
        must_play(machine.simulator, it.text, it.path)


def flooded(machine, daemon, bytes):
    """Has pings answered until what a journal file holds of them has so many bytes."""
    peer = machine.socket()
    for first in range(1, bytes // PING_BYTES, PINGS_AT_A_TIME):
        for number in range(first, first + PINGS_AT_A_TIME):
            peer.sendto(datagram(PING, 9, 9, daemon.id, number), daemon.address)
        for _ in range(PINGS_AT_A_TIME):
            peer.recv(100)


def a_disk_that_is_too_slow(machine):
    """A file that needs more room than there is is cut, and that is told while the disk hangs."""
    with disk(machine) as folder:
        if folder is None:
            return
        daemon, _ = counted(machine, tick_ms=MINUTE, fence=0, journal=LARGE, journal_dir=folder)
        daemon.may_be_cut = True
        until(lambda: journals(folder) and journals(folder)[0].text, "its file is begun")
        with hanging(folder):
            flooded(machine, daemon, ROOM_BYTES // 2)
            must(files_of(daemon) == (1, 0), f"half of the room is taken, and it counts {files_of(daemon)}")
            flooded(machine, daemon, ROOM_BYTES + SMALL_DISK)
            until_told(daemon, b": the disk is too slow\n", "it is told that the disk is too slow")
            must(files_of(daemon) == (0, 1), f"it counts {files_of(daemon)}")
            must(soon(daemon) == b".\n", "it isn't answered")
        file = journals(folder)[0]
        until(lambda: len(file.text) > ROOM_BYTES // 2, "what waited is written")
        closing = must_have_told(daemon, (file.path, "the disk is too slow"))
        must(daemon.cut == [0] and 0 < len(told(front(file.text))) < closing.entries, "nothing is missing")
        must_play(machine.simulator, front(file.text), file.path)


def lives_without_a_file_are_counted(machine):
    """Each once, and the file of the life that runs is none then."""
    with disk(machine) as folder:
        if folder is None:
            return
        daemon, _ = counted(machine, **TIMES, fence=0, journal=JOURNAL, journal_dir=folder, journal_keep=0)
        daemon.may_be_cut, peer = True, machine.socket()
        until(lambda: journals(folder), "its file is begun")
        with hanging(folder):
            filled(daemon, peer, MOST_FILES + 2)
            until(lambda: len(TOO_MANY.findall(daemon.told_so_far())) >= 2, "lives have no file", AT_ONCE)
            is_ok, cut = files_of(daemon)
            without = len(TOO_MANY.findall(daemon.told_so_far()))
            must((is_ok, cut) == (0, without), f"{without} lives have no file, and it counts {is_ok, cut}")
        closing = daemon.stop()
        must(closing.status == 0, f"it ended {closing}")
        must(len(daemon.cut) == len(TOO_MANY.findall(daemon.told)), f"the lives {daemon.cut} are cut")
        must_be_told(daemon, closing, journals(folder))


def a_late_fault_is_counted(machine):
    """A file that fails behind the line of its life; that of the life that runs is well."""
    with disk(machine) as folder:
        if folder is None:
            return
        daemon, _ = counted(machine, tick_ms=MINUTE, fence=0, journal=FEW, journal_dir=folder)
        daemon.may_be_cut, peer = True, machine.socket()
        until(lambda: journals(folder) and journals(folder)[0].text, "its file is begun")
        fill(f"{folder}/ballast")
        with hanging(folder):
            filled(daemon, peer, 1)
            first = journals(folder)[0].path
            must(files_of(daemon) == (1, 0), f"nothing is known yet, and it counts {files_of(daemon)}")
        until(lambda: first.encode() + b": no space is left\n" in daemon.told_so_far(), "it is told", AT_ONCE)
        must(files_of(daemon)[1] >= 1, f"it counts {files_of(daemon)}")
        os.remove(f"{folder}/ballast")
        must(daemon.stop().status == 0 and 0 not in daemon.cut, f"the lives {daemon.cut} are cut")


def ticks_go_on(machine):
    """A disk that hangs holds up no tick."""
    with disk(machine) as folder:
        if folder is None:
            return
        daemon, _ = counted(machine, **TIMES, fence=0, journal=LARGE, journal_dir=folder)
        until(lambda: journals(folder) and journals(folder)[0].text, "its file is begun")
        with hanging(folder):
            first, began = stats_of(daemon)["swimd_ticks_total", None], time.monotonic()
            time.sleep(2)
            ticks = stats_of(daemon)["swimd_ticks_total", None] - first
            wanted = (time.monotonic() - began) * 1_000 / TIMES["tick_ms"]
            must(0.9 * wanted < ticks, f"there are {ticks} ticks, and not {wanted:.0f}")
        must(daemon.stop().status == 0, "it ended otherwise")


def without_journal_files(machine):
    """Nothing is told of them."""
    daemon, path = counted(machine, tick_ms=MINUTE, journal_dir=None)
    written(path, names={it: NAMES[it] for it in NAMES if it not in FILES_NAMES})
    must(not {it for it, _ in stats_of(daemon)} & set(FILES_NAMES), "`stats` tells of files")
    must(daemon.stop().status == 0, "it ended otherwise")


def memory_of_files(machine):
    """With a folder for them a daemon takes 1 MiB more of the system, whether it is written to or not."""
    values = {"tick_ms": MINUTE, "journal": FEW, "events": None}
    held = []
    for id, folder in ((1, None), (2, machine.journals)):
        values["events"] = f"{machine.folder}/{id}.events"
        daemon = machine.started(id, {"env": {**os.environ, **ONE_ARENA}}, journal_dir=folder, **values)
        held.append(memory_of(daemon, "VmData"))
        must(daemon.stop().status == 0, "it ended otherwise")
    more = held[1] - held[0]
    must(FILES_BYTES <= more <= FILES_BYTES + MOST_MORE, f"it takes {more:,} bytes more")
    print(f"  with a folder for journal files a daemon takes {more:,} bytes more")


CUT_FILES = [
    a_small_disk_that_is_full,
    a_disk_that_is_too_slow,
    lives_without_a_file_are_counted,
    a_late_fault_is_counted,
    ticks_go_on,
    without_journal_files,
    memory_of_files,
]
