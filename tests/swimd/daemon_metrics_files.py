"""What becomes of a daemon's metrics' file where it can't be written."""

import os
import socket
import stat
import subprocess
import time

from tests.support.daemons import SECONDS, must, until
from tests.support.datagrams import PING, datagram
from tests.support.disks import disk, hanging
from tests.swimd.daemon_journal_faults import limited
from tests.swimd.daemon_metrics import AT_ONCE, MINUTE, PAUSE, counted, file_of, stats_of, written
from tests.swimd.daemon_starting import must_say, refusal, told_lines

# The file has more.
FEW_BYTES = 4_096
JOURNAL = 50
# How it begins, and what is told of something else at its path.
BEGINNING = "# HELP swimd_"
KEPT = "what lies there is no metrics file; it is kept"


def a_folder_that_is_gone(machine):
    """The daemon goes on, says so once, and goes on to count."""
    path = f"{machine.folder}/gone/1.prom"
    daemon = machine.started(members=[(2, "10.0.0.2:7000")], metrics=path)
    until(lambda: b"metrics " in daemon.told_so_far(), "it is told", AT_ONCE)
    until(lambda: daemon.states()[2] == "failed", "member 2 is judged")
    time.sleep(PAUSE + 1)
    stats = stats_of(daemon)
    told = stats["swimd_verdicts_total", None], stats["swimd_metrics_unwritten_total", None]
    must(told == (1, 2), f"it says {stats}")
    os.mkdir(os.path.dirname(path))
    must(daemon.stop().status == 0, "it ended otherwise")
    told = [it for it in told_lines(daemon, daemon.told) if it.startswith("metrics ")]
    must(told == [f"metrics {path}: no such file or folder"], f"it tells {told}")
    must(written(path)["swimd_verdicts_total", None] == 1, "once the folder is there, the file isn't written")


def a_file_for_all_to_read(machine):
    """Whatever the mask of the daemon, as that of the service is, and each time that it is written."""
    for id, mask in enumerate((0, 0o022, 0o077, 0o777), 1):
        path = f"{machine.folder}/{id}.prom"
        daemon = machine.started(id, how={"preexec_fn": lambda: os.umask(mask)}, tick_ms=MINUTE, metrics=path)
        written(path)
        first = stat.S_IMODE(os.stat(path).st_mode)
        must(daemon.stop().status == 0, "it ended otherwise")
        modes = first, stat.S_IMODE(os.stat(path).st_mode)
        must(modes == (0o644, 0o644), f"with mask {mask:o} it has the modes {modes}")


def a_disk_that_hangs(machine):
    """While the metrics wait for their disk, operators and members are answered, lives change, and the daemon stops. All
    is written once the disk goes on."""
    with disk(machine) as folder:
        if folder is None:
            return
        path, peer = f"{folder}/1.prom", machine.socket()
        with hanging(folder):
            daemon = machine.started(tick_ms=20, journal=JOURNAL, fence=0, metrics=path)
            for number in range(1, 5 * JOURNAL):
                peer.sendto(datagram(PING, 9, 9, 1, number), daemon.address)
                time.sleep(0.002)
            until(lambda: daemon.lives_so_far() > 2, "lives change", AT_ONCE)
            must(daemon.ask(b"list\n") == b".\n", "an operator isn't answered")
            must(not os.path.exists(path), "the disk doesn't hang")
            must(daemon.ask(b"stop\n") == b"stopping\n", "it doesn't stop")
            until(lambda: daemon.lives_so_far() and b"ended stopped" in daemon.read, "it ends", AT_ONCE)
        must(daemon.ended().status == 0, "it ended otherwise")
        must(written(path)["swimd_lives_total", None] > 2, "its last figures aren't written")


def must_be_unwritten(daemon, path, why):
    """Until its end it says once why there is no file, and goes on."""
    until(lambda: b"metrics " in daemon.told_so_far(), "it is told", AT_ONCE)
    must(daemon.stop().status == 0 and not os.path.exists(path), "half a file is there")
    told = [it for it in told_lines(daemon, daemon.told) if it.startswith("metrics ")]
    must(told == [f"metrics {path}: {why}"], f"it tells {told}")


def a_disk_that_is_full(machine):
    """It takes less than the file has."""
    folder = f"{machine.folder}/full"
    os.mkdir(folder)
    words = ["mount", "-t", "tmpfs", "-o", f"size={FEW_BYTES},mode=700", "tmpfs", folder]
    if os.getuid() != 0 or subprocess.run(words, capture_output=True, timeout=SECONDS).returncode:
        print("  not tried, since no file system may be mounted here")
        return
    try:
        path = f"{folder}/1.prom"
        must_be_unwritten(machine.started(tick_ms=MINUTE, metrics=path), path, "no space is left")
    finally:
        subprocess.run(["umount", "-l", folder], timeout=SECONDS)


def a_file_that_may_not_be_so_large(machine):
    path, how = f"{machine.folder}/1.prom", {"preexec_fn": lambda: limited(FEW_BYTES)}
    daemon = machine.started(how=how, tick_ms=MINUTE, metrics=path)
    must_be_unwritten(daemon, path, "the file would be too large")


def a_file(path, text="kept"):
    with open(path, "w", encoding="utf-8") as file:
        file.write(text)


def a_file_that_was_left(machine):
    """Where the new one is made: a whole one, a front of one, or one in which nothing stands. Nothing shows of it."""
    for id, text in enumerate((f"{BEGINNING}up One\n" * FEW_BYTES, BEGINNING, BEGINNING[:5], ""), 1):
        a_file(f"{machine.folder}/{id}.prom.new", text)
        daemon, path = counted(machine, id, tick_ms=MINUTE)
        written(path)
        must(stat.S_IMODE(os.lstat(path).st_mode) == 0o644, f"{os.lstat(path)}")
        must(daemon.stop().status == 0 and not os.path.lexists(f"{path}.new"), "it is left again")


def files_of_others(machine):
    """Where the new one is made, and at the path itself: they stay as they are, the configuration too."""
    for id, text in enumerate(("kept", "# HELP swims", "# HELP node_load1 x\n", "\n" + BEGINNING), 1):
        path = f"{machine.folder}/{id}.prom"
        a_file(f"{path}.new", text)
        must_be_unwritten(machine.started(id, tick_ms=MINUTE, metrics=path), path, "it exists already")
        must(file_of(f"{path}.new") == text, f"{path}.new has changed")
        os.rename(f"{path}.new", path)
        must_be_kept(machine.started(id, tick_ms=MINUTE, metrics=path), path)
        must(file_of(path) == text, f"{path} has changed")
    for more, path_of in ((0, lambda it: f"{machine.folder}/./{it.id}.toml"), (1, lambda it: it.file[:-len(".new")])):
        daemon = machine.daemon(7 + more, tick_ms=MINUTE)
        daemon.file += ".new" * more
        daemon.values["metrics"] = path_of(daemon)
        daemon.write()
        before = file_of(daemon.file)
        daemon.start()
        until(lambda: b"metrics " in daemon.told_so_far(), "it is told", AT_ONCE)
        must(daemon.stop().status == 0 and file_of(daemon.file) == before, "the configuration has changed")


def must_be_kept(daemon, path):
    """Until its end it says once that what lies there is kept, and goes on."""
    until(lambda: b"metrics " in daemon.told_so_far(), "it is told", AT_ONCE)
    must(daemon.stop().status == 0, "it ended otherwise")
    told = [it for it in told_lines(daemon, daemon.told) if it.startswith("metrics ")]
    must(told == [f"metrics {path}: {KEPT}"], f"it tells {told}")


def a_socket_by_another_name(machine):
    """The path of a socket in another spelling, or by a link to its folder: the socket stays, and is served."""
    os.symlink(machine.folder, f"{machine.folder}/here")
    for id, other in enumerate(("control", "events"), 1):
        for more, spelt in enumerate(("./", "here/", "../" + os.path.basename(machine.folder) + "/", "/")):
            daemon = machine.daemon(10 * id + more, tick_ms=MINUTE)
            daemon.values["events"] = f"{machine.folder}/{daemon.id}.events"
            path = f"{machine.folder}/{spelt}{os.path.basename(daemon.values[other])}"
            daemon.values["metrics"] = path
            daemon.write()
            daemon.start()
            until(lambda: b"metrics " in daemon.told_so_far(), "it is told", AT_ONCE)
            must(stat.S_ISSOCK(os.lstat(path).st_mode), f"{path} is no socket any more")
            must(daemon.states() == {}, "it isn't served")
            must_be_kept(daemon, path)


def what_is_no_file_is_in_its_way(machine):
    """Where the new one is made: it stays, no link is followed, and nobody waits at a pipe."""
    other, none = f"{machine.folder}/other", f"{machine.folder}/none"
    a_file(other)
    ways = [
        os.mkdir,
        os.mkfifo,
        lambda it: os.symlink(other, it),
        lambda it: os.symlink(none, it),
        lambda it: socket.socket(socket.AF_UNIX).bind(it),
    ]
    for id, make in enumerate(ways, 1):
        path = f"{machine.folder}/{id}.prom"
        make(f"{path}.new")
        kind = os.lstat(f"{path}.new").st_mode
        daemon = machine.started(id, tick_ms=MINUTE, metrics=path)
        must(stats_of(daemon), "it isn't asked")
        must_be_unwritten(daemon, path, "it exists already")
        must(os.lstat(f"{path}.new").st_mode == kind, f"{path}.new is something else now")
    must(file_of(other) == "kept" and not os.path.exists(none), "a link was followed")


def a_path_that_is_a_folder(machine):
    path = f"{machine.folder}/1.prom"
    os.mkdir(path)
    must_be_kept(machine.started(tick_ms=MINUTE, metrics=path), path)
    must(os.path.isdir(path), "the folder is gone")


def a_path_of_a_socket(machine):
    """A file would take the socket's place."""
    for other in ("control", "events"):
        daemon = machine.daemon(1, events=f"{machine.folder}/1.events")
        daemon.values["metrics"] = daemon.values[other]
        daemon.write()
        must_say(refusal(daemon).split(b"\n")[0] + b"\n", "configuration 6 metrics")


METRICS_FILES = [
    a_file_for_all_to_read,
    a_folder_that_is_gone,
    a_disk_that_is_full,
    a_disk_that_hangs,
    a_file_that_may_not_be_so_large,
    a_file_that_was_left,
    files_of_others,
    a_socket_by_another_name,
    what_is_no_file_is_in_its_way,
    a_path_that_is_a_folder,
    a_path_of_a_socket,
]
