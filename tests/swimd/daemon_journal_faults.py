"""Journal files that can't be made or written: it is told, and nothing else of the daemon changes."""

import os
import re
import resource
import signal
import socket
import subprocess
import time

from tests.support.daemons import SECONDS, must, until
from tests.support.journals import front, in_one_folder, journals, must_play, told
from tests.support.sayings import TIME, first_line_of
from tests.swimd.daemon_journals import ROWS, filled, must_be_told, pinged
from tests.swimd.daemon_starting import NOBODY

MINUTE = 60_000
SECONDS_AHEAD = 4
TRIES = 5
# Users of whom nothing else runs. All threads of a user count where they are limited, and tests are run two at a time.
# So each test that limits them has a user of its own.
STRANGERS = {"callers": 54_321, "writer": 54_322}
# A file that may have so many bytes holds the header, and then some calls.
FEW_BYTES = 1_000
UNTOLD = re.compile(TIME + rb" journal ([^\n]*): ([^\n:]+)\n")


def told_faults(daemon):
    """What it told of files: pairs of a path and words."""
    return [(path.decode(), words.decode()) for path, words in UNTOLD.findall(daemon.told)]


def names_of(id, life, folder):
    """The paths of a life's file, whenever its daemon starts within the next seconds."""
    now = int(time.time())
    return [f"{folder}/{id}-{now + more}-{life}.swim" for more in range(SECONDS_AHEAD + 1)]


def with_something_there(machine, id, make):
    """A daemon at the name of whose first file something lies, through two lives: the next second names its files."""
    paths = names_of(id, 0, machine.journals)
    free = int(paths[-1].split("-")[-2]) + 1
    for it in paths:
        make(it)
    daemon, peer = machine.daemon(id, members=ROWS, tick_ms=MINUTE, journal=3), machine.socket()
    daemon.start()
    filled(daemon, peer, 1)
    pinged(peer, daemon, 10_000)
    closing = daemon.stop()
    must(closing.status == 0, f"it ended {closing}")
    files = [it for it in journals(machine.journals, id) if it.path not in paths]
    must([(it.seconds, it.life) for it in files] == [(free, 0), (free, 1)], f"its files are {files}, and not of {free}")
    must(told_faults(daemon) == [] and daemon.cut == [], f"it tells {told_faults(daemon)}, {daemon.cut}")
    must_be_told(daemon, closing, files)
    for it in files:
        must_play(machine.simulator, it.text, it.path)
    return paths


def a_file_that_is_there(machine):
    """It is never written over."""

    def make(path):
        with open(path, "w") as file:
            file.write("kept")

    for path in with_something_there(machine, 1, make):
        with open(path) as file:
            must(file.read() == "kept", f"{path} has changed")


def something_else_is_there(machine):
    """A pipe, a socket, a link and a folder aren't opened, and a link isn't followed."""
    target = f"{machine.folder}/target"
    with open(target, "w") as file:
        file.write("kept")

    def bound(path):
        with socket.socket(socket.AF_UNIX) as it:
            it.bind(path)

    makes = [os.mkfifo, bound, os.mkdir, lambda it: os.symlink(target, it),
             lambda it: os.symlink(f"{machine.folder}/none", it)]
    for id, make in enumerate(makes, 1):
        with_something_there(machine, id, make)
    with open(target) as file:
        must(file.read() == "kept", "a link was followed")
    must(not os.path.exists(f"{machine.folder}/none"), "a link was followed to where nothing was")


def through_lives(machine, daemon, count=3):
    """Starts a daemon whose files fail, and plays so many lives and a part of one: how it ended."""
    peer, daemon.may_be_cut = machine.socket(), True
    daemon.start()
    filled(daemon, peer, count)
    pinged(peer, daemon, 10_000)
    must(daemon.ask(b"list\n") == b"".join(b"%d %s up\n" % (id, at.encode()) for id, at in ROWS) + b".\n",
         "it lists others")
    closing = daemon.stop()
    must(closing[:2] == (0, "stopped") and closing.entries >= 1, f"it ended {closing}")
    return closing


def folders_that_take_nothing(machine):
    """None there, a file in its place or above it: each life says so once, and is told as cut."""
    file = f"{machine.folder}/file"
    with open(file, "w") as it:
        it.write("kept")
    folders = {f"{machine.folder}/none": "no such file or folder", file: "a part of the path is no folder"}
    folders[f"{file}/below"] = "a part of the path is no folder"
    for id, (folder, words) in enumerate(folders.items(), 1):
        daemon = machine.daemon(id, members=ROWS, tick_ms=MINUTE, journal=3, journal_dir=folder)
        through_lives(machine, daemon)
        said, lives = told_faults(daemon), list(range(len(daemon.lives) + 1))
        must(daemon.cut == lives, f"of the lives {lives} are cut {daemon.cut}")
        must([it[1] for it in said] == [words] * len(lives), f"it tells {said}")
        names = [re.fullmatch(rf"{re.escape(folder)}/{id}-\d+-(\d+)\.swim", it[0]) for it in said]
        must(all(names) and [int(it[1]) for it in names] == lives, f"it tells {said}")
    with open(file) as it:
        must(it.read() == "kept", "the file in the folder's place has changed")


def a_folder_of_others(machine):
    """Where this user may not write."""
    if os.getuid() != 0:
        print("  not tried, since it needs another user than this one")
        return
    os.chmod(machine.folder, 0o777)
    os.chmod(machine.journals, 0o755)
    daemon = machine.daemon(1, members=ROWS, tick_ms=MINUTE, journal=3)
    os.chmod(daemon.file, 0o644)
    daemon.may_be_cut = True
    daemon.start(preexec_fn=lambda: os.setuid(NOBODY))
    daemon.stop()
    must([it[1] for it in told_faults(daemon)] == ["permission denied"], f"it tells {daemon.told!r}")
    must(daemon.cut == [0] and not journals(machine.journals), f"the lives {daemon.cut} are cut")


def launched_with_threads(machine, most, user, id=1):
    """A daemon that is launched as another user, who may have so many threads."""

    def as_a_stranger():
        resource.setrlimit(resource.RLIMIT_NPROC, (most, most))
        os.setuid(STRANGERS[user])

    os.chmod(machine.folder, 0o777)
    os.chmod(machine.journals, 0o777)
    daemon = machine.daemon(id, members=ROWS, tick_ms=MINUTE, journal=9)
    os.chmod(daemon.file, 0o644)
    daemon.launch(preexec_fn=as_a_stranger)
    return daemon


def no_thread_for_a_caller(machine):
    """Where a thread is refused for the program itself, for the receiver, or after it for the ticker, the others end,
    and the daemon says that there was no memory. The one for the metrics, which is the third, is missed by nobody."""
    if os.getuid() != 0:
        print("  not tried, since it needs another user than this one")
        return
    closing = b"ended no memory entries 0 judged 0 unsent 0 wire 0 refused 0\n"
    for most, text in ((1, b""), (2, closing), (3, closing), (4, closing)):
        daemon = launched_with_threads(machine, most, "callers", id=most)
        stdout, stderr = daemon.child.communicate(timeout=SECONDS)
        found = stdout, first_line_of(stderr), daemon.child.returncode
        must(found == (text, b"no memory\n", 4), f"with {most} threads it ends as {found}")


def no_thread_for_the_writer(machine):
    """Where a sixth thread is refused, the whole file is written when the life ends."""
    if os.getuid() != 0:
        print("  not tried, since it needs another user than this one")
        return
    daemon, peer = launched_with_threads(machine, 5, "writer"), machine.socket()
    daemon.ready()
    number = filled(daemon, peer, 1)
    pinged(peer, daemon, number)
    threads = len(os.listdir(f"/proc/{daemon.child.pid}/task"))
    must(threads == 5, f"it has {threads} threads")
    time.sleep(0.3)
    must(told(journals(machine.journals)[-1].text) == [], "the file of a life is written while it lasts")
    closing, files = daemon.stop(), journals(machine.journals)
    must_be_told(daemon, closing, files)
    must(closing.status == 0 and closing.entries >= 1 and daemon.lives[0].entries == 9, f"it ended {closing}")
    for it in files:
        must_play(machine.simulator, it.text, it.path)


def a_folder_that_goes(machine):
    """What was opened is written on, wherever it lies; the next life is cut, and the one when it is back again
    isn't."""
    daemon, peer = machine.daemon(1, members=ROWS, tick_ms=MINUTE, journal=3), machine.socket()
    daemon.may_be_cut, moved = True, f"{machine.folder}/moved"
    daemon.start()
    pinged(peer, daemon, 1)
    os.rename(machine.journals, moved)
    number = filled(daemon, peer, 2, 2)
    os.mkdir(machine.journals)
    filled(daemon, peer, 3, number)
    pinged(peer, daemon, 10_000)
    closing = daemon.stop()
    cut = [it.life for it in journals(moved)], [it.life for it in journals(machine.journals)]
    must(cut == ([0], [it for it in range(1, len(daemon.lives) + 1) if it not in daemon.cut]),
         f"the lives {daemon.cut} are cut")
    must(daemon.cut and daemon.cut[0] == 1 and len(told_faults(daemon)) == len(daemon.cut),
         f"it tells {told_faults(daemon)}")
    must({it[1] for it in told_faults(daemon)} == {"no such file or folder"}, f"it tells {told_faults(daemon)}")
    must(closing.status == 0, f"it ended {closing}")
    for it in journals(moved) + journals(machine.journals):
        must_play(machine.simulator, it.text, it.path)


def limited(most):
    """No file may have more bytes than these. A write behind that is refused where the signal is ignored."""
    signal.signal(signal.SIGXFSZ, signal.SIG_IGN)
    resource.setrlimit(resource.RLIMIT_FSIZE, (most, most))


def a_file_that_takes_no_more(machine):
    """Up to there it is played; it is told once, when its life ends, and the daemon answers as ever."""
    daemon, peer = machine.daemon(1, members=ROWS, tick_ms=MINUTE, journal=60), machine.socket()
    daemon.may_be_cut = True
    daemon.start(preexec_fn=lambda: limited(FEW_BYTES))
    number = filled(daemon, peer, 2)
    pinged(peer, daemon, number)
    time.sleep(0.2)
    closing, files = daemon.stop(), journals(machine.journals)
    must(daemon.cut == [0, 1], f"the lives {daemon.cut} are cut")
    said = told_faults(daemon)
    must(said == [(it.path, "the file would be too large") for it in files[:2]], f"it tells {said}")
    must([it.entries for it in daemon.lives] == [60, 60] and closing.entries >= 1, f"its lives are {daemon.lives}")
    for it in files:
        must(len(it.text) <= FEW_BYTES and told(front(it.text)), f"{it.path} has {len(it.text)} bytes")
        must_play(machine.simulator, front(it.text), it.path)
    must(len(files[0].text) > FEW_BYTES // 2 and told(files[2].text), "files have less than they might")


def a_disk_that_is_full(machine):
    """Nothing more is written into that file, also where there is room again; the next life's file is whole."""
    words = ["mount", "-t", "tmpfs", "-o", "size=64k,mode=700", "tmpfs", machine.journals]
    if os.getuid() != 0 or subprocess.run(words, capture_output=True, timeout=SECONDS).returncode:
        print("  not tried, since no file system may be mounted here")
        return
    try:
        full_and_empty(machine)
    finally:
        subprocess.run(["umount", "-l", machine.journals], timeout=SECONDS)


def full_and_empty(machine):
    ballast, peer = f"{machine.journals}/ballast", machine.socket()
    daemon = machine.daemon(1, members=ROWS, tick_ms=MINUTE, journal=100)
    daemon.may_be_cut = True
    daemon.start()
    pinged(peer, daemon, 1)
    until(lambda: front(journals(machine.journals)[0].text), "the first call stands in its file")
    try:
        with open(ballast, "wb", buffering=0) as file:
            while True:
                file.write(bytes(1_024))
    except OSError:
        pass
    for number in range(2, 80):
        pinged(peer, daemon, number)
    time.sleep(0.3)
    before = journals(machine.journals)[0].text
    os.remove(ballast)
    number = filled(daemon, peer, 1, 80)
    must(journals(machine.journals)[0].text == before, "it is written into a file that had failed")
    pinged(peer, daemon, number)
    closing, files = daemon.stop(), journals(machine.journals)
    must(daemon.cut == [0] and told_faults(daemon) == [(files[0].path, "no space is left")],
         f"it tells {told_faults(daemon)}")
    must(0 < len(told(front(before))) < 79, "the disk wasn't full")
    must(len(told(files[1].text)) == closing.entries, "the next life's file isn't whole")
    must_play(machine.simulator, front(before), files[0].path)
    must_play(machine.simulator, files[1].text, files[1].path)


def two_in_one_folder(machine):
    """Daemons of two ids, of whom each has files of its own, and leaves those of the other."""
    peer, both = machine.socket(), [machine.started(id, tick_ms=MINUTE, journal=3, journal_keep=2) for id in (1, 11)]
    for it in both:
        filled(it, peer, 4)
    for it in both:
        it.stop()
        files = journals(machine.journals, it.id)
        must(len(files) == 2 and files[-1].life >= 4, f"of member {it.id} there stay {files}")


def twice_in_one_second(machine):
    """Two daemons of one id that start in one second: each has a file, whose second is that of the start, or the
    next."""
    for _ in range(TRIES):
        time.sleep(1.02 - time.time() % 1)
        second = int(time.time())
        both = [machine.daemon(1, control=f"{machine.folder}/{it}.sock", tick_ms=MINUTE, journal=3) for it in "ab"]
        for it, name in zip(both, "ab"):
            it.control, it.file = f"{machine.folder}/{name}.sock", f"{machine.folder}/{name}.toml"
            it.write()
            it.launch()
        for it in both:
            it.ready()
        is_one = int(time.time()) == second
        for it in both:
            pinged(machine.socket(), it, 1)
        ended = [(it.stop(), it.cut, told_faults(it)) for it in both]
        files = journals(machine.journals)
        if is_one:
            break
        for it in files:
            os.remove(it.path)
    must(is_one, "they never start in one second")
    must([(it.seconds, it.life) for it in files] == [(second, 0), (second + 1, 0)], f"their files are {files}")
    must(all(it == ((0, "stopped", 1, 0, 0, 0, 0), [], []) for it in ended), f"they ended {ended}")
    must([len(told(it.text)) for it in files] == [1, 1], "a file has another life's calls")


JOURNAL_FAULTS = [
    in_one_folder(it)
    for it in (
        a_file_that_is_there,
        something_else_is_there,
        folders_that_take_nothing,
        a_folder_of_others,
        no_thread_for_a_caller,
        no_thread_for_the_writer,
        a_folder_that_goes,
        a_file_that_takes_no_more,
        a_disk_that_is_full,
        two_in_one_folder,
        twice_in_one_second,
    )
]
