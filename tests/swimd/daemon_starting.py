"""How a daemon starts: what it tells on standard error, why it is refused, and what it does about a socket that was
left."""

import datetime
import fcntl
import os
import re
import socket
import stat
import subprocess
import time

from tests.support.daemons import SECONDS, must, until
from tests.support.sayings import TIME, but_for_notices, but_for_warnings

MINUTE = 60_000
NOBODY = 65_534
ENDED = b"ended stopped entries 0 judged 0 unsent 0 wire 0 refused 0\n"
SHORT = {"k": 0, "rtt": 1, "period": 3, "tick_ms": 1, "journal": 20}
MOST_STARTS = 20
LIVES = 30


def refusal(daemon, **how):
    """What it says on standard error beside warnings, where it ends at once with status 5 or 1, and writes nothing on
    standard output."""
    daemon.launch(is_clean=False, **how)
    stdout, stderr = daemon.child.communicate(timeout=SECONDS)
    must(
        stdout == b"" and daemon.child.returncode in (1, 5), f"it ended {daemon.child.returncode}, and wrote {stdout!r}"
    )
    return but_for_warnings(stderr)


def must_say(found, *lines):
    wanted = "".join(f"{line}\n" for line in lines).encode()
    must(found == wanted, f"it says {found!r}, and not {wanted!r}")


def told_lines(daemon, text):
    """The lines of notices, without their times, each of which has to be the time of now."""
    lines = []
    for line in (it for it in text.decode().splitlines() if not it.startswith("warning: ")):
        found = re.fullmatch(rf"({TIME.decode()}) (.*)", line)
        must(found, f"member {daemon.id} tells {line!r}")
        at = datetime.datetime.strptime(found[1], "%Y-%m-%dT%H:%M:%S.%fZ").replace(tzinfo=datetime.timezone.utc)
        age = datetime.datetime.now(datetime.timezone.utc) - at
        must(abs(age.total_seconds()) < SECONDS, f"the time of {line!r} is {age} ago")
        lines.append(found[2])
    return lines


def listens(daemon, members=0):
    values = daemon.values
    period = values["period"] * values["tick_ms"]
    return (
        f"swimd 1.0 listens id {daemon.id} address {values['listen']} control {values['control']} "
        f"members {members} period_ms {period}"
    )


def a_start_is_told(machine):
    """One line when it listens, one when its life begins; standard output is as ever."""
    daemon = machine.started(members=[(2, "10.0.0.2:7000"), (3, "10.0.0.3:7000")], tick_ms=MINUTE)
    closing = daemon.stop()
    must(closing == (0, "stopped", 0, 0, 0, 0, 0), f"it ended {closing}")
    lines = told_lines(daemon, daemon.told)
    must(lines == [listens(daemon, 2), "life 0 begins"], f"it tells {lines}")


def each_life_is_told(machine):
    daemon = machine.started(members=[(2, "10.0.0.2:7000")], **SHORT)
    until(lambda: daemon.lives_so_far() >= 5, "five lives")
    must(daemon.stop().status == 0, "it ended otherwise")
    lines = [it for it in told_lines(daemon, daemon.told) if not it.startswith("judged ")]
    lives = [f"life {number} begins" for number in range(len(lines) - 1)]
    must(lines == [listens(daemon, 1), *lives], f"it tells {lines[:9]}")
    must(
        len(lives) in (len(daemon.lives), len(daemon.lives) + 1),
        f"{len(lives)} lives are told, {len(daemon.lives)} were full",
    )


def warnings_stand_before_a_start(machine):
    """Those of `check`, before the first notice, and where it is quiet, too: of one member and a period of three, a
    round has five entries and two. No relay is asked, so it isn't warned of version 1."""
    warning = b"warning: journal 20 is shorter than three rounds, which take 21 entries\n"
    warning += b"warning: rejoin is 0, so that only an operator's join brings a failed member back\n"
    for words in ([], ["--quiet"]):
        daemon = machine.started(how={"words": words}, members=[(2, "10.0.0.2:7000")], **{**SHORT, "tick_ms": MINUTE})
        must(daemon.stop().status == 0, "it ended otherwise")
        notices = daemon.told[len(warning) :]
        must(daemon.told.startswith(warning) and b"warning" not in notices, f"with {words} it tells {daemon.told!r}")
        must(bool(notices) == (not words), f"with {words} it tells {daemon.told!r}")


def a_quiet_start(machine):
    """Nothing but that a stale socket was removed."""
    daemon = machine.started(tick_ms=MINUTE)
    daemon.kill()
    daemon.launch(words=["--quiet"], is_clean=False)
    must(daemon.ready().stop().status == 0, "it ended otherwise")
    lines = told_lines(daemon, daemon.told)
    must(lines == [f"removed {daemon.control}: a socket that nobody served"], f"it tells {lines}")


def causes_of_listening(machine):
    first = machine.started(1, tick_ms=MINUTE)
    must_say(refusal(machine.daemon(2, first.port)), "bind listen", f"  127.0.0.1:{first.port}: address in use")
    elsewhere = machine.daemon(3, listen="192.0.2.1:7000")
    must_say(refusal(elsewhere), "bind listen", "  192.0.2.1:7000: no address of this machine")
    must(first.states() == {} and first.stop().status == 0, "the first daemon is disturbed")


def causes_of_files(machine):
    daemon = machine.daemon(1)
    os.remove(daemon.file)
    must_say(refusal(daemon), "configuration file", f"  {daemon.file}: no such file or folder")
    os.mkdir(daemon.file)
    must_say(refusal(daemon), "configuration file", f"  {daemon.file}: it is a folder")
    if os.getuid() == 0:
        closed = machine.daemon(2)
        os.chmod(closed.file, 0o600)
        os.chmod(machine.folder, 0o755)
        said = refusal(closed, preexec_fn=lambda: os.setuid(NOBODY))
        must_say(said, "configuration file", f"  {closed.file}: permission denied")


def causes_of_paths(machine):
    """What stands at the control path and is no socket is kept as it is, a link to a socket too."""
    no_folder = machine.daemon(1, control=f"{machine.folder}/no/folder.sock")
    must_say(refusal(no_folder), "bind control", f"  {machine.folder}/no/folder.sock: no such file or folder")
    kept = "  what stands there is no socket; it is kept"
    file, folder = machine.daemon(2), machine.daemon(3)
    with open(file.control, "w") as it:
        it.write("kept")
    must_say(refusal(file), "bind control", f"  {file.control}: address in use", kept)
    with open(file.control) as it:
        must(it.read() == "kept", "a file at the control path has changed")
    os.mkdir(folder.control)
    must_say(refusal(folder), "bind control", f"  {folder.control}: address in use", kept)
    must(os.path.isdir(folder.control), "a folder at the control path is gone")
    stale = machine.started(4, tick_ms=MINUTE)
    stale.kill()
    link = machine.daemon(5)
    os.symlink(stale.control, link.control)
    must_say(refusal(link), "bind control", f"  {link.control}: address in use", kept)
    must(
        os.path.islink(link.control) and os.path.exists(stale.control),
        "a link at the control path, or its socket, is gone",
    )


def a_path_that_is_forbidden(machine):
    """Where this user may not write, nothing is removed, and a person is told to."""
    if os.getuid() != 0:
        print("  not tried, since it needs another user than this one")
        return
    stale = machine.started(1, tick_ms=MINUTE)
    stale.kill()
    os.chmod(machine.folder, 0o755)
    os.chmod(stale.control, 0o777)
    os.chmod(stale.file, 0o644)
    as_nobody = {"preexec_fn": lambda: os.setuid(NOBODY)}
    remove = "  nobody serves this socket; remove it"
    must_say(refusal(stale, **as_nobody), "bind control", f"  {stale.control}: address in use", remove)
    must(os.path.exists(stale.control), "a socket is gone that this user may not remove")
    fresh = machine.daemon(2)
    os.chmod(fresh.file, 0o644)
    must_say(refusal(fresh, **as_nobody), "bind control", f"  {fresh.control}: permission denied")


def a_path_that_is_served(machine):
    """Both go on: the one that is refused says so, and the other answers as before."""
    first = machine.started(1, members=[(2, "10.0.0.2:7000")], tick_ms=MINUTE)
    served = "  somebody serves this socket; it is kept"
    second = machine.daemon(2, control=first.control, tick_ms=MINUTE)
    second.control = first.control
    before = os.stat(first.control)
    must_say(refusal(second), "bind control", f"  {first.control}: address in use", served)
    must(os.path.samestat(before, os.stat(first.control)), "the path of the first daemon is another one now")
    must(first.states() == {2: "up"} and first.stop().status == 0, "the first daemon is disturbed")


def one_path_for_two_sockets(machine):
    """In two spellings: the events' socket is opened first, so somebody serves the control path, and it is kept."""
    daemon = machine.daemon(1, tick_ms=MINUTE)
    folder, name = os.path.split(daemon.control)
    daemon.values["events"] = f"{folder}/./{name}"
    daemon.write()
    served = "  somebody serves this socket; it is kept"
    must_say(refusal(daemon), "bind control", f"  {daemon.control}: address in use", served)
    must(stat.S_ISSOCK(os.lstat(daemon.control).st_mode), "the socket is gone that was served")


def a_path_whose_queue_is_full(machine):
    """Where somebody listens who takes nobody, it is refused at once, and doesn't wait."""
    daemon = machine.daemon(1, tick_ms=MINUTE)
    with socket.socket(socket.AF_UNIX) as listener:
        listener.bind(daemon.control)
        listener.listen(0)
        waiting = []
        while True:
            it = socket.socket(socket.AF_UNIX)
            it.setblocking(False)
            try:
                it.connect(daemon.control)
            except BlockingIOError:
                break
            waiting.append(it)
        began = time.monotonic()
        said = refusal(daemon)
        must(time.monotonic() - began < 5, "it waits for a place in the queue")
        must_say(
            said, "bind control", f"  {daemon.control}: address in use", "  somebody serves this socket; it is kept"
        )
        must(os.path.exists(daemon.control), "a socket is gone that somebody serves")
        for it in waiting:
            it.close()


def a_stale_socket(machine):
    """It is removed, which is told, and the daemon that starts is served at a socket of its own."""
    daemon = machine.started(members=[(2, "10.0.0.2:7000")], tick_ms=MINUTE)
    daemon.kill()
    must(stat.S_ISSOCK(os.lstat(daemon.control).st_mode), "a daemon that was killed leaves no socket")
    daemon.launch(is_clean=False)
    must(daemon.ready().states() == {2: "up"}, "it isn't served")
    must(stat.S_IMODE(os.stat(daemon.control).st_mode) == 0o600, "others may connect")
    closing = daemon.stop()
    must(closing == (0, "stopped", 0, 0, 0, 0, 0), f"it ended {closing}")
    lines = told_lines(daemon, daemon.told)
    removed = f"removed {daemon.control}: a socket that nobody served"
    must(lines == [removed, listens(daemon, 1), "life 0 begins"], f"it tells {lines}")
    daemon.launch(is_clean=False)
    must(daemon.ready().stop().status == 0, "it isn't started behind one that was stopped")


def a_stale_socket_for_two(machine):
    """Of two daemons that start at once at one stale path, one is served, and the other is refused."""
    for _ in range(MOST_STARTS):
        path = f"{machine.folder}/both.sock"
        with socket.socket(socket.AF_UNIX) as left:
            left.bind(path)
        both = [machine.daemon(id, control=path, members=[(9, f"10.0.0.{id}:7000")], tick_ms=MINUTE) for id in (1, 2)]
        for it in both:
            it.control = path
            it.launch(is_clean=False)
        until(lambda: any(it.child.poll() is not None for it in both), "one of two ends")
        ended, lives = sorted(both, key=lambda it: it.child.poll() is None)
        stdout, stderr = ended.child.communicate(timeout=SECONDS)
        must(
            (stdout, ended.child.returncode) == (b"", 5), f"the one that ends has {ended.child.returncode}, {stdout!r}"
        )
        must(but_for_notices(stderr).startswith(b"bind control\n"), f"the one that ends says {stderr!r}")
        must(lives.ready().table()[9].peer == f"10.0.0.{lives.id}:7000", "another one answers")
        must(lives.stop().status == 0, "the one that lives ended otherwise")
        os.remove(path)


def ends_of_a_pipe(is_full):
    """The end of a pipe for writing, which is full or has lost its other end; and that other end."""
    reading, writing = os.pipe()
    if not is_full:
        os.close(reading)
        return writing, None
    flags = fcntl.fcntl(writing, fcntl.F_GETFL)
    fcntl.fcntl(writing, fcntl.F_SETFL, flags | os.O_NONBLOCK)
    try:
        while True:
            os.write(writing, bytes(4_096))
    except BlockingIOError:
        fcntl.fcntl(writing, fcntl.F_SETFL, flags)
    return writing, reading


def lives_go_on(machine, **how):
    """Started so, life follows life, and standard output is as ever."""
    daemon = machine.started(members=[(2, "10.0.0.2:7000")], how=how, **SHORT)
    until(lambda: daemon.lives_so_far() >= LIVES, f"{LIVES} lives")
    must(daemon.ask(b"stop\n") == b"stopping\n", "it isn't stopped")
    stdout, _ = daemon.child.communicate(timeout=SECONDS)
    text = daemon.read + stdout
    lines = text.splitlines()
    must(daemon.child.returncode == 0 and lines[-1].startswith(b"ended stopped entries "), f"it ended {lines[-1]!r}")
    numbers = [int(it.split()[1]) for it in lines[:-1]]
    must(numbers == list(range(len(lines) - 1)), f"its lives are {numbers[:40]}")


def standard_error_that_takes_nothing(machine):
    """A full pipe that nobody reads, one whose reader is gone, a full disk, none at all: no life waits for it."""
    for is_full in (True, False):
        writing, reading = ends_of_a_pipe(is_full)
        lives_go_on(machine, stderr=writing)
        os.close(writing)
        if reading is not None:
            os.close(reading)
    lives_go_on(machine, preexec_fn=lambda: os.close(2))
    with open("/dev/full", "wb") as full:
        lives_go_on(machine, stderr=full)
    with open(f"{machine.folder}/errors", "wb") as file:
        lives_go_on(machine, stderr=file)
    with open(f"{machine.folder}/errors", "rb") as file:
        must(file.read().count(b" begins\n") >= LIVES, "a file hasn't the lines of all lives")


def modes_of_sockets(machine):
    """Each socket has the mode that its key gives it, whatever the mask says and whether a stale one stood there; 0600
    where none does."""
    events = f"{machine.folder}/1.events"
    for values, mask in (
        ({}, 0o000),
        ({"control_mode": "0660"}, 0o077),
        ({"events_mode": "0606"}, 0o027),
        ({"control_mode": "0620", "events_mode": "0777"}, 0o177),
        ({"control_mode": "0600", "events_mode": "0600"}, 0o000),
    ):
        how = {"preexec_fn": lambda: os.umask(mask), "is_clean": False}
        daemon = machine.started(1, how=how, tick_ms=MINUTE, events=events, **values)
        wanted = [int(values.get(key, "0600"), 8) for key in ("control_mode", "events_mode")]
        found = [stat.S_IMODE(os.stat(path).st_mode) for path in (daemon.control, events)]
        must(found == wanted, f"with {values} and the mask {mask:o} the modes are {[f'{it:04o}' for it in found]}")
        daemon.kill()


def those_whom_a_mode_admits(machine):
    """A member of the group asks where the mode lets it, and nobody else does."""
    if os.getuid() != 0:
        print("  not tried, since it needs other users than this one")
        return
    os.chmod(machine.folder, 0o755)
    for mode, in_group, in_another in (("0600", 5, 5), ("0660", 0, 5), ("0620", 0, 5), ("0640", 5, 5), ("0606", 5, 0)):
        daemon = machine.started(1, tick_ms=MINUTE, control_mode=mode)
        for group, status in ((os.getgid(), in_group), (NOBODY, in_another)):
            words = [machine.program, "ask", "--control", daemon.control, "list"]
            as_nobody = {"user": NOBODY, "group": group, "extra_groups": []}
            ran = subprocess.run(words, stdin=subprocess.DEVNULL, capture_output=True, timeout=SECONDS, **as_nobody)
            must(ran.returncode == status, f"with the mode {mode} one of the group {group} is answered {ran!r}")
        must(daemon.stop().status == 0, "it ended otherwise")


STARTING = [
    a_start_is_told,
    modes_of_sockets,
    those_whom_a_mode_admits,
    each_life_is_told,
    warnings_stand_before_a_start,
    a_quiet_start,
    causes_of_listening,
    causes_of_files,
    causes_of_paths,
    a_path_that_is_forbidden,
    a_path_that_is_served,
    one_path_for_two_sockets,
    a_path_whose_queue_is_full,
    a_stale_socket,
    a_stale_socket_for_two,
    standard_error_that_takes_nothing,
]
