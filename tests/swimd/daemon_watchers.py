"""Who watches a daemon: the table and each change of it, as the journal files have them, however many watch and however
they behave; and the socket where they come in."""

import os
import signal
import socket
import stat
import time

from tests.support.configurations import HOST
from tests.support.daemons import SECONDS, must, talk, until
from tests.support.journals import journals
from tests.support.watchers import Watcher, hear, hear_all, must_be_told, table_and_changes
from tests.swimd.daemon_groups import Answerer
from tests.swimd.daemon_starting import must_say, refusal, told_lines

MINUTE = 60_000
MOST_WATCHERS = 64
NEVER_READ = 7
LARGEST_ID = 2**32 - 1
# So many joins and removals are more bytes than a watcher's buffer and those of its socket hold.
MANY = 10_000
LINES_AT_A_TIME = 2_000
LIVES = 10
AT_ONCE = 0.2
# One to whom nothing could be sent for so many seconds is given up.
PATIENCE = 10


def watched(machine, id=1, **values):
    """A daemon that tells events, and where."""
    path = f"{machine.folder}/{id}.events"
    return machine.started(id, events=path, **values), path


def files_of(daemon):
    return journals(daemon.values["journal_dir"], daemon.id)


def wait_for(watcher, *lines):
    """The next lines behind what was looked at are these."""
    seen = getattr(watcher, "seen", 0)
    hear([watcher], lambda: len(watcher.lines) >= seen + len(lines) or watcher.is_over, f"{lines} are told")
    found = watcher.lines[seen : seen + len(lines)]
    must(found == list(lines), f"{found} are told, and not {lines}")
    watcher.seen = seen + len(lines)


def the_table_and_each_change(machine):
    """A line each, in order, and nothing for what changes nothing."""
    daemon, path = watched(machine, members=[(30, "10.0.0.3:7000"), (4, "10.0.0.4:7000")], tick_ms=MINUTE)
    mode = os.stat(path).st_mode
    must(stat.S_ISSOCK(mode) and stat.S_IMODE(mode) == 0o600, f"the mode of the events' socket is {oct(mode)}")
    first = Watcher(path)
    wait_for(first, "up 4 10.0.0.4:7000", "up 30 10.0.0.3:7000", ".")
    must(daemon.ask(b"join 7 10.0.0.7:7000\n").startswith(b"joined "), "a join is refused")
    wait_for(first, "up 7 10.0.0.7:7000")
    must(
        daemon.ask(b"join 7 10.0.0.8:7000\nlist\nremove 5\ngap 4\nremove 30\n").endswith(b"removed\n"),
        "a removal is refused",
    )
    wait_for(first, "gone 30")
    second = Watcher(path)
    wait_for(second, "up 4 10.0.0.4:7000", "up 7 10.0.0.7:7000", ".")
    must(daemon.ask(b"remove 4\n") == b"removed\n", "a removal is refused")
    for it in (first, second):
        wait_for(it, "gone 4")
    must(daemon.stop().status == 0, "it ended otherwise")
    hear_all([first, second])
    for it in (first, second):
        wait_for(it, "ended")
        must_be_told(it, files_of(daemon))
    must(os.path.exists(path), "the events' socket is gone")


def verdicts_and_a_return(machine):
    """A member that doesn't answer is judged, and is told to be up again; what is told is what the journal file
    says."""
    peer, answers = machine.socket(), []
    Answerer(peer, 2, lambda *_: bool(answers))
    daemon, path = watched(machine)
    watcher = Watcher(path)
    wait_for(watcher, ".")
    at = f"{HOST}:{peer.getsockname()[1]}"
    for _ in range(3):
        answers.clear()
        must(daemon.ask(f"join 2 {at}\n".encode()).startswith(b"joined"), "a join is refused")
        wait_for(watcher, f"up 2 {at}")
        hear([watcher], lambda: watcher.lines[-1].startswith("failed 2 "), "a verdict is told")
        watcher.seen += 1
        number = watcher.lines[-1].split(" ")[2]
        must(daemon.table()[2].state == f"failed {number}", f"{watcher.lines[-1]} is told of {daemon.table()}")
        must(daemon.ask(b"remove 2\n") == b"removed\n", "a removal is refused")
        wait_for(watcher, "gone 2")
    must(daemon.stop().status == 0, "it ended otherwise")
    hear_all([watcher])
    must_be_told(watcher, files_of(daemon))


def change_much(daemon):
    """Has a member join and leave again and again, and tells how often that was done before each part of it."""
    pair = f"join {LARGEST_ID} 127.127.127.127:65535\nremove {LARGEST_ID}\n".encode()
    for place in range(0, MANY, LINES_AT_A_TIME):
        with daemon.connect() as connection:
            answer = talk(connection, [pair * LINES_AT_A_TIME], seconds=3 * SECONDS)
        joined = answer.count(b"joined ")
        must(
            joined == LINES_AT_A_TIME == answer.count(b"removed\n"),
            f"the lines from {place} on are answered {answer[-99:]}",
        )
        yield place


def sixty_four_watch(machine):
    """Some of them never read: the others are told everything, and those a beginning of it, and last that they were
    lost."""
    daemon, path = watched(machine, members=[(2, "10.0.0.2:7000")], tick_ms=MINUTE)
    watchers = [Watcher(path) for _ in range(MOST_WATCHERS)]
    slow, quick = watchers[:NEVER_READ], watchers[NEVER_READ:]
    hear(quick, lambda: all("." in it.lines for it in quick), "the table is told to each")
    began = time.monotonic()
    for place in change_much(daemon):
        wanted = 2 + 2 * (place + LINES_AT_A_TIME)
        hear(quick, lambda: all(it.count == wanted for it in quick), f"the first {wanted} lines are told to each")
    hear_all(slow, "those who didn't read are closed")
    is_slow = time.monotonic() - began > PATIENCE - 2
    must(daemon.stop().status == 0, "it ended otherwise")
    hear_all(quick)
    files = files_of(daemon)
    must(len({it.text for it in quick}) == 1, "those who read were told several things")
    must_be_told(quick[0], files)
    if is_slow:
        print("  of those who didn't read nothing is said, since this took too long: they were given up")
    else:
        for it in slow:
            must_be_told(it, files, "lost")


def who_never_reads_is_given_up(machine):
    """As many as may watch, of whom only one reads. The others are closed ten seconds after nothing more could be sent
    to them; so one who came later is told the table then. The one who reads stays."""
    daemon, path = watched(machine, members=[(2, "10.0.0.2:7000")], tick_ms=MINUTE)
    watchers = [Watcher(path) for _ in range(MOST_WATCHERS)]
    hear(watchers, lambda: all("." in it.lines for it in watchers), "the table is told to each")
    quick, silent = watchers[0], watchers[1:]
    late, began = Watcher(path), time.monotonic()
    for place in change_much(daemon):
        wanted = 2 + 2 * (place + LINES_AT_A_TIME)
        hear([quick], lambda: quick.count == wanted, f"the first {wanted} lines are told")
    hear([late], lambda: "." in late.lines, "the one who came later is told the table")
    took = time.monotonic() - began
    must(took > PATIENCE - 1, f"they are given up after {took:.1f} seconds")
    hear_all(silent, "those who never read are closed")
    must(not any("ended" in it.lines for it in silent), "one of them was told the end before it")
    must(daemon.ask(b"remove 2\n") == b"removed\n", "a removal is refused")
    hear([quick, late], lambda: all(it.lines[-1] == "gone 2" for it in (quick, late)), "the removal is told")
    must(daemon.stop().status == 0, "it ended otherwise")
    hear_all([quick, late])
    for it in (quick, late):
        must_be_told(it, files_of(daemon))


def a_65th_waits(machine):
    """As many as may watch: another one is told the table once one of them leaves."""
    daemon, path = watched(machine, tick_ms=MINUTE)
    watchers = [Watcher(path) for _ in range(MOST_WATCHERS)]
    hear(watchers, lambda: all(it.lines == ["."] for it in watchers), "the table is told to each")
    late = Watcher(path)
    must(daemon.ask(b"join 2 10.0.0.2:7000\n") .startswith(b"joined "), "a join is refused")
    hear(watchers, lambda: all(len(it.lines) == 2 for it in watchers), "the change is told to each")
    time.sleep(AT_ONCE)
    late.socket.setblocking(False)
    try:
        must(False, f"a 65th is told {late.socket.recv(100)}")
    except BlockingIOError:
        late.socket.settimeout(SECONDS)
    watchers.pop().close()
    wait_for(late, "up 2 10.0.0.2:7000", ".")
    must(daemon.stop().status == 0, "it ended otherwise")
    hear_all([*watchers, late])
    must(late.lines[-1] == "ended", f"the last one is told {late.lines}")


def who_sends_is_let_be(machine):
    """What a watcher sends is thrown away, also where it sends no more; and the others don't notice it, nor one that
    leaves."""
    daemon, path = watched(machine, tick_ms=MINUTE)
    sender, silent, leaving = Watcher(path), Watcher(path), Watcher(path)
    for it in (sender, silent, leaving):
        wait_for(it, ".")
    sender.socket.sendall(b"list\nstop\n" + bytes(range(256)) * 40)
    leaving.socket.sendall(b"stop\n")
    leaving.close()
    silent.socket.shutdown(socket.SHUT_WR)
    for number in range(3):
        must(daemon.ask(b"join 2 10.0.0.2:7000\nremove 2\n").endswith(b"\nremoved\n"), "a line is answered otherwise")
        for it in (sender, silent):
            wait_for(it, "up 2 10.0.0.2:7000", "gone 2")
        sender.socket.sendall(b"x" * 1_000)
    must(daemon.stop().status == 0, "it ended otherwise")
    for it in (sender, silent):
        hear([it], lambda: "ended" in it.lines, "the end is told")
        must(it.lines == ["."] + ["up 2 10.0.0.2:7000", "gone 2"] * 3 + ["ended"], f"told is {it.lines}")


def over_ten_lives(machine):
    """A life's beginning is a line, and the table goes on as it is: what is told is what the files of all lives say."""
    daemon, path = watched(machine, members=[(9, "10.0.0.9:7000")], k=0, rtt=1, period=3, tick_ms=5, journal=60)
    watchers = [Watcher(path)]
    wait = lambda count: hear(
        watchers, lambda: sum(it.startswith("life") for it in watchers[0].lines) >= count, f"{count} lives"
    )
    for number in range(LIVES):
        wait(number)
        peer = f"10.0.0.2:{7_000 + number}"
        daemon.ask(f"join 2 {peer}\nremove {2 if number % 3 else 9}\njoin 9 10.0.0.9:7000\n".encode())
        watchers.append(Watcher(path))
    wait(LIVES)
    must(daemon.stop().status == 0, "it ended otherwise")
    hear_all(watchers)
    files = files_of(daemon)
    must(len(files) > LIVES, f"{len(files)} lives were written")
    for it in watchers:
        must_be_told(it, files)


def a_killed_daemon_says_nothing(machine):
    """The connection ends, and the last line is no `ended`. The next start removes the socket that is left, and tells
    that."""
    daemon, path = watched(machine, tick_ms=MINUTE, members=[(2, "10.0.0.2:7000")])
    watcher = Watcher(path)
    wait_for(watcher, "up 2 10.0.0.2:7000", ".")
    daemon.child.send_signal(signal.SIGTERM)
    daemon.child.communicate(timeout=SECONDS)
    hear_all([watcher])
    must(watcher.lines == ["up 2 10.0.0.2:7000", "."], f"told is {watcher.lines}")
    daemon.launch()
    must(daemon.ready().stop().status == 0, "it ended otherwise")
    lines = told_lines(daemon, daemon.told)
    must(lines[0] == f"removed {path}: a socket that nobody served", f"it tells {lines}")


def paths_that_are_taken(machine):
    """What stands at the path and is no socket is kept, and so is a socket that somebody serves. The control socket's
    path is refused."""
    path = f"{machine.folder}/taken"
    with open(path, "w", encoding="utf-8") as file:
        file.write("text")
    kept = "  what stands there is no socket; it is kept"
    must_say(refusal(machine.daemon(1, events=path)), "bind events", f"  {path}: address in use", kept)
    with open(path, encoding="utf-8") as file:
        must(file.read() == "text", "the file was changed")
    os.remove(path)
    os.mkdir(path)
    must_say(refusal(machine.daemon(1, events=path)), "bind events", f"  {path}: address in use", kept)
    missing = f"{machine.folder}/nowhere/events"
    must_say(refusal(machine.daemon(1, events=missing)), "bind events", f"  {missing}: no such file or folder")
    other, served = watched(machine, 2, tick_ms=MINUTE)
    must_say(
        refusal(machine.daemon(1, events=served)),
        "bind events",
        f"  {served}: address in use",
        "  somebody serves this socket; it is kept",
    )
    must_say(
        refusal(machine.daemon(1, events=other.control)),
        "bind events",
        f"  {other.control}: address in use",
        "  somebody serves this socket; it is kept",
    )
    watcher = Watcher(served)
    wait_for(watcher, ".")
    must(other.stop().status == 0, "the other one ended otherwise")
    daemon = machine.daemon(3)
    daemon.values["events"] = daemon.control
    daemon.write()
    must(refusal(daemon).startswith(b"configuration 6 events\n"), "the control socket's path is taken for events")


def without_the_key(machine):
    """No socket more is opened."""
    plain = machine.started(1, tick_ms=MINUTE)
    daemon, path = watched(machine, 2, tick_ms=MINUTE)
    # A socket is counted once, however many descriptors it has.
    links = lambda it: {
        os.readlink(f"/proc/{it.child.pid}/fd/{fd}") for fd in os.listdir(f"/proc/{it.child.pid}/fd")
    }
    count = lambda it: sum(link.startswith("socket:") for link in links(it))
    until(lambda: count(daemon) == count(plain) + 1, "one socket more is open")
    must(
        os.path.exists(path) and sorted(os.listdir(machine.folder)).count("1.events") == 0,
        "another socket stands there",
    )
    must([plain.stop().status, daemon.stop().status] == [0, 0], "they ended otherwise")


WATCHERS = [
    sixty_four_watch,
    who_never_reads_is_given_up,
    over_ten_lives,
    verdicts_and_a_return,
    the_table_and_each_change,
    a_65th_waits,
    who_sends_is_let_be,
    a_killed_daemon_says_nothing,
    paths_that_are_taken,
    without_the_key,
]
