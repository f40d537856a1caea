"""A daemon at its limits: datagrams that are none, a full journal, what can't be sent, refusals, and a daemon that is
idle."""

import glob
import os
import resource
import subprocess
import time

from tests.generators.forgeries import forgeries
from tests.models.datagram_model import fault_of
from tests.support.configurations import configuration
from tests.support.daemons import SECONDS, must, until
from tests.support.datagrams import ACK, PING, REQUEST, datagram, fields, version_of
from tests.support.sayings import first_line_of
from tests.swimd.daemon_limits import MEGABYTE, with_memory

MINUTE = 60_000
LITTLE_MEMORY = 1_024 * MEGABYTE
IDLE_SECONDS = 4
MOST_IDLE_SHARE = 0.005
MOST_STOP_SECONDS = 0.5


def ping_and_hear(peer, daemon, number):
    peer.sendto(datagram(PING, 9, 9, daemon.id, number), daemon.address)
    found = fields(peer.recv(100))
    must(found == (ACK, daemon.id, 9, daemon.id, number), f"ping {number} is answered {found}")


def datagrams_that_are_none(machine):
    """They are counted, and nothing is sent for them."""
    daemon, peer = machine.started(tick_ms=MINUTE), machine.socket()
    ping = datagram(PING, 9, 9, 1, 1)
    request = datagram(REQUEST, 9, 9, 8, 1, 2, daemon.port)
    texts = [(ping + bytes(2_000))[:length] for length in (0, 23, 25, 30, 31, 64, 65, 1_400)]
    texts += [(request + b"\x01" * 2_000)[:length] for length in (24, 25, 29, 31, 64, 1_400)]
    texts += [request[:28] + bytes(2), request[:2] + b"\x01" + request[3:]]
    texts += [b"XW" + ping[2:], b"SX" + ping[2:], ping[:2] + b"\x03" + ping[3:], ping[:3] + b"\x00" + ping[4:]]
    texts += [ping[:3] + b"\x04" + ping[4:], datagram(PING, 0, 9, 1, 1), datagram(PING, 9, 9, 1, 0), bytes(24)]
    for place, text in enumerate(texts, 1):
        peer.sendto(text, daemon.address)
        ping_and_hear(peer, daemon, place)
    dropped = [datagram(PING, 9, 9, 2, 1), datagram(ACK, 9, 1, 9, 1), datagram(ACK, 9, 9, 9, 1)]
    for text in dropped:
        peer.sendto(text, daemon.address)
    ping_and_hear(peer, daemon, 100)
    closing, entries = daemon.stop(), len(texts) + len(dropped) + 1
    must(closing == (0, "stopped", entries, 0, 0, len(texts), 0), f"it ended {closing}")


def forged_datagrams(machine):
    """Of texts that are nearly a datagram each is counted or makes an entry, and none is answered but pings of this
    member."""
    daemon, peer, other = machine.started(2, tick_ms=MINUTE, fence=0), machine.socket(), machine.socket()
    texts, markers = [b"", *forgeries()], 0
    for place, text in enumerate(texts):
        other.sendto(text, daemon.address)
        if fault_of(text) is None and (fields(text)[0], fields(text)[3]) == (PING, daemon.id):
            found, (_, _, initiator, _, number) = other.recv(100), fields(text)
            wanted = datagram(ACK, daemon.id, initiator, daemon.id, number, version_of(text))
            must(found == wanted, f"the ping {text.hex()} is answered {found.hex()}")
        elif place % 32 == 0:
            # No more are under way than a socket keeps.
            markers += 1
            ping_and_hear(peer, daemon, markers)
    ping_and_hear(peer, daemon, markers + 1)
    other.setblocking(False)
    try:
        must(False, f"{other.recv(100).hex()} is sent beside")
    except BlockingIOError:
        pass
    faults, closing = sum(fault_of(it) is not None for it in texts), daemon.stop()
    must(
        closing == (0, "stopped", len(texts) - faults + markers + 1, 0, 0, faults, 0),
        f"it ended {closing}, with {faults} faults",
    )


def every_entry_is_counted(machine):
    """Pings, ping-reqs, acks, joins and removals, also refused ones: one entry each."""
    daemon, peer = machine.started(members=[(2, "10.0.0.2:7000")], tick_ms=MINUTE), machine.socket()
    for number in range(1, 101):
        ping_and_hear(peer, daemon, number)
    answers = daemon.ask(
        b"join 2 1.2.3.4:5\njoin 1 1.2.3.4:5\nremove 9\nremove 1\nremove 2\njoin 0 1.2.3.4:5\nlist\ngap 2\n"
    )
    wanted = b"refused 2\nrefused 1\nrefused 4\nrefused 1\nremoved\nfault 3\n.\ngap none\n"
    must(answers == wanted, f"the lines are answered {answers!r}")
    closing = daemon.stop()
    must(closing == (0, "stopped", 105, 0, 0, 0, 0), f"it ended {closing}")


def a_journal_that_fills_by_pings(machine):
    """The ping that meets the full journal is in no life; those behind it are answered in the next."""
    daemon, peer = machine.started(members=[(2, "10.0.0.2:7000")], tick_ms=MINUTE, journal=5), machine.socket()
    for number in range(1, 6):
        ping_and_hear(peer, daemon, number)
    peer.sendto(datagram(PING, 9, 9, 1, 6), daemon.address)
    for number in range(7, 10):
        ping_and_hear(peer, daemon, number)
    must(daemon.table() == {2: ("10.0.0.2:7000", "up")}, f"the next life lists {daemon.table()}")
    closing = daemon.stop()
    must(daemon.lives == [(0, 5, 0, 0, 0, 0)], f"its lives are {daemon.lives}")
    must(closing == (0, "stopped", 3, 0, 0, 0, 0), f"it ended {closing}")


def a_journal_that_fills_by_ticks(machine):
    """A member that never answers is judged in the first life, and stays so with that number."""
    member = machine.socket()
    values = {"k": 0, "rtt": 1, "period": 3, "tick_ms": 1, "journal": 20}
    daemon = machine.started(members=[(2, member.getsockname()[1])], **values)
    until(lambda: daemon.lives_so_far() >= 4, "four lives of twenty ticks")
    row = daemon.table()[2]
    must(row.state == "failed 1", f"member 2 is listed as {row}")
    closing = daemon.stop()
    must(closing.status == 0 and closing.judged == 0, f"it ended {closing}")
    must(daemon.lives[0] == (0, 20, 1, 0, 0, 0), f"its first life is {daemon.lives[0]}")
    must(all(it[1:] == (20, 0, 0, 0, 0) for it in daemon.lives[1:]), f"its lives are {daemon.lives[:20]}")


def a_journal_that_fills_by_lines(machine):
    """The connection that meets the full journal is closed; the next one is in the next life."""
    daemon = machine.started(tick_ms=MINUTE, journal=2)
    answers = daemon.ask(b"join 2 10.0.0.2:7000\nlist\nremove 9\nlist\njoin 3 10.0.0.3:7000\nlist\n")
    wanted = b"joined 0\n2 10.0.0.2:7000 up\n.\nrefused 4\n2 10.0.0.2:7000 up\n.\njournal full\n"
    must(answers == wanted, f"the lines are answered {answers!r}")
    answers = daemon.ask(b"list\njoin 2 10.0.0.2:7001\nremove 2\nlist\n")
    must(answers == b"2 10.0.0.2:7000 up\n.\nrefused 2\nremoved\n.\n", f"the next life answers {answers!r}")
    closing = daemon.stop()
    must(daemon.lives == [(0, 2, 0, 0, 0, 0)], f"its lives are {daemon.lives}")
    must(closing == (0, "stopped", 2, 0, 0, 0, 0), f"it ended {closing}")


def period_numbers_go_on(machine):
    """From life to life, and no number comes twice. In the first start of a life nobody is judged: its aim is none."""
    member = machine.socket()
    values = {"k": 0, "rtt": 1, "period": 3, "tick_ms": 50, "journal": 8}
    daemon = machine.started(members=[(2, member.getsockname()[1])], **values)
    numbers = []
    for _ in range(12):
        numbers.append(fields(member.recv(100))[4])
        member.sendto(datagram(ACK, 2, 1, 2, numbers[-1]), daemon.address)
    must(numbers == sorted(set(numbers)), f"the numbers of its pings are {numbers}")
    must(daemon.states() == {2: "up"}, "a member that answers is judged")
    daemon.stop()
    must(len(daemon.lives) >= 2 and not any(it.judged for it in daemon.lives), f"its lives are {daemon.lives}")


def what_cannot_be_sent(machine):
    """From a socket of the loopback nothing goes to another net: it is counted, and the daemon goes on."""
    daemon = machine.started(members=[(2, "192.0.2.1:7000")], k=0)
    until(lambda: daemon.states() == {2: "failed"}, "the member that nothing can be sent to is judged")
    closing = daemon.stop()
    must((closing.status, closing.judged, closing.unsent) == (0, 1, 1), f"it ended {closing}")


def seconds_of_processor(child):
    """What all threads of a process took so far."""
    total = 0
    for path in glob.glob(f"/proc/{child.pid}/task/*/schedstat"):
        with open(path) as file:
            total += int(file.read().split()[0])
    return total / 1e9


def idle_share(daemon):
    """What part of a processor it takes for some seconds."""
    before, began = seconds_of_processor(daemon.child), time.monotonic()
    time.sleep(IDLE_SECONDS)
    return (seconds_of_processor(daemon.child) - before) / (time.monotonic() - began)


def an_idle_daemon_sleeps(machine):
    """It takes less than half a hundredth of a processor. The least of three tries counts, as others work here: a
    processor that goes to and fro between programs takes longer for each."""
    daemon = machine.started(tick_ms=1_000)
    daemon.table()
    least = min(idle_share(daemon) for _ in range(3))
    print(f"  an idle daemon takes {least:.2%} of a processor")
    must(least < MOST_IDLE_SHARE, f"it takes {least:.2%} of a processor")
    daemon.stop()


def stop_ends_it_soon(machine):
    """Within half a second, also where the next tick is a minute away. The least of three tries counts, as others work
    here."""
    least = SECONDS
    for id in (1, 2, 3):
        daemon = machine.started(id, tick_ms=MINUTE)
        daemon.table()
        began = time.monotonic()
        daemon.stop()
        least = min(least, time.monotonic() - began)
    print(f"  `stop` takes {least * 1000:.0f} milliseconds")
    must(least < MOST_STOP_SECONDS, f"it takes {least:.2f} seconds")


def refused(program, words, wanted, **streams):
    """A run that has to end at once, with that line on standard error and that status."""
    streams = {"stdin": subprocess.DEVNULL, **streams}
    ran = subprocess.run([program, *words], stdout=subprocess.PIPE, stderr=subprocess.PIPE, timeout=SECONDS, **streams)
    found = (ran.stdout, first_line_of(ran.stderr), ran.returncode)
    must(found == (b"", *wanted), f"{words}: {found}, and not {wanted}")


def words_that_are_refused(machine):
    daemon = machine.daemon(1)
    usage = (b"usage\n", 2)
    for words in (["run"], ["run", "--config"], ["run", daemon.file, "x"], ["run", "--config", daemon.file, "x"]):
        refused(machine.program, words, usage)
    for words in (
        ["ask", "--control"], ["watch", daemon.control], ["run", "--control", daemon.file], ["--config", daemon.file]
    ):
        refused(machine.program, words, usage)


def a_file_without_an_option(machine):
    """`run FILE` runs the daemon of that file, as `run --config FILE` does."""
    daemon = machine.daemon(1, members=[(2, "10.0.0.2:7000")], tick_ms=MINUTE, journal_dir=None)
    streams = {"stdin": subprocess.DEVNULL, "stdout": subprocess.PIPE, "stderr": subprocess.PIPE}
    daemon.child = subprocess.Popen([daemon.program, "run", daemon.file], **streams, bufsize=0)
    must(daemon.ready().states() == {2: "up"}, "it knows others")
    must(daemon.stop().status == 0, "it ended otherwise")


def files_that_are_refused(machine):
    for path in (f"{machine.folder}/nobody.toml", machine.folder):
        refused(machine.program, ["run", "--config", path], (b"configuration file\n", 1))
    endless = ["run", "--config", "/dev/zero"]
    refused(machine.program, endless, (b"configuration 1\n", 1), preexec_fn=with_memory(LITTLE_MEMORY))
    daemon = machine.daemon(1)
    faults = {
        "2": "id",
        "3": configuration(members=[], **daemon.values, name=1),
        "4 rtt": configuration(members=[], **{key: it for key, it in daemon.values.items() if key != "rtt"}),
        "5 rtt": configuration(members=[], **{**daemon.values, "rtt": "1"}),
        "6 journal": configuration(members=[], **{**daemon.values, "journal": 0}),
        "7 member.at": configuration(members=[(2, "10.0.0.2")], **daemon.values),
        "8 seed": configuration(members=[], **{**daemon.values, "seed": "5"}),
        "9 2": configuration(members=[], **{**daemon.values, "period": 2}),
    }
    for fault, text in faults.items():
        with open(daemon.file, "w", encoding="utf-8") as file:
            file.write(text)
        refused(machine.program, ["run", "--config", daemon.file], (f"configuration {fault}\n".encode(), 1))
    must(not os.path.exists(daemon.control), "a configuration that is refused leaves a control path")


def a_file_that_comes_in_pieces(machine):
    """Through a pipe the configuration comes byte by byte, with comments of some length."""
    daemon = machine.daemon(1, members=[(2, "10.0.0.2:7000")], tick_ms=MINUTE)
    with open(daemon.file, "rb") as file:
        text = file.read()
    os.remove(daemon.file)
    os.mkfifo(daemon.file)
    daemon.launch()
    pieces = [text[at : at + 1] for at in range(len(text))] + [
        b"#" * 60_000, b'\n[[member]]\nid = 3\nat = "1.2.3.4:5"\n'
    ]
    with open(daemon.file, "wb", buffering=0) as pipe:
        for piece in pieces:
            pipe.write(piece)
            time.sleep(0.001)
    must(daemon.ready().states() == {2: "up", 3: "up"}, "it read something else")
    must(daemon.stop().status == 0, "it ended otherwise")


def sockets_that_cannot_be_bound(machine):
    """The listening address before the control path; a path that exists is left as it was."""
    first = machine.started(1, tick_ms=MINUTE)
    run = lambda it: ["run", "--config", it.file]
    listen, control = (b"bind listen\n", 5), (b"bind control\n", 5)
    refused(machine.program, run(first), listen)
    refused(machine.program, run(machine.daemon(2, first.port)), listen)
    refused(machine.program, run(machine.daemon(3, listen="192.0.2.1:7000")), listen)
    refused(machine.program, run(machine.daemon(4, control=first.control)), control)
    refused(machine.program, run(machine.daemon(5, control=f"{machine.folder}/no/folder.sock")), control)
    kept = machine.daemon(6)
    with open(kept.control, "w") as file:
        file.write("kept")
    refused(machine.program, run(kept), control)
    with open(kept.control) as file:
        must(file.read() == "kept", "a file that stood at the control path has changed")
    must(first.states() == {}, "the first daemon is disturbed")
    for path in (kept.control, f"{machine.folder}/none.sock", machine.folder):
        ran = subprocess.run([machine.program, "ask", "--control", path], capture_output=True, timeout=SECONDS)
        first, below = ran.stderr.split(b"\n", 1)
        must((ran.stdout, first, ran.returncode) == (b"", b"connect control", 5), f"asking at {path}: {ran!r}")
        must(below.startswith(f"  {path}: ".encode()) and below.count(b"\n") == 1, f"asking at {path}: {below!r}")


def the_longest_control_path(machine):
    path = machine.folder + "/" + "x" * (99 - len(machine.folder))
    daemon = machine.daemon(1, control=path, tick_ms=MINUTE)
    daemon.control = path
    must(len(path) == 100 and daemon.start().states() == {}, "it isn't answered")
    must(daemon.stop().status == 0 and os.path.exists(path), "it ended otherwise, or took its path away")


def the_last_number_goes_on(machine):
    """The first probe has the number behind the last one used."""
    peer = machine.socket()
    daemon = machine.started(1, members=[(2, peer.getsockname()[1])], k=0, last=2**63 - 1)
    must(fields(peer.recv(100)) == (PING, 1, 1, 2, 2**63), "the first ping has another number")
    until(lambda: daemon.table()[2].state == f"failed {2**63}", "the verdict with that number")
    must(daemon.stop().judged == 1, "it judged others")


def another_port_of_the_member(machine):
    """An ack counts wherever it comes from, and goes to where the ping came from."""
    member, other = machine.socket(), machine.socket()
    daemon = machine.started(1, members=[(2, member.getsockname()[1])], k=0)
    for _ in range(5):
        _, _, _, _, number = fields(member.recv(100))
        other.sendto(datagram(ACK, 2, 1, 2, number), daemon.address)
    must(daemon.states() == {2: "up"}, "an ack from another port isn't counted")
    ping_and_hear(other, daemon, 7)
    must(daemon.stop().status == 0, "it ended otherwise")


EDGES = [
    datagrams_that_are_none,
    forged_datagrams,
    every_entry_is_counted,
    a_journal_that_fills_by_pings,
    a_journal_that_fills_by_ticks,
    a_journal_that_fills_by_lines,
    period_numbers_go_on,
    what_cannot_be_sent,
    another_port_of_the_member,
    the_last_number_goes_on,
    an_idle_daemon_sleeps,
    stop_ends_it_soon,
    words_that_are_refused,
    a_file_without_an_option,
    files_that_are_refused,
    a_file_that_comes_in_pieces,
    sockets_that_cannot_be_bound,
    the_longest_control_path,
]
