"""A daemon that reads its configuration file again: its keys and its fence are taken over while it runs, what needs a
start is told, and a file with a fault changes nothing. daemon_rules.py has `rejoin`."""

import hashlib
import os
import re
import threading
import time

from tests.support.daemons import must, stop_all, until
from tests.support.datagrams import ACK, PING, datagram
from tests.support.sayings import TIME
from tests.support.tags import FIRST, SECOND, THIRD, key_texts, sealed
from tests.swimd.daemon_asking import asked, must_be
from tests.swimd.daemon_groups import must_be_quiet, must_stay_up, was_probed
from tests.swimd.daemon_keyrings import STEPS
from tests.swimd.daemon_starting import told_lines

RELOADED = b"reloaded\n"
FINGERPRINT = re.compile(rb'^swimd_key\{member="\d+",place="(\d)",fingerprint="([0-9a-f]{8})"\} 1$', re.MULTILINE)
PERIODS = 4
# A fence of so many lets a burst of as many in, and in the second in which they are sent as many more.
RATE, PINGS = 5, 40
# So many reloads an operator sends at once, a list is answered within so many seconds meanwhile, and so often a file is
# read that is being written.
MANY, AT_ONCE, HALVES = 2_000, 2, 300
# Each key whose value the daemon takes from a start alone, with another value; in the order in which they are told.
OTHERS = {
    "id": 7,
    "listen": "127.0.0.1:9",
    "control": "/tmp/elsewhere.sock",
    "events": "/tmp/events.sock",
    "metrics": "/tmp/swimd.prom",
    "control_mode": "0660",
    "events_mode": "0660",
    "k": 2,
    "rtt": 2,
    "period": 13,
    "tick_ms": 21,
    "seed": "f" * 64,
    "journal": 999_999,
    "last": 5,
    "wire": 2,
    "journal_dir": "/tmp/journals",
    "journal_keep": 3,
    "journal_ms": 1,
}


def fingerprint(key):
    return hashlib.sha256(key).hexdigest()[:8].encode()


def stats_of(daemon):
    """What it counted, once it tells something: in its first moments that is a dot alone."""
    return until(lambda: daemon.ask(b"stats\n")[:-2], f"member {daemon.id} tells what it counted")


def must_have(daemon, ring):
    """By its own word these keys are in force, in this order."""
    found = FINGERPRINT.findall(stats_of(daemon))
    wanted = [(b"%d" % place, fingerprint(key)) for place, key in enumerate(ring, 1)]
    must(found == wanted, f"member {daemon.id} tells the keys {found}, and not {wanted}")


def reloads_told(daemon):
    """What a daemon that has ended told of reloads on standard error, without the times."""
    return re.findall(rf"(?m)^{TIME.decode()} (reloaded .*)$", daemon.told.decode())


def reload(daemon, answer=RELOADED, **values):
    """Writes its configuration with these values, and has it read again. A value of None is left out."""
    daemon.values.update(values)
    daemon.values = {key: it for key, it in daemon.values.items() if it is not None}
    daemon.write()
    found = daemon.ask(b"reload\n")
    must(found == answer, f"member {daemon.id} answers a reload with {found!r}, and not {answer!r}")


def ping(peer, daemon, key, number):
    text = datagram(PING, 9, 9, daemon.id, number)
    peer.sendto(sealed(key, text) if key else text, daemon.address)


def must_answer(peer, daemon, asks, answers, number):
    """A ping with a tag by the one key is answered by an ack with a tag by the other. None stands for no tag."""
    ping(peer, daemon, asks, number)
    text = datagram(ACK, daemon.id, 9, daemon.id, number)
    wanted = sealed(answers, text) if answers else text
    found = peer.recv(100)
    must(found == wanted, f"ping {number} is answered {found.hex()}, and not {wanted.hex()}")


def came(peer):
    """How many datagrams lie in the socket."""
    count = 0
    peer.setblocking(False)
    try:
        while peer.recv(100):
            count += 1
    except BlockingIOError:
        peer.setblocking(True)
        peer.settimeout(20)
    return count


class Load:
    """A stranger who has the new key and pings each daemon some hundred times a second, until it is over."""

    def __init__(self, peer, daemons):
        self.peer, self.daemons, self.answers = peer, daemons, 0
        self.over, self.thread = threading.Event(), threading.Thread(target=self.send_on, daemon=True)

    def __enter__(self):
        self.thread.start()
        return self

    def __exit__(self, *_):
        self.over.set()
        self.thread.join()

    def send_on(self):
        number = 0
        while not self.over.wait(0.005):
            number += 1
            for it in self.daemons:
                ping(self.peer, it, SECOND, number)
            self.answers += came(self.peer)


def keys_are_changed_over_by_reloads(machine):
    """In a group of five under load, in three steps, in each of which one member after the other reads its file again:
    nobody is judged, nothing is thrown away, and no daemon was started anew."""
    daemons = machine.group(5, keys=key_texts(FIRST), tick_ms=50)
    started = [it.child.pid for it in daemons]
    change_over(daemons, STEPS[0])
    with Load(machine.socket(), daemons) as load:
        for ring in STEPS[1:]:
            change_over(daemons, ring)
    must(load.answers > 0, "no ping of the load is answered")
    must([it.child.pid for it in daemons] == started, "a daemon was started anew")
    for it in daemons:
        other = 1 if it.id != 1 else 2
        until(lambda: was_probed(it, other), f"member {it.id} probes member {other} twice")
        judged = re.findall(rb"(?m)^swimd_member_verdicts_total\{.*\} (\d+)$", stats_of(it))
        must(judged == [b"0"] * 4, f"member {it.id} judged so often: {judged}")
    for it, closing in zip(daemons, stop_all(daemons)):
        # Of those that are stopped later some may judge one that was stopped before.
        must_be_quiet(closing, 0)
        must(b" have no tag by one of our keys" not in it.told, f"member {it.id} tells {it.told!r}")
        must(it.lives == [], f"member {it.id} had more lives: {it.lives}")
        found = reloads_told(it)
        wanted = [
            f"reloaded {it.file} keys " + " ".join(fingerprint(key).decode() for key in ring) for ring in STEPS
        ]
        must(found == wanted, f"member {it.id} tells {found}, and not {wanted}")


def change_over(daemons, ring):
    """One after the other takes these keys over, and then nobody is judged for some periods."""
    for it in daemons:
        reload(it, keys=key_texts(*ring))
        must_have(it, ring)
    must_stay_up(daemons, PERIODS)


def the_next_datagram_has_the_new_keys(machine):
    """What comes behind the answer to a reload is taken and answered by the new keys, from the first datagram on."""
    peer, daemon = machine.socket(), machine.started(1, keys=key_texts(FIRST), last=0, tick_ms=60_000)
    must_answer(peer, daemon, FIRST, FIRST, 1)
    rings = [[SECOND], [THIRD, FIRST], [FIRST, THIRD], [], [SECOND]]
    for number, ring in enumerate(rings, 2):
        reload(daemon, keys=key_texts(*ring) or None)
        must_have(daemon, ring)
        signing = ring[0] if ring else None
        for key in (FIRST, SECOND, THIRD):
            if key not in ring and ring:
                ping(peer, daemon, key, number)
        must_answer(peer, daemon, ring[-1] if ring else None, signing, number)
        must(came(peer) == 0, "a key that is no longer in force is answered")
    must(daemon.stop().status == 0, "it ended otherwise")


def the_fence_is_taken_over(machine):
    """Of the pings of a stranger so many are answered as the fence lets in by then."""
    peer, daemon = machine.socket(), machine.started(1, fence=0, tick_ms=60_000)
    for fence, least, most in ((0, PINGS, PINGS), (RATE, RATE, 3 * RATE), (0, PINGS, PINGS), (None, PINGS, PINGS)):
        reload(daemon, fence=fence)
        for number in range(1, PINGS + 1):
            ping(peer, daemon, None, number)
        count = until_still(peer)
        must(least <= count <= most, f"with the fence {fence} {count} of {PINGS} pings are answered")
    must(daemon.stop().status == 0, "it ended otherwise")


def until_still(peer):
    """How many datagrams come until none does for half a second."""
    count = 0
    peer.settimeout(0.5)
    try:
        while peer.recv(100):
            count += 1
    except TimeoutError:
        peer.settimeout(20)
    return count


def other_keys_need_a_start(machine):
    """Each of them is told alone, all are told in the order of the table, and the daemon goes on as it was."""
    daemon = machine.started(1, members=[(2, 9)], journal_dir=None)
    values, members = dict(daemon.values), daemon.members
    for key, other in OTHERS.items():
        daemon.values = dict(values)
        if key in ("events_mode", "journal_keep", "journal_ms"):
            # They say something of another key's path, and are told all the same.
            must(key not in values, f"{key} is given")
        reload(daemon, b"reloaded; %s needs a start\n" % key.encode(), **{key: other})
    daemon.values = dict(values)
    reload(daemon)
    daemon.members = [(2, 9), (3, 9)]
    reload(daemon, b"reloaded; member needs a start\n")
    must(sorted(daemon.table()) == [2], "a member of the file is listed without a start")
    daemon.values = {**values, **OTHERS, "keys": key_texts(FIRST), "fence": 3, "rejoin": 3}
    told = "".join(f"; {key} needs a start" for key in [*OTHERS, "member"])
    reload(daemon, f"reloaded{told}\n".encode())
    must_have(daemon, [FIRST])
    daemon.values, daemon.members = values, members
    reload(daemon)
    must_have(daemon, [])
    must(daemon.stop().status == 0, "it ended otherwise")


def the_last_number_by_the_clock(machine):
    """Where keys are set and `last` is left out, the clock tells it at a start: keys that come to a daemon without any
    make another of it."""
    daemon = machine.started(1)
    reload(daemon, b"reloaded; last needs a start\n", keys=key_texts(FIRST))
    reload(daemon, last=0)
    reload(daemon, keys=None)
    must(daemon.stop().status == 0, "it ended otherwise")


def must_stand(peer, daemon, number):
    """The key of the start is in force."""
    must_have(daemon, [FIRST])
    must_answer(peer, daemon, FIRST, FIRST, number)


def a_refused_file_changes_nothing(machine):
    """It is told with its fault, as `check` tells it, and what was in force is."""
    peer, daemon = machine.socket(), machine.started(1, keys=key_texts(FIRST), tick_ms=60_000)
    good = open(daemon.file, "rb").read()
    other = good.replace(FIRST.hex().encode(), SECOND.hex().encode())
    faults = [
        (other + b"#" * 65_536, b"configuration 1\n"),
        (other + b"\nx = \n", b"configuration 2\n"),
        (other + b"\xff\n", b"configuration 2\n"),
        (b"rejion = 3\n" + other, b"configuration 3\n"),
        (other.replace(b"tick_ms = 60000\n", b""), b"configuration 4 tick_ms\n"),
        (other.replace(b"tick_ms = 60000", b'tick_ms = "1"'), b"configuration 5 tick_ms\n"),
        (other.replace(SECOND.hex().encode(), b"00"), b"configuration 6 keys\n"),
        (other.replace(b"k = 1\n", b"k = 9\n"), b"configuration 9 1\n"),
        (b"", b"configuration 4 id\n"),
    ]
    for number, (text, answer) in enumerate(faults, 1):
        must(text != other, f"nothing was changed for {answer!r}")
        with open(daemon.file, "wb") as file:
            file.write(text)
        found = daemon.ask(b"reload\nlist\n")
        must(found == answer + b".\n", f"for {answer!r} it answers {found!r}")
        must_be(asked(daemon, "reload"), (answer, b"", 3), f"ask tells {answer!r}")
        must_stand(peer, daemon, number)
    places_without_a_file(peer, daemon, len(faults))
    with open(daemon.file, "wb") as file:
        file.write(good)
    must_be(asked(daemon, "reload"), (RELOADED, b"", 0), "ask tells that it is reloaded")
    must_be_quiet(daemon.stop(), 0)
    found = reloads_told(daemon)
    must(len(found) == 1, f"of reloads it tells {found}")


def places_without_a_file(peer, daemon, number):
    """A file that is gone, a folder, a link to nothing, and a pipe that nobody writes, which would be waited for."""
    makers = [lambda path: None, os.mkdir, lambda path: os.symlink("nowhere", path), os.mkfifo]
    os.remove(daemon.file)
    for more, make in enumerate(makers, 1):
        make(daemon.file)
        found = daemon.ask(b"reload\nlist\n")
        must(found == b"configuration file\n.\n", f"at place {more} it answers {found!r}")
        must_stand(peer, daemon, number + more)
        if os.path.isdir(daemon.file):
            os.rmdir(daemon.file)
        elif os.path.lexists(daemon.file):
            os.remove(daemon.file)


def many_reloads_at_once(machine):
    """Five operators send two thousand of them each, as fast as they are answered: others are answered meanwhile, and
    nobody is judged."""
    daemons = machine.group(3, keys=key_texts(FIRST, SECOND), tick_ms=50)
    answers, longest = [], 0
    ask_on = lambda: answers.append(daemons[0].ask(b"reload\n" * MANY))
    threads = [threading.Thread(target=ask_on, daemon=True) for _ in range(5)]
    for it in threads:
        it.start()
    while any(it.is_alive() for it in threads):
        began = time.monotonic()
        must(daemons[0].states() == {2: "up", 3: "up"}, "it judges somebody meanwhile")
        longest = max(longest, time.monotonic() - began)
        # Nobody else reads what it tells of each.
        daemons[0].told_so_far()
    must(answers == [RELOADED * MANY] * 5, f"it answers {[it[:100] for it in answers]}")
    must(longest < AT_ONCE, f"meanwhile a list takes {longest} seconds")
    must_stay_up(daemons, PERIODS)
    for closing in stop_all(daemons):
        must_be_quiet(closing, 0)


def a_file_that_is_being_written(machine):
    """Who doesn't rename it into its place may have half of it read: that has a fault here, and changes nothing."""
    daemon, over, answers = machine.started(1, keys=key_texts(FIRST)), threading.Event(), set()
    with open(daemon.file, encoding="utf-8") as file:
        text = file.read()
    half = text.index("rtt")

    def write_on():
        while not over.is_set():
            with open(daemon.file, "w", encoding="utf-8") as file:
                file.write(text[:half])
                file.flush()
                time.sleep(0.001)
                file.write(text[half:])

    thread = threading.Thread(target=write_on, daemon=True)
    thread.start()
    for _ in range(HALVES):
        answers.add(daemon.ask(b"reload\n"))
        must_have(daemon, [FIRST])
    over.set()
    thread.join()
    faults = {b"configuration 4 id\n", b"configuration 4 rtt\n"}
    must(answers <= {RELOADED, *faults}, f"it answers {answers}")
    reload(daemon)
    must(daemon.stop().status == 0, "it ended otherwise")


def words_behind_it(machine):
    """`reload` stands alone in its line, and a quiet daemon tells nothing of it."""
    daemon = machine.started(1, how={"words": ["--quiet"]})
    must(daemon.ask(b"reload now\nRELOAD\nreload\n") == b"fault 5\nfault 2\n" + RELOADED, "other answers")
    must(daemon.stop().status == 0, "it ended otherwise")
    must(told_lines(daemon, daemon.told) == [], f"it tells {daemon.told!r}")


RELOADING = [
    keys_are_changed_over_by_reloads,
    the_next_datagram_has_the_new_keys,
    the_fence_is_taken_over,
    other_keys_need_a_start,
    the_last_number_by_the_clock,
    a_refused_file_changes_nothing,
    many_reloads_at_once,
    a_file_that_is_being_written,
    words_behind_it,
]
