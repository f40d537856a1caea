"""A daemon whose group has keys: what it sends and hears, what it throws away and tells of that, and where its period
numbers begin. Tags are compared with Python's own HMAC."""

import hashlib
import re
import shutil
import subprocess
import threading
import time

from tests.support.daemons import SECONDS, must, until
from tests.support.datagrams import ACK, PING, REQUEST, datagram, fields
from tests.support.documents import tagged_example
from tests.support.journals import journals, must_verify, told
from tests.support.parts import leave_out
from tests.support.sayings import but_for_warnings
from tests.support.tags import FIRST, FORGERS, SECOND, STRANGE, THIRD, digest, forged, key_texts, sealed, sealing
from tests.swimd.daemon_edges import refused
from tests.swimd.daemon_groups import Answerer, must_be_quiet
from tests.swimd.daemon_starting import listens, told_lines

MINUTE = 60_000
# The first datagram that is thrown away is told within so many seconds.
AT_ONCE = 5
PINGS_BETWEEN = 32
REPLAYED_PERIODS = 4
MADE = 16


def refusals_told(daemon, text):
    """Of the lines on standard error those that tell of datagrams without a tag: where they came from, and how many
    they were."""
    found = [
        re.fullmatch(r"datagrams from (\S+) have no tag by one of our keys, forged (\d+)", it)
        for it in told_lines(daemon, text)
    ]
    return [(it[1], int(it[2])) for it in found if it]


def address_of(socket):
    return "%s:%d" % socket.getsockname()


def must_answer(peer, daemon, key, number):
    """A ping that is sealed by that key is answered by an ack with a tag by the first."""
    peer.sendto(sealed(key, datagram(PING, 9, 9, daemon.id, number)), daemon.address)
    found, wanted = peer.recv(100), sealed(FIRST, datagram(ACK, daemon.id, 9, daemon.id, number))
    must(found == wanted, f"ping {number} is answered {found.hex()}, and not {wanted.hex()}")


def must_get_nothing(*sockets):
    for it in sockets:
        it.setblocking(False)
        try:
            must(False, f"{it.recv(100).hex()} is sent")
        except BlockingIOError:
            it.settimeout(SECONDS)


def journal_of(daemon):
    """The one journal file of a daemon that has ended."""
    (file,) = journals(daemon.values["journal_dir"])
    return file


def first_period(daemon):
    """The last number before the first period, as the first journal file of a daemon tells it."""
    found = re.search(
        r"^open \d+ \d+ \d+ \d+ (\d+) ", "\n".join(journals(daemon.values["journal_dir"])[0].header), re.MULTILINE
    )
    return int(found[1])


def the_example_of_the_formats(machine):
    """The key, the text and the datagram in docs/FORMATS.md: by Python's HMAC, by the command there, and as a daemon
    sends it."""
    (key, text, whole, sealed_there), command = tagged_example()
    must(
        (whole, sealed_there) == (digest(key, text), sealed(key, text)), f"by this HMAC it is {digest(key, text).hex()}"
    )
    if shutil.which("openssl"):
        ran = subprocess.run(["sh", "-c", command], capture_output=True, timeout=SECONDS)
        must(ran.returncode == 0 and ran.stdout.split()[-1:] == [whole.hex().encode()], f"the command says {ran!r}")
    else:
        leave_out("openssl is not on PATH, so the example of docs/FORMATS.md was not checked by it")
    member = machine.socket()
    daemon = machine.started(1, members=[(2, member.getsockname()[1])], keys=[key.hex()], last=0)
    must(member.recv(100) == sealed_there, "the first ping of a daemon is another one")
    must(daemon.stop().status == 0, "it ended otherwise")


def who_has_a_key_stays_up(machine):
    """Of members that answer each ping those stay up whose tags are by a key of the group. Each other one is judged
    within 2n periods. All that they are sent has a tag by the first key, and nothing stands behind it."""
    seals = {"the first key": sealing(FIRST), "the second key": sealing(SECOND), "the third key": sealing(THIRD)}
    rows = dict(enumerate([*seals.items(), *FORGERS.items()], 2))
    members = {id: Answerer(machine.socket(), id, lambda *_: True, seal) for id, (_, seal) in rows.items()}
    good = [id for id, (name, _) in rows.items() if name in seals]
    known = [(id, it.port) for id, it in members.items()]
    daemon = machine.started(1, members=known, keys=key_texts(FIRST, SECOND, THIRD), k=0, last=0)
    until(
        lambda: [id for id, it in daemon.states().items() if it == "up"] == good,
        "those without a key are judged, and nobody else",
    )
    pings = {id: len(members[id].came) for id in good}
    until(lambda: all(len(members[id].came) >= pings[id] + 2 for id in good), "two more pings of those that are up")
    table = daemon.table()
    must_be_quiet(daemon.stop(), len(rows) - len(good))
    for id, (name, _) in rows.items():
        state = table[id].state
        number = 0 if state == "up" else int(state.split()[1])
        must((number == 0) == (id in good) and number <= 2 * len(rows), f"a member that answers by {name} is {state}")
        for it in members[id].came:
            wanted = sealed(FIRST, datagram(PING, 1, 1, id, fields(it)[4]))
            must(it == wanted, f"member {id} is sent {it.hex()}, and not {wanted.hex()}")
    heard = {int(it) for it in re.findall(rb"^hear [\d.]+:(\d+) ", journal_of(daemon).text, re.MULTILINE)}
    must(heard == {members[id].port for id in good}, f"in the journal stand datagrams from {heard}")


def pings_by_each_key_are_answered(machine):
    """By the first key, whichever the ping was sealed by; one by another key isn't. With one key there is one."""
    for id, ring in enumerate(([FIRST], [FIRST, SECOND], [FIRST, SECOND, THIRD, STRANGE]), 1):
        daemon, peer = machine.started(id, keys=key_texts(*ring), tick_ms=MINUTE), machine.socket()
        for number, key in enumerate((FIRST, SECOND, THIRD, STRANGE), 1):
            if key in ring:
                must_answer(peer, daemon, key, number)
            else:
                peer.sendto(sealed(key, datagram(PING, 9, 9, id, number)), daemon.address)
        must_answer(peer, daemon, ring[-1], 5)
        must_get_nothing(peer)
        closing = daemon.stop()
        must(closing == (0, "stopped", len(ring) + 1, 0, 0, 0, 0), f"it ended {closing}")


def requests_are_sealed(machine):
    """What relays are asked has its tag, in either version, and so has what a relay sends, of whatever key the request
    was."""
    for id, version in ((1, 1), (2, 2)):
        aim, relay = machine.socket(), Answerer(machine.socket(), 6, lambda *_: True, sealing(FIRST))
        port = aim.getsockname()[1]
        daemon = machine.started(
            id, members=[(5, port), (6, relay.port)], wire=version, keys=key_texts(FIRST), k=1, last=0
        )
        number = fields(aim.recv(100))[4]
        wanted = sealed(FIRST, datagram(REQUEST, id, id, 5, number, version, port if version == 2 else None))
        must(len(wanted) == (46 if version == 2 else 40), "a ping-req has another length")
        until(lambda: wanted in relay.came, f"the relay is asked in version {version} by {wanted.hex()}")
        must_be_quiet(daemon.stop(), 0)


def a_relay_seals_what_it_sends(machine):
    """A bare daemon pings for a sealed request of version 2, and sends the ack on, each with a tag by its first key."""
    target, asker = machine.socket(), machine.socket()
    relay = machine.started(1, keys=key_texts(FIRST, SECOND), tick_ms=MINUTE)
    for number, key in ((8, FIRST), (9, SECOND)):
        request = datagram(REQUEST, 2, 2, 3, number, 2, target.getsockname()[1])
        asker.sendto(request, relay.address)
        asker.sendto(sealed(STRANGE, request), relay.address)
        asker.sendto(sealed(key, request), relay.address)
        must(target.recv(100) == sealed(FIRST, datagram(PING, 1, 2, 3, number, 2)), "the target gets another ping")
        ack = datagram(ACK, 3, 2, 3, number, 2)
        target.sendto(ack, relay.address)
        target.sendto(sealed(key, ack), relay.address)
        must(asker.recv(100) == sealed(FIRST, datagram(ACK, 1, 2, 3, number, 2)), "the asker gets another ack")
    must_get_nothing(target, asker)
    closing = relay.stop()
    must(closing == (0, "stopped", 4, 0, 0, 0, 0), f"it ended {closing}")


def forgeries_leave_no_trace(machine):
    """Of each kind, with or without --quiet: none is answered, none is an entry, and none is counted as `wire`."""
    for id, words in ((1, []), (2, ["--quiet"])):
        peer, other, aim = (machine.socket() for _ in range(3))
        daemon = machine.started(id, how={"words": words}, keys=key_texts(FIRST, SECOND), tick_ms=MINUTE)
        texts = [datagram(PING, 9, 9, id, 1), datagram(PING, 9, 9, id, 1, 2), datagram(REQUEST, 9, 9, 8, 1)]
        texts += [datagram(REQUEST, 9, 9, 8, 1, 2, aim.getsockname()[1]), datagram(ACK, 9, id, 9, 1), bytes(24)]
        sent, markers = [bytes(length) for length in (0, 1, 15, 16, 24, 30, 40, 46, 64, 65, 1_400)], 0
        sent += [it for text in texts for it in forged(text)]
        for place, it in enumerate(sent):
            other.sendto(it, daemon.address)
            if place % PINGS_BETWEEN == 0:
                markers += 1
                must_answer(peer, daemon, FIRST, markers)
        must_answer(peer, daemon, SECOND, markers + 1)
        must_get_nothing(peer, other, aim)
        closing = daemon.stop()
        must(closing == (0, "stopped", markers + 1, 0, 0, 0, 0), f"it ended {closing}")
        file = journal_of(daemon)
        must_verify(machine.simulator, file)
        must(told(file.text) == ["sent"] * (markers + 1), f"the journal file has {file.text[-1_000:]!r}")
        if words:
            must(but_for_warnings(daemon.told) == b"", f"with {words} it tells {daemon.told!r}")
        else:
            found = refusals_told(daemon, daemon.told)
            must(len(found) == 1 and found[0][0] == address_of(other), f"of {len(sent)} forgeries it tells {found}")


def the_first_forgery_is_told_at_once(machine):
    """By its address; of a hundred more nothing is told within a minute."""
    daemon, other = machine.started(1, keys=key_texts(FIRST), tick_ms=MINUTE), machine.socket()
    other.sendto(datagram(PING, 9, 9, 1, 1), daemon.address)
    until(lambda: b"forged" in daemon.told_so_far(), "the first one is told", AT_ONCE)
    for number in range(100):
        other.sendto(sealed(STRANGE, datagram(PING, 9, 9, 1, number + 2)), daemon.address)
    must_answer(machine.socket(), daemon, FIRST, 1)
    closing = daemon.stop()
    must(closing == (0, "stopped", 1, 0, 0, 0, 0), f"it ended {closing}")
    found = refusals_told(daemon, daemon.told)
    must(found == [(address_of(other), 1)], f"it tells {daemon.told!r}")


def what_has_a_tag_is_decoded(machine):
    """Bytes that are no datagram, with a tag: they are counted as `wire`, as in a group without keys, and not told."""
    daemon, peer = machine.started(1, keys=key_texts(FIRST, SECOND), tick_ms=MINUTE), machine.socket()
    ping = datagram(PING, 9, 9, 1, 1)
    texts = [
        b"", b"x", ping[:-1], ping + b"\0", bytes(24), bytes(30), sealed(FIRST, ping)[:30], ping[:2] + b"\3" + ping[3:]
    ]
    for number, text in enumerate(texts, 1):
        peer.sendto(sealed((FIRST, SECOND)[number % 2], text), daemon.address)
        must_answer(peer, daemon, FIRST, number)
    must_get_nothing(peer)
    closing = daemon.stop()
    must(closing == (0, "stopped", len(texts), 0, 0, len(texts), 0), f"it ended {closing}")
    must(refusals_told(daemon, daemon.told) == [], f"it tells {daemon.told!r}")


def period_numbers_begin_at_the_clock(machine):
    """Where keys are set and `last` is absent. What is given is taken as it is, also 0, and without keys it is 0."""
    keys = key_texts(FIRST)
    cases = [
        ({"keys": keys}, None),
        ({"keys": keys, "last": 7}, 7),
        ({"keys": keys, "last": 0}, 0),
        ({"last": 7}, 7),
        ({}, 0),
    ]
    for id, (values, last) in enumerate(cases, 1):
        member, before = machine.socket(), int(time.time() * 1_000)
        daemon = machine.started(id, members=[(9, member.getsockname()[1])], k=0, **values)
        found = member.recv(100)
        after, number = int(time.time() * 1_000), fields(found)[4]
        must(daemon.stop().status == 0, "it ended otherwise")
        text = datagram(PING, id, id, 9, number)
        must(
            found == (sealed(FIRST, text) if "keys" in values else text),
            f"with {values} the first ping is {found.hex()}",
        )
        begins = first_period(daemon)
        must(
            number == begins + 1,
            f"with {values} the file begins behind {begins}, and the first ping has the number {number}",
        )
        is_clock = before <= begins <= after
        must(
            is_clock if last is None else begins == last,
            f"with {values} periods begin behind {begins}, between {before} and {after}",
        )


def period_numbers_go_on_from_life_to_life(machine):
    """The clock is looked at once: a later life begins behind the last number of the one before."""
    member = Answerer(machine.socket(), 2, lambda *_: True, sealing(FIRST))
    daemon = machine.started(1, members=[(2, member.port)], keys=key_texts(FIRST), k=0, journal=40)
    until(lambda: daemon.lives_so_far() >= 2, "two lives")
    must(daemon.states() == {2: "up"}, f"a member that answers is listed as {daemon.states()}")
    must(daemon.stop().status == 0, "it ended otherwise")
    numbers = [fields(it)[4] for it in member.came]
    must(numbers == list(range(numbers[0], numbers[0] + len(numbers))), f"the numbers of its pings are {numbers}")
    must_verify(machine.simulator, *(it for it in journals(daemon.values["journal_dir"]) if told(it.text)))


def recorded(daemon, member):
    """The acks of a member in a run of the daemon, which is stopped then, by their numbers."""
    until(lambda: len(member.came) >= REPLAYED_PERIODS, "acks that are recorded")
    must_be_quiet(daemon.stop(), 0)
    texts = [datagram(ACK, 2, 1, 2, fields(it)[4]) for it in member.came]
    return {fields(it)[4]: sealed(FIRST, it) for it in texts}


class Replayer(threading.Thread):
    """Sends the same datagrams again and again, until it is told to end."""

    def __init__(self, socket, texts, address):
        super().__init__(daemon=True)
        self.socket, self.texts, self.address, self.is_over = socket, texts, address, False
        self.start()

    def run(self):
        while not self.is_over:
            for it in self.texts:
                self.socket.sendto(it, self.address)
            time.sleep(0.01)


def judged_at(machine, daemon, acks):
    """The period at whose end member 2 is judged, where these acks are sent again and again from before the start
    on."""
    replayer = Replayer(machine.socket(), list(acks.values()), daemon.address)
    daemon.start()
    until(lambda: daemon.states() == {2: "failed"}, "a member that is dead is judged")
    replayer.is_over = True
    replayer.join()
    return int(daemon.table()[2].state.split()[1])


def acks_of_an_earlier_run(machine):
    """They have a tag by the key, and are heard as any other: with `last` left out their numbers are of the past, and a
    member that is dead is judged. With the same `last` in both runs they keep it up, for as many periods as were
    recorded."""
    for values in ({}, {"last": 0}):
        is_dead = []
        member = Answerer(machine.socket(), 2, lambda *_, dead=is_dead: not dead, sealing(FIRST))
        daemon = machine.started(1, members=[(2, member.port)], keys=key_texts(FIRST), k=0, **values)
        acks = recorded(daemon, member)
        is_dead.append(True)
        number = judged_at(machine, daemon, acks)
        must(daemon.stop()[3:] == (1, 0, 0, 0), "it judged others, or counted what it was sent")
        file, begins = journal_of(daemon), first_period(daemon)
        heard = sum(file.text.count(b" %s\n" % it[:24].hex().encode()) for it in acks.values())
        must(heard > len(acks), f"of {len(acks)} acks {heard} stand in the journal file")
        if values:
            must(number > max(acks), f"acks of the periods {list(acks)} keep it up to period {number}")
        else:
            must(begins > max(acks), f"it begins behind {begins}, and the acks are of {list(acks)}")
            must(number <= begins + 2, f"it begins behind {begins}, and judges in period {number}")


def fingerprints(ring):
    """By which people tell keys apart: the first digits of the SHA-256 of each."""
    return [hashlib.sha256(it).hexdigest()[:8] for it in ring]


def a_start_tells_the_keys(machine):
    """By their fingerprints, in order, in the line that tells that it listens; a daemon without keys tells none."""
    for ring in ([], [FIRST], [SECOND, FIRST, THIRD]):
        values = {"keys": key_texts(*ring)} if ring else {}
        daemon = machine.started(1, tick_ms=MINUTE, **values)
        must(daemon.stop().status == 0, "it ended otherwise")
        words = ["", "keys", *fingerprints(ring)] if ring else [""]
        lines = told_lines(daemon, daemon.told)
        must(lines[0] == listens(daemon) + " ".join(words), f"it tells {lines}")
        must(not any(it in daemon.told.decode() for it in key_texts(*ring)), f"it tells {daemon.told!r}")


def check_tells_how_many(machine):
    """`swimd check` says how many keys there are, and of each its fingerprint."""
    for ring in ([FIRST], [FIRST, SECOND, THIRD, STRANGE]):
        daemon = machine.daemon(1, keys=key_texts(*ring), last=7, wire=2)
        with open(daemon.file, "rb") as file:
            ran = subprocess.run([machine.program, "check"], stdin=file, capture_output=True, timeout=SECONDS)
        line = next((it for it in ran.stdout.splitlines() if it.startswith(b"k ")), b"")
        wanted = b"k 1 rtt 3 period 12 tick_ms 20 last 7 journal 1000000 wire 2 keys %d" % len(ring)
        must((ran.returncode, ran.stderr, line) == (0, b"", wanted), f"`check` says {ran!r}")
        told = [it for it in ran.stdout.splitlines() if it.startswith(b"key ")]
        must(told == [b"key %s" % it.encode() for it in fingerprints(ring)], f"`check` says {ran.stdout!r}")
        must(not any(it.encode() in ran.stdout for it in key_texts(*ring)), f"`check` says {ran.stdout!r}")


def keys_that_are_none(machine):
    """A daemon doesn't start with them, and doesn't write them."""
    for keys in ([], key_texts(FIRST) * 5, [FIRST.hex()[:-1]], [FIRST.hex()[:-1] + "g"], [FIRST.hex() + "0"], [""]):
        daemon = machine.daemon(1, keys=keys)
        refused(machine.program, ["run", "--config", daemon.file], (b"configuration 6 keys\n", 1))
        ran = subprocess.run([machine.program, "run", "--config", daemon.file], capture_output=True, timeout=SECONDS)
        must(FIRST.hex()[:32].encode() not in ran.stderr, f"it says {ran.stderr!r}")


def a_key_is_made(machine):
    """`swimd key` writes 64 hexadecimal digits and a line feed, others each time, of which a configuration takes
    each."""
    ask, keys = {"stdin": subprocess.DEVNULL, "stderr": subprocess.PIPE, "timeout": SECONDS}, []
    for _ in range(MADE):
        ran = subprocess.run([machine.program, "key"], stdout=subprocess.PIPE, **ask)
        is_key = re.fullmatch(rb"[0-9a-f]{64}\n", ran.stdout)
        must((ran.returncode, ran.stderr) == (0, b"") and is_key, f"it ends {ran}")
        keys.append(ran.stdout.decode().strip())
    alike = [place for place in range(0, 64, 2) if len({key[place : place + 2] for key in keys}) == 1]
    must(len({*keys}) == MADE and not alike, f"a key comes twice, or bytes are the same in all: {keys}")
    again = [key for key in keys if len({key[place : place + 8] for place in range(0, 64, 8)}) < 8]
    must(not again, f"four bytes stand in a key twice: {again}")
    must(machine.started(1, keys=keys[:4], tick_ms=MINUTE).stop().status == 0, "a daemon doesn't take them")
    with open("/dev/full", "wb") as full:
        ran = subprocess.run([machine.program, "key"], stdout=full, **ask)
    must((ran.returncode, ran.stderr) == (1, b""), f"on a full disk it ends {ran}")
    for words in (["key", "2"], ["key", "--quiet"], ["keys"]):
        refused(machine.program, words, (b"usage\n", 2))


KEYS = [
    the_example_of_the_formats,
    who_has_a_key_stays_up,
    pings_by_each_key_are_answered,
    requests_are_sealed,
    a_relay_seals_what_it_sends,
    forgeries_leave_no_trace,
    the_first_forgery_is_told_at_once,
    what_has_a_tag_is_decoded,
    period_numbers_begin_at_the_clock,
    period_numbers_go_on_from_life_to_life,
    acks_of_an_earlier_run,
    a_start_tells_the_keys,
    check_tells_how_many,
    keys_that_are_none,
    a_key_is_made,
]
