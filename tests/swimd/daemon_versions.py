"""Daemons of which some send version 1 of a datagram, and some version 2: they hear one another, and a relay that lists
nobody serves whoever asks it in version 2."""

import shutil

from tests.support.daemons import introduced, must, stop_all, until
from tests.support.datagrams import ACK, PING, REQUEST, datagram, fields, port_in, version_of
from tests.support.journals import journals
from tests.support.parts import leave_out, reference
from tests.swimd.daemon_groups import Answerer, must_be_quiet, must_stay_up, was_probed

MINUTE = 60_000


def mixed(machine, versions):
    """A daemon for each version, the first of which is member 1, told of all others."""
    return introduced([machine.started(id, wire=version) for id, version in enumerate(versions, 1)])


def must_all_judge(others, killed):
    for it in others:
        wanted = {other.id: "failed" if other in killed else "up" for other in [*others, *killed] if other is not it}
        until(lambda: it.states() == wanted, f"member {it.id} judges those that were killed, and nobody else")


def a_group_of_both_versions(machine):
    """Nobody is judged but one that is killed, and that one by those of both versions."""
    daemons = mixed(machine, (1, 2, 2, 1, 2))
    for it in daemons:
        until(lambda: was_probed(it, 1 if it.id != 1 else 2), f"member {it.id} probes somebody twice")
    must_stay_up(daemons, 8)
    killed, others = daemons[2], daemons[:2] + daemons[3:]
    killed.kill()
    must_all_judge(others, [killed])
    for closing in stop_all(others):
        must_be_quiet(closing, 1)


def a_group_of_both_versions_with_another_program(machine):
    """Two daemons beside two of tests/reference, one of each version: those of each that are killed are judged by the
    others."""
    if not shutil.which("rustc"):
        leave_out("rustc, the Rust compiler, is not on PATH, so no group of both versions with another program was run")
        return
    ordinary = reference()
    daemons = [machine.daemon(id, wire=version) for id, version in enumerate((1, 2, 2, 1), 1)]
    for it in daemons[:2]:
        it.program = ordinary
    introduced([it.start() for it in daemons])
    must_stay_up(daemons, 8)
    killed, others = daemons[1:3], [daemons[0], daemons[3]]
    for it in killed:
        it.kill()
    must_all_judge(others, killed)
    for closing in stop_all(others):
        must_be_quiet(closing, 2)


def each_sends_in_its_own_version(machine):
    """Pings, and what relays are asked, of which version 2 alone tells where the aim is. An ack of another version
    counts as well."""
    for id, version in ((1, 1), (2, 2)):
        aim, relay, numbers = machine.socket(), machine.socket(), set()
        ports = {5: aim.getsockname()[1], 6: relay.getsockname()[1]}
        daemon = machine.started(id, members=list(ports.items()), wire=version)
        while len(numbers) < 6:
            for target, socket in ((5, aim), (6, relay)):
                text, _ = socket.recvfrom(100)
                kind, _, _, about, number = fields(text)
                must(version_of(text) == version and kind in (PING, REQUEST), f"member {target} gets {text.hex()}")
                must(
                    port_in(text) == (ports[about] if (kind, version) == (REQUEST, 2) else None),
                    f"an address in {text.hex()}",
                )
                must((about == target) == (kind == PING), f"member {target} gets {text.hex()}")
                numbers.add((kind, number))
                if kind == REQUEST:
                    socket.sendto(datagram(ACK, about, id, about, number, 3 - version), daemon.address)
        must(daemon.states() == {5: "up", 6: "up"}, f"an ack of version {3 - version} isn't counted: {daemon.states()}")
        must_be_quiet(daemon.stop(), 0)


def a_ping_is_acked_in_its_version(machine):
    """Whatever the daemon's own is."""
    for id, own in ((1, 1), (2, 2)):
        daemon, peer = machine.started(id, wire=own, tick_ms=MINUTE), machine.socket()
        for number, version in enumerate((1, 2, 2, 1), 1):
            peer.sendto(datagram(PING, 9, 9, id, number, version), daemon.address)
            must(
                peer.recv(100) == datagram(ACK, id, 9, id, number, version),
                f"a ping of version {version} is answered otherwise",
            )
        closing = daemon.stop()
        must(closing == (0, "stopped", 4, 0, 0, 0, 0), f"it ended {closing}")


def a_relay_pings_whom_it_does_not_list(machine):
    """A bare daemon pings another one for whom asks it in version 2, and sends the ack on in that version. For whom
    asks it in version 1 it does nothing. Whatever its own version is."""
    for id, own in ((1, 1), (2, 2)):
        relay, target, asker = machine.started(id, wire=own, tick_ms=MINUTE), machine.started(
            id + 2, tick_ms=MINUTE
        ), machine.socket()
        for number in (8, 9):
            asker.sendto(datagram(REQUEST, 7, 7, target.id, number, 2, target.port), relay.address)
            must(asker.recv(100) == datagram(ACK, id, 7, target.id, number, 2), "the asker gets another ack")
        asker.sendto(datagram(REQUEST, 7, 7, target.id, 10), relay.address)
        asker.sendto(datagram(PING, 7, 7, id, 11), relay.address)
        must(asker.recv(100) == datagram(ACK, id, 7, id, 11), "a request of version 1 is answered")
        must(
            relay.stop() == (0, "stopped", 6, 0, 0, 0, 0) and target.stop() == (0, "stopped", 2, 0, 0, 0, 0),
            "they made other entries",
        )


def a_relay_knows_better_where_a_member_is(machine):
    """Where it lists the target, it pings that one at its own row's address. One that it forgot it pings where it is
    told."""
    listed, told, asker = machine.socket(), machine.socket(), machine.socket()
    port = told.getsockname()[1]
    relay = machine.started(1, members=[(3, listed.getsockname()[1])], tick_ms=MINUTE)
    asker.sendto(datagram(REQUEST, 2, 2, 3, 9, 2, port), relay.address)
    must(listed.recv(100) == datagram(PING, 1, 2, 3, 9, 2), "it pings another address than its row's")
    must(relay.ask(b"remove 3\n") == b"removed\n", "it can't be removed")
    asker.sendto(datagram(REQUEST, 2, 2, 3, 10, 2, port), relay.address)
    must(told.recv(100) == datagram(PING, 1, 2, 3, 10, 2), "it pings another address than the one it was told")
    closing = relay.stop()
    must(closing == (0, "stopped", 3, 0, 0, 0, 0), f"it ended {closing}")


def a_request_again_in_the_other_version(machine):
    """The ack is sent on to who asked last, in the version of what was asked last, and once."""
    target, first, last = machine.socket(), machine.socket(), machine.socket()
    port = target.getsockname()[1]
    relay = machine.started(1, members=[(3, port)], tick_ms=MINUTE)
    for number, version in ((9, 1), (10, 2)):
        for socket, it in ((first, 3 - version), (last, version)):
            socket.sendto(datagram(REQUEST, 2, 2, 3, number, it, port if it == 2 else None), relay.address)
            must(
                target.recv(100) == datagram(PING, 1, 2, 3, number, it),
                f"the target gets another ping for a request of version {it}",
            )
        for it in (3 - version, version):
            target.sendto(datagram(ACK, 3, 2, 3, number, it), relay.address)
        must(last.recv(100) == datagram(ACK, 1, 2, 3, number, version), f"an ack isn't sent on in version {version}")
    first.sendto(datagram(PING, 2, 2, 1, 11), relay.address)
    must(first.recv(100) == datagram(ACK, 1, 2, 1, 11), "who asked first gets the ack too")
    closing = relay.stop()
    must(closing == (0, "stopped", 9, 0, 0, 0, 0), f"it ended {closing}")


def a_cut_link_and_relays_that_list_nobody(machine):
    """Member 3 answers nothing that member 1 sends itself. Who asks relays in version 2 keeps it, though they list
    nobody; who asks them in version 1 judges it."""
    third, relay = Answerer(machine.socket(), 3, lambda sender, _: sender == 2), machine.started(2, tick_ms=MINUTE)
    known = [(2, relay.port), (3, third.port)]
    keeps, judges = machine.started(1, members=known, wire=2), machine.started(4, members=known, wire=1)
    until(lambda: third.pings.count((2, 1)) >= 10, "ten pings through the relay")
    until(
        lambda: judges.states() == {2: "up", 3: "failed"},
        "member 4, which asks in version 1, judges a member that is cut off",
    )
    must(keeps.states() == {2: "up", 3: "up"}, f"member 1, which asks in version 2, lists {keeps.states()}")
    must((2, 4) not in third.pings, "the relay pings for a request of version 1")
    must(third.versions == {(1, 2), (2, 2), (4, 1)}, f"member 3 is pinged in the versions {third.versions}")
    must_be_quiet(keeps.stop(), 0)
    must_be_quiet(judges.stop(), 1)
    must(relay.stop().status == 0, "the relay ended otherwise")


def lives_of_version_2(machine):
    """A version is that of all lives, and stands in each of their files right behind the opening."""
    aim = Answerer(machine.socket(), 3, lambda *_: True)
    daemon = machine.started(1, members=[(3, aim.port)], wire=2, k=0, journal=30)
    until(lambda: daemon.lives_so_far() >= 3, "three lives")
    must(daemon.states() == {3: "up"}, f"a member that answers is listed as {daemon.states()}")
    daemon.stop()
    must(aim.versions == {(1, 2)}, f"it pings in the versions {aim.versions}")
    files = journals(daemon.values["journal_dir"])
    heads = [it.header[1:3] for it in files]
    must(
        len(files) >= 4 and all(it[0].startswith("open 1 0 ") and it[1] == "wire 2" for it in heads),
        f"the files begin with {heads}",
    )


VERSIONS = [
    a_group_of_both_versions,
    a_group_of_both_versions_with_another_program,
    each_sends_in_its_own_version,
    a_ping_is_acked_in_its_version,
    a_relay_pings_whom_it_does_not_list,
    a_relay_knows_better_where_a_member_is,
    a_request_again_in_the_other_version,
    a_cut_link_and_relays_that_list_nobody,
    lives_of_version_2,
]
