"""What a daemon counts of each member: of 128 of them, of one that answers late, and of two whose addresses were swapped."""

import os
import re
import subprocess

from tests.support.configurations import HOST
from tests.support.daemons import SECONDS, Daemon, free_ports, must, stop_all, until
from tests.support.datagrams import ACK, PING, datagram
from tests.support.web_servers import WebServer
from tests.swimd.daemon_groups import Answerer
from tests.swimd.daemon_metrics import AT_ONCE, MINUTE, OF_MEMBERS, counted, must_be_counted, parsed, stats_of, written
from tests.swimd.daemon_starting import told_lines

BEGINNING = "swimd_member_"
ODD = re.compile(r"\d+ (?:at|is|was) ")
# The longest ids.
MANY, LAST_ID = 128, 4_294_967_295
# So many rounds say whether acks come by relays alone.
ROUNDS = 12


def odd_lines(daemon, text=None):
    """What it tells of senders that aren't as its table has them, and of members that are heard by relays alone."""
    lines = told_lines(daemon, daemon.told_so_far() if text is None else text)
    return [it for it in lines if ODD.match(it)]


def of_member(samples, id):
    """The samples of a member, by name and label."""
    found = {}
    for (name, label), value in samples.items():
        labels = (label or "").split(" ")
        if name.startswith(BEGINNING) and labels[0] == str(id):
            found[" ".join([name[len(BEGINNING) :], *labels[1:]])] = value
    return found


def many_members(machine):
    """Each of 128 members is told: by `stats`, by `ask`, in the file and on a page."""
    members = [(LAST_ID - it, f"10.0.0.{it + 1}:7000") for it in range(MANY)]
    daemon, path = counted(machine, members=members, k=0, tick_ms=MINUTE)
    stats, file = stats_of(daemon), written(path)
    must(set(stats) == set(file), "`stats` and the file tell of others")
    words = [machine.program, "ask", "--control", daemon.control, "stats"]
    ran = subprocess.run(words, capture_output=True, timeout=SECONDS)
    must((ran.returncode, ran.stderr) == (0, b"") and ran.stdout.endswith(b"\n.\n"), f"`ask` says {ran!r}")
    must(ran.stdout.count(b"\n") == len(stats) + 1, "`ask` says fewer lines than `stats`")
    with WebServer(machine, daemon.control) as web:
        page = parsed(web.get("/metrics").body.decode(), bare=OF_MEMBERS)
    must(set(page) == set(stats), "the page tells of others")
    must(sum(name == "swimd_member_up" for name, _ in page) == MANY, f"it tells of {len(page)}")
    must(daemon.stop().status == 0, "it ended otherwise")
    must_be_counted(written(path), daemon)


def late_acks_are_counted(machine):
    """An ack of a period that is over, once the next one runs."""
    peer = machine.socket()
    Answerer(peer, 2, lambda *_: True)
    daemon, path = counted(machine, members=[(2, peer.getsockname()[1])])
    number = until(lambda: stats_of(daemon).get(("swimd_member_heard_period", "2")), "member 2 is heard", AT_ONCE)
    until(lambda: stats_of(daemon)["swimd_period_number", None] > number + 1, "another period runs", AT_ONCE)
    peer.sendto(datagram(ACK, 2, 1, 2, int(number)), daemon.address)
    until(lambda: stats_of(daemon)["swimd_acks_late_total", None] == 1, "the late ack is counted", AT_ONCE)
    must(daemon.stop().status == 0, "it ended otherwise")
    must_be_counted(written(path), daemon)


def swapped_addresses(machine):
    """Of two members whose addresses were swapped in one configuration: each is up, and heard by the fourth alone, which
    is told once."""
    daemons = machine.group(4, k=3)
    first, second, third, _ = daemons
    first.ask(b"remove 2\nremove 3\n")
    first.ask(f"join 2 {HOST}:{third.port}\njoin 3 {HOST}:{second.port}\n".encode())
    rounds = stats_of(first)["swimd_period_number", None] + 3 * ROUNDS
    until(lambda: stats_of(first)["swimd_period_number", None] >= rounds, "some rounds are over")
    samples = stats_of(first)
    for id in (2, 3):
        found = of_member(samples, id)
        must(found["up"] == 1 and found["acks_total target"] == 0 < found["acks_total relay"], f"of {id} it tells {found}")
    found = of_member(samples, 4)
    must(found["acks_total target"] > 0 and found["asked_total"] > 0, f"of 4 it tells {found}")
    alone = [f"{id} was heard by relays alone for 10 rounds" for id in (2, 3)]
    at = {2: (second.port, third.port), 3: (third.port, second.port)}
    elsewhere = [f"{id} is heard from {HOST}:{at[id][0]}, its row has {HOST}:{at[id][1]}" for id in at]
    until(lambda: len(odd_lines(first)) >= 3, f"{alone} are told", AT_ONCE)
    # The first of the two that pings is told as one that is elsewhere, and within a minute nobody else is.
    must(sorted(odd_lines(first)) in [sorted([it, *alone]) for it in elsewhere], f"it tells {odd_lines(first)}")
    must(all(it.status == 0 for it in stop_all(daemons)), "one ended otherwise")


def whys_of(daemon):
    """How many messages of odd senders came, by why."""
    return [stats_of(daemon)["swimd_odd_senders_total", why] for why in ("unlisted", "own_id", "elsewhere")]


def a_stranger_is_told(machine):
    """One that pings and isn't listed: at once, and then not again within a minute. No ack of it is told, nor what a
    listed one says."""
    peer, other = machine.socket(), machine.socket()
    at = "{}:{}".format(*peer.getsockname())
    daemon, _ = counted(machine, members=[(2, other.getsockname()[1])], tick_ms=MINUTE)
    other.sendto(datagram(PING, 2, 2, 1, 5), daemon.address)
    peer.sendto(datagram(ACK, 7, 1, 7, 5), daemon.address)
    for number in range(1, 6):
        peer.sendto(datagram(PING, 6, 6, 1, number), daemon.address)
    until(lambda: whys_of(daemon) == [5, 0, 0], "five pings are counted", AT_ONCE)
    until(lambda: odd_lines(daemon), "it is told", AT_ONCE)
    must(daemon.ask(f"join 6 {at}\n".encode()).startswith(b"joined "), "a join is refused")
    peer.sendto(datagram(PING, 6, 6, 1, 9), daemon.address)
    until(lambda: stats_of(daemon)["swimd_pings_heard_total", None] == 7, "the last ping is counted", AT_ONCE)
    must(whys_of(daemon) == [5, 0, 0], "who joined is a stranger")
    must(daemon.stop().status == 0, "it ended otherwise")
    must(odd_lines(daemon, daemon.told) == [f"6 at {at} pings and isn't listed"], f"it tells {daemon.told!r}")


def a_namesake_is_told(machine):
    """Another daemon with this member's id."""
    daemon, _ = counted(machine, members=[(2, "10.0.0.2:7000")], tick_ms=MINUTE)
    # It thinks that member 3 is there where this one is.
    folder = f"{machine.folder}/other"
    os.mkdir(folder)
    other = Daemon(machine.program, folder, 1, free_ports(1)[0], [(3, daemon.port)])
    machine.daemons.append(other)
    other.start()
    until(lambda: whys_of(daemon)[1] > 0, "it is counted", AT_ONCE)
    wanted = f"1 is this member, and {HOST}:{other.port} speaks as 1, too"
    until(lambda: odd_lines(daemon), "it is told", AT_ONCE)
    must(odd_lines(daemon) == [wanted], f"it tells {odd_lines(daemon)}")
    must(whys_of(daemon)[::2] == [0, 0], f"it counts {whys_of(daemon)}")


def a_member_elsewhere_is_told(machine):
    """One that is listed, and heard from another address than its row's."""
    peer = machine.socket()
    daemon, _ = counted(machine, members=[(3, "10.0.0.3:7000")], tick_ms=MINUTE)
    for number in range(1, 4):
        peer.sendto(datagram(PING, 3, 3, 1, number), daemon.address)
    until(lambda: whys_of(daemon) == [0, 0, 3], "three pings are counted", AT_ONCE)
    until(lambda: odd_lines(daemon), "it is told", AT_ONCE)
    must(daemon.stop().status == 0, "it ended otherwise")
    at = "{}:{}".format(*peer.getsockname())
    must(odd_lines(daemon, daemon.told) == [f"3 is heard from {at}, its row has 10.0.0.3:7000"], f"{daemon.told!r}")


MEMBERS = [many_members, late_acks_are_counted, swapped_addresses, a_stranger_is_told, a_namesake_is_told,
           a_member_elsewhere_is_told]
