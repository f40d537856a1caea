"""A daemon that reads its configuration file again: `rejoin` is taken over while it runs, from the next start of a
period on. A 0 ends its knocks, and it forgets them."""

import contextlib
import re
import time

from tests.support.configurations import HOST
from tests.support.daemons import must, stop_all, until
from tests.support.datagrams import ACK, datagram, fields
from tests.swimd.daemon_groups import all_up
from tests.swimd.daemon_reloading import reload, stats_of
from tests.swimd.daemon_returning import Silent, all_up_within, judged_by, periods_of_a_round, wired

QUIET_PERIODS = 8


def figure(daemon, metric):
    """What it tells of a metric that has one value."""
    return int(re.search(rf"(?m)^{metric}\{{[^}}]*\}} (\d+)$", stats_of(daemon).decode()).group(1))


def knocks_of(daemon):
    """How often it says that it knocked."""
    return figure(daemon, "swimd_knocks_total")


def let_begin(daemon, count):
    """Waits until so many more of its periods have begun."""
    last = figure(daemon, "swimd_period_number") + count
    until(lambda: figure(daemon, "swimd_period_number") >= last, f"{count} periods begin")


def drained(socket):
    """The number of the last datagram that lies in the socket, if one does."""
    number = None
    socket.setblocking(False)
    with contextlib.suppress(BlockingIOError):
        while True:
            number = fields(socket.recv(100))[4]
    socket.settimeout(20)
    return number


def answer(silent, number):
    silent.socket.sendto(datagram(ACK, 2, 1, 2, number), silent.daemon.address)


def must_not_knock(silent, what):
    """For some periods nobody is knocked at, and no verdict is taken back."""
    knocks = knocks_of(silent.daemon)
    silent.must_stay_failed(QUIET_PERIODS, what)
    must(knocks_of(silent.daemon) == knocks, f"{what}: it knocks")
    must(drained(silent.socket) is None, f"{what}: a datagram comes")


def steps_of(numbers):
    return [later - number for number, later in zip(numbers, numbers[1:])]


def brought_up(daemons, wires):
    """Whether all are up. Whoever was judged before it was there, an operator lets join again."""
    for it in daemons:
        failed = {id for id, state in it.states().items() if state == "failed"}
        joins = [f"join {id} {HOST}:{port}\n".encode() for id, port in wires.known(it.id) if id in failed]
        must(it.ask(*joins).count(b"joined ") == len(joins), f"member {it.id} lets nobody join again")
    return all_up(daemons)


def a_reload_brings_a_member_back(machine):
    """In a group of three whose members come back by an operator alone, one is killed, judged, and started again. It
    stays failed, until the others read their files again: then it is up everywhere, and nobody else was started."""
    every = 3
    daemons, wires = wired(machine, 3, rejoin=0)
    until(lambda: brought_up(daemons, wires), "all are up before")
    killed, others = daemons[1], [daemons[0], daemons[2]]
    killed.kill()
    until(lambda: judged_by(others, killed.id), "the killed one is judged")
    # Itself it may judge another, too, where this machine stands still for a moment.
    killed.values["rejoin"] = every
    killed.write()
    killed.start()
    time.sleep(QUIET_PERIODS * killed.period_seconds)
    must(judged_by(others, killed.id), "it is up without a reload")
    started = [it.child.pid for it in others]
    for it in others:
        reload(it, rejoin=every)
    took = all_up_within(daemons, periods_of_a_round(3) + every, "it is up again everywhere")
    print(f"  up again everywhere after {took:.1f} periods")
    must([it.child.pid for it in others] == started, "a daemon was started anew")
    stop_all(daemons)


def a_reload_to_0_ends_knocks(machine):
    """After it nobody is knocked at, and no ack is believed; nor is one of a knock from before it, once there are
    knocks again."""
    silent = Silent(machine, rejoin=1)
    numbers = [silent.knock() for _ in range(3)]
    reload(silent.daemon, rejoin=0)
    # A start may have begun before the answer came.
    let_begin(silent.daemon, 2)
    last = drained(silent.socket) or numbers[-1]
    answer(silent, last)
    must_not_knock(silent, "with 0")
    reload(silent.daemon, rejoin=3)
    answer(silent, last)
    first = silent.knock()
    answer(silent, last)
    second = silent.knock()
    must(second - first == 3, f"of the knocks {first} and {second} the later one isn't three starts behind")
    must(not silent.is_up(), "an ack of a knock from before the 0 is believed")
    answer(silent, second)
    until(silent.is_up, "it is up after an ack of a knock since", 2)
    must(silent.daemon.stop().status == 0, "it ended otherwise")


def the_rule_in_force_tells_the_next_knock(machine):
    """With 1 each start has a knock, then each fourth behind the last one, and then each second."""
    silent = Silent(machine, rejoin=1)
    numbers = [silent.knock() for _ in range(3)]
    reload(silent.daemon, rejoin=4)
    while steps_of(numbers)[-1] == 1:
        numbers.append(silent.knock())
    numbers += [silent.knock() for _ in range(3)]
    steps = steps_of(numbers)
    must(steps[-4:] == [4] * 4 and set(steps[:-4]) == {1}, f"between the knocks lie {steps} starts")
    reload(silent.daemon, rejoin=2)
    while steps_of(numbers)[-1] == 4:
        numbers.append(silent.knock())
    numbers += [silent.knock() for _ in range(3)]
    steps = steps_of(numbers)
    must(steps[-3:] == [2] * 3 and steps[-4] in (2, 3), f"between the knocks lie {steps} starts")
    must(not silent.is_up(), "it is up")
    must(silent.daemon.stop().status == 0, "it ended otherwise")


def a_refused_file_rules_nothing(machine):
    """Whatever a file says of `rejoin` that has a fault, knocks go on as before, or nobody is knocked at."""
    silent = Silent(machine, rejoin=0)
    drained(silent.socket)
    reload(silent.daemon, b"configuration 9 1\n", rejoin=1, k=9)
    reload(silent.daemon, b"configuration 6 rejoin\n", rejoin=65_536, k=1)
    must_not_knock(silent, "after two files with faults")
    reload(silent.daemon, rejoin=1)
    silent.knock()
    reload(silent.daemon, b"configuration 6 rejoin\n", rejoin=-1)
    drained(silent.socket)
    numbers = [silent.knock() for _ in range(QUIET_PERIODS)]
    must(set(steps_of(numbers)) == {1}, f"the knocks have the numbers {numbers}")
    must(silent.daemon.stop().status == 0, "it ended otherwise")


RULES = [
    a_reload_brings_a_member_back,
    a_reload_to_0_ends_knocks,
    the_rule_in_force_tells_the_next_knock,
    a_refused_file_rules_nothing,
]
