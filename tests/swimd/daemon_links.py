"""Daemons behind a link that takes almost nothing: whoever makes them answer doesn't hold them up."""

import time

from tests.support.daemons import must, until
from tests.support.datagrams import PING, datagram
from tests.support.links import FAR, NEAR, enter, slow_link, socket_on
from tests.swimd.daemon_metrics import stats_of

PORT = 7_000
# More than the system's buffer of what is to be sent holds, by default 212,992 bytes and some 700 for a datagram.
PINGS, EACH_SECONDS = 600, 0.01
# Some pings may be lost while a machine that has much to do doesn't listen.
MOST_LOST = 20
SOON = 5.0


def counted(daemon, name):
    return stats_of(daemon)[name, None]


def a_link_that_takes_nothing_holds_up_nobody(machine):
    """A stranger behind a slow link pings: the acks fill the daemon's buffer, and those that it can't take are thrown
    away. Each ping is heard, and ticks go on."""
    with slow_link() as link:
        if link is None:
            return
        daemon = machine.daemon(1, PORT, listen=f"{NEAR}:{PORT}", fence=0, k=0, rtt=1, period=5)
        daemon.start(preexec_fn=lambda: enter(link.near))
        stranger = socket_on(link.far)
        machine.sockets.append(stranger)
        stranger.bind((FAR, PORT))
        for number in range(1, PINGS + 1):
            stranger.sendto(datagram(PING, 9, 9, 1, number), (NEAR, PORT))
            time.sleep(EACH_SECONDS)
        until(lambda: counted(daemon, "swimd_pings_heard_total") >= PINGS - MOST_LOST, "the pings are heard", SOON)
        must(counted(daemon, "swimd_unsent_total") > 0, "the system took all acks")
        ticks = counted(daemon, "swimd_ticks_total")
        until(lambda: counted(daemon, "swimd_ticks_total") > ticks + 50, "it ticks", SOON)


LINKS = [a_link_that_takes_nothing_holds_up_nobody]
