"""How long ago members failed, as `ask --explain list` and a terminal have it. The rows were worked out by hand from
docs/FORMATS.md."""

import os
import re
import time

from tests.support.daemons import free_ports, must, until
from tests.swimd.daemon_asking import SOON, asked, must_be
from tests.swimd.daemon_impostors import Server, against
from tests.swimd.daemon_screens import on_a_terminal

MOST = 18_446_744_073_709_551_615
# The period that runs, the seconds of a period, the period at whose end a member failed, and what is written of it.
AGES = [
    (6, b"1.000", 5, b"1 s"),
    (124, b"1.000", 5, b"119 s"),
    (125, b"1.000", 5, b"2 min"),
    (130, b"1.000", 5, b"2 min"),
    (7_204, b"1.000", 5, b"119 min"),
    (7_205, b"1.000", 5, b"2 h"),
    (172_804, b"1.000", 5, b"47 h"),
    (172_805, b"1.000", 5, b"2 days"),
    (15, b"0.600", 12, b"1 s"),
    (15, b"0.399", 12, b"1 s"),
    (15, b"0.333", 12, b"0 s"),
    (13, b"86400.000", 12, b"24 h"),
    (1_795_897_374_581, b"2.000", 1_795_897_374_456, b"4 min"),
    # Counts are read of the journal a moment later than the list.
    (5, b"1.000", 5, b"0 s"),
    (3, b"1.000", 5, b"0 s"),
    (MOST, b"60.000", 1, b"213503982334 days"),
]
LISTED = b"2 10.0.0.2:7000 up\n3 10.0.0.3:7000 failed 5\n.\n"
NUMBER, SECONDS = b'swimd_period_number{member="1"} 130\n', b'swimd_period_seconds{member="1"} 1.000\n'
# What `stats` may be answered that doesn't tell both numbers.
UNTOLD = [
    b".\n",
    b"fault 2\n",
    NUMBER + b".\n",
    SECONDS + b".\n",
    NUMBER + b'swimd_period_seconds{member="1"} 1.00\n.\n',
    NUMBER + b'swimd_period_seconds{member="1"} 1\n.\n',
    NUMBER + b'swimd_period_seconds{member="1"} 1.0000\n.\n',
    NUMBER + b'swimd_period_seconds{member="1"} 1.0x0\n.\n',
    NUMBER + b'swimd_period_seconds{member="1"} 01.000\n.\n',
    NUMBER + b'swimd_period_seconds{member="1"}\n.\n',
    b'swimd_period_number{member="1"} 18446744073709551616\n' + SECONDS + b".\n",
    b'swimd_period_number{member="1"} x\n' + SECONDS + b".\n",
    b'swimd_period_numbers{member="1"} 130\n' + SECONDS + b".\n",
]


def answering(listed, stats):
    """A server that answers `list` and `stats` so; where `stats` is `None`, it ends the connection instead."""

    def serve(server, connection):
        while line := server.take(connection):
            if line == b"stats\n" and stats is None:
                return
            connection.sendall(listed if line == b"list\n" else stats)

    return serve


def asked_of(machine, listed, stats, *words, **streams):
    """What `ask` gives whom a server answers so, and the lines that it was asked."""
    found, lines, _ = against(machine, "answering", answering(listed, stats), *words, **streams)
    os.remove(f"{machine.folder}/answering.sock")
    return found, lines


def counts(number, seconds):
    """What a daemon answers to `stats`."""
    front = b'swimd_build_info{member="1",version="1.0"} 1\nswimd_members{member="1",state="up"} 1\n'
    numbers = b'swimd_period_number{member="1"} %d\nswimd_period_seconds{member="1"} %s\n' % (number, seconds)
    return front + numbers + b'swimd_tick_seconds{member="1"} 0.050\n.\n'


def worked_ages(machine):
    """Each unit on both sides of its limits, and numbers of thirteen digits and of twenty."""
    for number, seconds, failed, age in AGES:
        row = b"3 10.0.0.3:7000 failed %d" % failed
        listed, wanted = (b"2 10.0.0.2:7000 up\n%s\n.\n" % it for it in (row, b"%s, about %s ago" % (row, age)))
        found, lines = asked_of(machine, listed, counts(number, seconds), "--explain", "list")
        must_be(found, (wanted, b"", 0), f"failed {failed}, and period {number} of {seconds} s runs")
        must_be(lines, [b"list\n", b"stats\n"], "what is asked for it")


def rows_without_an_age(machine):
    """Where the counts don't tell both numbers, or no counts come, the table is as it is; so are other rows."""
    for stats in UNTOLD:
        found, lines = asked_of(machine, LISTED, stats, "--explain", "list")
        must_be((found, lines), ((LISTED, b"", 0), [b"list\n", b"stats\n"]), f"a list with the counts {stats}")
    strange = b"2 10.0.0.2:7000 failed\n3 10.0.0.3:7000 failed 05\n4 10.0.0.4:7000 Failed 5\n5 10.0.0.5:7000 failed 5\n.\n"
    found, _ = asked_of(machine, strange, counts(130, b"1.000"), "--explain", "list")
    must_be(found, (strange.replace(b"5:7000 failed 5", b"5:7000 failed 5, about 2 min ago"), b"", 0), "strange rows")


def counts_that_do_not_come(machine):
    """The list is written all the same, and the lines after it are asked."""
    found, lines = asked_of(machine, LISTED, None, "--explain", input=b"list\nlist\n")
    must_be(found, (LISTED * 2, b"", 0), "a list of one who tells no counts")
    must_be(lines, [b"list\n", b"stats\n"] * 2, "what one is asked who tells no counts")

    def silent(server, connection):
        if server.take(connection):
            connection.sendall(LISTED)
            server.take(connection)
            connection.recv(1)

    found, lines, seconds = against(machine, "silent", silent, "--explain", "--timeout", "1", "list")
    must_be((found, lines), ((LISTED, b"", 0), [b"list\n", b"stats\n"]), "a list of one who is silent then")
    must(0.9 < seconds < SOON, f"a limit of a second lasts {seconds:.1f}")


def counts_that_are_not_asked(machine):
    """`stats` is asked for a table with a verdict alone, and only where it is explained."""
    stats, alone = counts(130, b"1.000"), b"2 10.0.0.2:7000 up\n.\n"
    must_be(asked_of(machine, LISTED, stats, "list"), ((LISTED, b"", 0), [b"list\n"]), "a list to a pipe")
    must_be(asked_of(machine, alone, stats, "--explain", "list"), ((alone, b"", 0), [b"list\n"]), "nobody failed")
    tables = b"".join(b'[[member]]\nid = %d\nat = "10.0.0.%d:7000"\n' % (id, id) for id in (2, 3))
    must_be(asked_of(machine, LISTED, stats, "--toml", "list"), ((tables, b"", 0), [b"list\n"]), "a list as tables")
    words = ["--explain", "gap", "3"]
    must_be(asked_of(machine, b"", b"gap none\n", *words), ((b"gap none\n", b"", 0), [b"gap 3\n"]), "another line")


def ages_on_a_terminal(machine):
    """A terminal gets ages without the word."""
    path = f"{machine.folder}/terminal.sock"
    server = Server(path, answering(LISTED, counts(130, b"1.000")))
    try:
        wanted = LISTED.replace(b"failed 5", b"failed 5, about 2 min ago")
        must_be(on_a_terminal(machine.program, "ask", "--control", path, "list", lines=3), wanted, "to a terminal")
    finally:
        server.close()


def the_age_of_a_verdict(machine):
    """A daemon judges a member that isn't there, and some seconds later tells how long ago that was."""
    (port,) = free_ports(1)
    daemon = machine.started(members=[(2, f"127.0.0.1:{port}")])
    until(lambda: daemon.states() == {2: "failed"}, "nobody answers member 2's pings, and it fails")
    judged = time.monotonic()
    until(lambda: b"swimd_period_number" in daemon.ask(b"stats\n"), "the daemon has counts")
    time.sleep(4)
    out, err, status = asked(daemon, "--explain", "list")
    least, most = 1, time.monotonic() - judged + 2 * daemon.period_seconds
    found = re.fullmatch(rb"2 127\.0\.0\.1:\d+ failed \d+, about (\d+) s ago\n\.\n", out)
    must(found and (err, status) == (b"", 0), f"the list is {out!r}, with {err!r} and status {status}")
    must(least <= int(found[1]) <= most, f"a verdict of some {most:.1f} seconds ago is told as {found[1]} s ago")
    must(daemon.stop().status == 0, "it ended otherwise")


AGES_OF_VERDICTS = [
    worked_ages,
    rows_without_an_age,
    counts_that_do_not_come,
    counts_that_are_not_asked,
    ages_on_a_terminal,
    the_age_of_a_verdict,
]
