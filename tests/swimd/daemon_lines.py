"""Control connections to a daemon: in pieces, cut off, many, silent, and by `swimd ask`."""

import os
import stat
import subprocess

from tests.support.daemons import SECONDS, come, connected, must, talk, until
from tests.support.datagrams import ACK, PING, datagram, fields

MINUTE = 60_000
ROWS = [(2, "10.0.0.2:7000"), (3, "10.0.0.3:7000")]
LISTED = b"2 10.0.0.2:7000 up\n3 10.0.0.3:7000 up\n.\n"
READS = 1_048_576
# Each command, with the fault that each of its words may have.
WORD, BAD_ID, BAD_PEER = 2, 3, 4
COMMANDS = [(b"list", [WORD]), (b"stats", [WORD]), (b"reload", [WORD]), (b"stop", [WORD])]
COMMANDS += [(b"remove 2", [WORD, BAD_ID]), (b"gap 2", [WORD, BAD_ID])]
COMMANDS += [(b"join 5 10.0.0.5:7000", [WORD, BAD_ID, BAD_PEER])]


def quiet(machine, **values):
    """A daemon of two members whose first tick is a minute away."""
    return machine.started(members=ROWS, tick_ms=MINUTE, **values)


def must_be(found, wanted, what):
    must(found == wanted, f"{what} is answered {found[:200]!r}, and not {wanted[:200]!r}")


def lines_of_a_person(machine):
    """Each answer comes before the next line is sent."""
    dialogue = [
        (b"gap 2", b"gap none\n"),
        (b"join 5 10.0.0.5:7000", b"joined "),
        (b"join 5 10.0.0.5:7000", b"refused 2\n"),
        (b"join 6", b"fault 4\n"),
        (b"join 6 10.0.0.6:7000 x", b"fault 5\n"),
        (b"remove 9", b"refused 4\n"),
        (b"remove 5", b"removed\n"),
        (b"List", b"fault 2\n"),
        (b"list ", b"fault 5\n"),
        (b"stats 3", b"fault 5\n"),
        (b"reload 3", b"fault 5\n"),
        (b"list", LISTED),
        (b"stop", b"stopping\n"),
    ]
    daemon = quiet(machine)
    with daemon.connect() as connection:
        for line, wanted in dialogue:
            connection.sendall(line + b"\n")
            found = b""
            while not found.endswith(b"\n") or (line == b"list" and not found.endswith(b".\n")):
                more = connection.recv(1_000)
                must(more, f"the connection ended behind {line!r}")
                found += more
            must(found == wanted or (wanted == b"joined " and found.startswith(wanted)), f"{line!r}: {found!r}")
        must(connection.recv(1) == b"", "more is answered behind `stop`")
    closing = daemon.ended()
    must(closing == (0, "stopped", 4, 0, 0, 0, 0), f"it ended {closing}")


def lines_in_pieces(machine):
    daemon = quiet(machine)
    text = b"list\njoin 0 1.2.3.4:5\nlist\nlis"
    wanted = LISTED + b"fault 3\n" + LISTED + b"fault 6\n"
    must_be(daemon.ask(*(bytes([it]) for it in text)), wanted, "a text byte by byte")
    must_be(daemon.ask(text[:3], text[3:17], text[17:]), wanted, "a text in three pieces")
    must_be(daemon.ask(b"\x00\xff\r\n" + text), b"fault 2\n" + wanted, "a text with bytes past ASCII")
    must_be(daemon.ask(b"a" * 128 + b"\n" + b"b" * 129 + b"\nlist\n"), b"fault 2\nfault 1\n", "a line that is too long")
    must_be(daemon.ask(), b"", "nothing")
    must(daemon.stop() == (0, "stopped", 0, 0, 0, 0, 0), "it made entries")


def a_byte_past_ascii_in_each_word(machine):
    """It is the fault of the word in which it stands."""
    daemon = quiet(machine)
    for line, faults in COMMANDS:
        words = line.split(b" ")
        for place, fault in enumerate(faults):
            for word in (
                b"\xff" + words[place], words[place][:1] + b"\xff" + words[place][1:], words[place] + b"\xff", b"\xff"
            ):
                text = b" ".join([*words[:place], word, *words[place + 1 :]])
                must_be(daemon.ask(text + b"\n"), b"fault %d\n" % fault, f"{text!r}")
    must(daemon.stop() == (0, "stopped", 0, 0, 0, 0, 0), "it made entries")


def half_a_line_and_away(machine):
    """Clients that hang up within a line, without reading, and while much is answered: the daemon goes on."""
    daemon = quiet(machine)
    for _ in range(20):
        with daemon.connect() as connection:
            connection.sendall(b"list\njoin 7 10.0.0")
    many = machine.started(2, members=[(id, f"10.0.0.2:{id}") for id in range(3, 131)], tick_ms=MINUTE)
    with many.connect() as connection:
        connection.sendall(b"list\n" * 10_000)
    must(many.ask(b"list\n").count(b"\n") == 129, "the next one isn't answered")
    must_be(daemon.ask(b"list\n"), LISTED, "the next one")
    must(many.stop().status == 0, "it ended otherwise")
    must(daemon.stop() == (0, "stopped", 0, 0, 0, 0, 0), "half a line made an entry")


def many_connections(machine):
    daemon = quiet(machine)
    for place in range(200):
        must_be(daemon.ask(b"list\n"), LISTED, f"connection {place}")
    must(daemon.stop().status == 0, "it ended otherwise")


def a_client_that_never_sends(machine):
    """The next client is served beside it, and pings are answered."""
    daemon, peer = quiet(machine), machine.socket()
    with daemon.connect() as silent, connected(daemon.control) as second:
        silent.sendall(b"gap 2\n")
        must_be(silent.recv(100), b"gap none\n", "the first client")
        second.sendall(b"list\n")
        peer.sendto(datagram(PING, 9, 9, 1, 1), daemon.address)
        must(fields(peer.recv(100)) == (ACK, 1, 9, 1, 1), "another ack")
        must_be(talk(second, []), LISTED, "the second client")
        silent.sendall(b"list\n")
        must_be(silent.recv(100), LISTED, "the first client, later")
    must(daemon.stop().entries == 1, "other entries than one ping")


def as_many_reads_as_may_be(machine):
    """A connection has 1,048,576 reads, of which each byte and the look for the end take one."""
    daemon = quiet(machine)
    for text in (b"\n" * (READS + 1), b"\n" * READS):
        found = daemon.ask(text)
        must(found == b"fault 2\n" * READS, f"{len(text)} line feeds are answered {len(found)} bytes, {found[-20:]!r}")
    found = daemon.ask(b"x\n" * (READS // 2 - 2) + b"end")
    must(found.endswith(b"fault 2\nfault 6\n"), f"as many bytes as leave one read end with {found[-20:]!r}")
    found = daemon.ask(b"x\n" * (READS // 2 - 1) + b"en")
    must(found.endswith(b"fault 2\n") and b"fault 6" not in found, f"bytes that leave no read end with {found[-20:]!r}")
    must_be(daemon.ask(b"list\n"), LISTED, "the next connection")
    must(daemon.stop().status == 0, "it ended otherwise")


def asked(daemon, lines, **streams):
    words = [daemon.program, "ask", "--control", daemon.control]
    ran = subprocess.run(words, input=lines, capture_output=True, timeout=SECONDS, **streams)
    return ran.stdout, ran.stderr, ran.returncode


def lines_by_ask(machine):
    daemon = quiet(machine)
    must(asked(daemon, b"list\nlis") == (LISTED + b"fault 6\n", b"", 3), "another answer to `list` and half a line")
    must(asked(daemon, b"") == (b"", b"", 0), "another answer to nothing")
    many = asked(daemon, b"list\n" * 150_000)
    must(many == (LISTED * 150_000, b"", 0), f"150,000 lines are answered {len(many[0])} bytes, {many[1:]}")
    must(asked(daemon, b"stop\nlist\n") == (b"stopping\n", b"", 0), "another answer to `stop`")
    must(daemon.ended() == (0, "stopped", 0, 0, 0, 0, 0), "it ended otherwise")
    gone = asked(daemon, b"list\n")
    told = f"connect control\n  {daemon.control}: nobody serves this socket; remove it\n".encode()
    must(gone == (b"", told, 5), f"a daemon that is gone: {gone}")


def a_dialogue_by_ask(machine):
    """Each answer comes before the next line is written."""
    daemon, pipe = quiet(machine), subprocess.PIPE
    words = [daemon.program, "ask", "--control", daemon.control]
    with subprocess.Popen(words, stdin=pipe, stdout=pipe, bufsize=0) as child:
        try:
            for line, wanted in (
                (b"gap 2\n", b"gap none\n"), (b"list\n", LISTED), (b"no\n", b"fault 2\n"), (b"list\n", LISTED)
            ):
                child.stdin.write(line)
                must_be(come(child.stdout, len(wanted)), wanted, f"{line!r}")
            child.stdin.close()
            must(child.wait(SECONDS) == 3 and child.stdout.read() == b"", "it ends otherwise")
        finally:
            child.kill()
    must(daemon.stop().status == 0, "the daemon ended otherwise")


def may_connect(path, user):
    """Whether a process of that user gets an answer."""
    lines = "import socket,sys\ns=socket.socket(socket.AF_UNIX)\ns.settimeout(5)\ns.connect(sys.argv[1])\n"
    lines += "s.sendall(b'list\\n')\nsys.exit(0 if s.recv(1) else 1)\n"
    words = ["python3", "-c", lines, path]
    ran = subprocess.run(words, preexec_fn=lambda: os.setuid(user), capture_output=True, timeout=SECONDS)
    return ran.returncode == 0


def the_owner_alone(machine):
    """The control socket takes nobody else, also where the daemon's mask would let everybody in."""
    os.chmod(machine.folder, 0o755)
    before = os.umask(0)
    try:
        daemon = quiet(machine)
    finally:
        os.umask(before)
    mode = stat.S_IMODE(os.stat(daemon.control).st_mode)
    if os.getuid() == 0:
        must(may_connect(daemon.control, 0), "its owner isn't answered")
        must(not may_connect(daemon.control, 65_534), f"another user is answered; the socket has mode {mode:o}")
    else:
        must(mode & 0o022 == 0, f"the control socket has mode {mode:o}")
    until(lambda: daemon.ask(b"list\n") == LISTED, "the next connection")
    must(daemon.stop().status == 0, "it ended otherwise")


LINES = [
    lines_of_a_person,
    lines_in_pieces,
    a_byte_past_ascii_in_each_word,
    half_a_line_and_away,
    many_connections,
    a_client_that_never_sends,
    as_many_reads_as_may_be,
    lines_by_ask,
    a_dialogue_by_ask,
    the_owner_alone,
]
