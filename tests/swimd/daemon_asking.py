"""`swimd ask`: a line made of words, its statuses, and that nothing it meets makes it hang; help and the version."""

import os
import re
import socket
import subprocess
import time
from contextlib import contextmanager

from tests.support.daemons import SECONDS, come, must, until
from tests.support.documents import names_of_answers, tables_of_members
from tests.swimd.daemon_lines import LISTED, MINUTE, quiet

# How long a limit of one second may take on a machine that has much to do.
SOON = 5.0
# So many daemons are stopped, by one who asks, by two, and so on.
STOPS = 6
FULL = "/dev/full"


def ran(program, *words, **streams):
    """What a call writes on standard output and on standard error, and its status."""
    usual = {"stdin": subprocess.DEVNULL} if "input" not in streams and "stdin" not in streams else {}
    usual |= {"stdout": subprocess.PIPE, "stderr": subprocess.PIPE}
    it = subprocess.run([program, *words], timeout=SECONDS, **{**usual, **streams})
    return it.stdout, it.stderr, it.returncode


def asked(daemon, *words, **streams):
    return ran(daemon.program, "ask", "--control", daemon.control, *words, **streams)


def must_be(found, wanted, what):
    must(found == wanted, f"{what}: {found!r}, and not {wanted!r}")


def must_be_refused(found, what):
    """Such words ask nothing; below `usage` stand only lines that begin with two spaces, the last of them a line that
    works."""
    out, err, status = found
    first, *below = err.decode().split("\n")
    must((out, first, status) == (b"", "usage", 2), f"{what}: {found!r}")
    must(below.pop() == "" and below and all(re.fullmatch("  [ -~]+", it) for it in below), f"{what}: {found!r}")
    must(below[-1].startswith("  a line that works: swimd "), f"{what}: {found!r}")


def a_line_of_words(machine):
    """The words are one line, with single spaces between them, and standard input isn't read."""
    daemon = quiet(machine)
    must_be(asked(daemon, "list"), (LISTED, b"", 0), "`list`")
    must_be(asked(daemon, "list", input=b"stop\n"), (LISTED, b"", 0), "`list` with `stop` on standard input")
    must_be(asked(daemon, "gap", "2"), (b"gap none\n", b"", 0), "two words")
    must_be(asked(daemon, "gap 2"), (b"gap none\n", b"", 0), "two words in one")
    must_be(asked(daemon, "--timeout", "1", "list"), (LISTED, b"", 0), "a limit in front")
    must_be(asked(daemon, "list", "--timeout", "86400"), (LISTED, b"", 0), "a limit behind")
    must_be(asked(daemon, "--", "list"), (LISTED, b"", 0), "a word behind `--`")
    must_be(asked(daemon, ""), (b"fault 2\n", b"", 3), "an empty word")
    must_be(asked(daemon, "list", ""), (b"fault 5\n", b"", 3), "an empty word behind a word")
    must_be(asked(daemon, "a" * 128), (b"fault 2\n", b"", 3), "a line of 128 bytes")
    must_be(asked(daemon, "a" * 129), (b"fault 1\n", b"", 3), "a line of 129 bytes")
    must_be(asked(daemon, "a" * 100_000), (b"fault 1\n", b"", 3), "a line of 100,000 bytes")
    must_be(asked(daemon), (b"", b"", 0), "no words, and nothing on standard input")
    must(daemon.stop().entries == 0, "it made entries")


def a_path_of_the_environment(machine):
    """Without `--control` the daemon is asked whose control socket SWIMD_CONTROL names."""
    daemon, other = quiet(machine), machine.started(9, tick_ms=MINUTE)
    surroundings = {**os.environ, "SWIMD_CONTROL": daemon.control}
    for words in (["list"], ["--timeout", "1", "list"]):
        must_be(ran(daemon.program, "ask", *words, env=surroundings), (LISTED, b"", 0), f"without a path, {words}")
    must_be(ran(daemon.program, "ask", env=surroundings, input=b"list\n"), (LISTED, b"", 0), "a line of standard input")
    it = ran(daemon.program, "ask", "--control", other.control, "list", env=surroundings)
    must_be(it, (b".\n", b"", 0), "a path beside that")


def answers_with_names(machine):
    """With `--explain` the names of docs/FORMATS.md stand behind the numbers of answers, and else they are the same."""
    daemon = quiet(machine)
    names = names_of_answers()
    lines = [
        b"no", b"join 0 1.2.3.4:5", b"join 6", b"list ", b"join 5 10.0.0.5:7000", b"join 5 10.0.0.5:7000", b"remove 9",
        b"join 1 1.2.3.4:5", b"remove 5", b"gap 2", b"list",
    ]
    told = [
        *(f"fault {it} {names['fault'][it]}" for it in "2345"),
        *(f"refused {it} {names['refused'][it]}" for it in "241"), "removed", "gap none",
    ]
    out, err, status = asked(daemon, "--explain", input=b"".join(it + b"\n" for it in lines) + b"lis")
    found = out.decode().split("\n")
    place = found.pop(4)
    must(re.fullmatch(rf"joined \d+ {names['joined']['P']}", place), f"a join is told {place!r}")
    last = [*LISTED.decode().split("\n")[:-1], f"fault 6 {names['fault']['6']}", ""]
    must_be(found, [*told, *last], "what is explained")
    must_be((err, status), (b"", 3), "faults among what is explained")
    must_be(asked(daemon, "--explain", "a" * 129)[0], f"fault 1 {names['fault']['1']}\n".encode(), "a long line")
    must_be(asked(daemon, "--explain", "list"), (LISTED, b"", 0), "a list")
    until(lambda: asked(daemon, "stats")[0] != b".\n", "something is counted")
    stats, plain = (asked(daemon, *it, "stats")[0] for it in (["--explain"], []))
    first = lambda text: [it.split(b" ")[0] for it in text.split(b"\n")]
    must_be(first(stats), first(plain), "counts")
    must_be(asked(daemon, "--explain", "stop"), (b"stopping\n", b"", 0), "a stop")
    must(daemon.ended().status == 0, "it ended otherwise")
    must(names["refused"] == names_of_answers("Words of swimsim")["refused"], "swimsim has other names")


def a_list_as_a_configuration(machine):
    """`ask list --toml` writes tables, with which a daemon knows the same members, and OPERATING has it so."""
    members = [(2, "10.0.0.2:7000"), (17, "10.0.0.17:7017")]
    daemon, other = machine.started(members=members, tick_ms=MINUTE), machine.daemon(1, tick_ms=MINUTE)
    listed, _, _ = asked(daemon, "list")
    wanted = b"".join(f'[[member]]\nid = {id}\nat = "{at}"\n'.encode() for id, at in members)
    must_be(asked(daemon, "list", "--toml"), (wanted, b"", 0), "the tables")
    must_be(asked(daemon, "--explain", "--toml", "list"), (wanted, b"", 0), "the tables, explained")
    words = tables_of_members().split(" ")
    must(words[:3] == ["swimd", "ask", "--control"] and words[4:] == ["list", "--toml"], f"OPERATING has {words}")
    with open(other.file, "ab") as file:
        file.write(wanted)
    other.start()
    must_be(asked(other, "list"), (listed, b"", 0), "a daemon of those tables")
    other.stop()
    must_be(asked(machine.started(5, tick_ms=MINUTE), "list", "--toml"), (b"", b"", 0), "a daemon that knows nobody")


def no_second_line(machine):
    """A word with a line feed is refused, and nothing of it is asked; nor is anything by other words that are none."""
    daemon = quiet(machine)
    wrong = [
        ["list\nstop"], ["list", "\nstop"], ["list", "\n"], ["--timeout", "0", "stop"], ["--timeout", "86401", "stop"]
    ]
    wrong += [["--timeout", it, "stop"] for it in ("-1", "1.5", "+1", "01", "", "x", "1s", "99999999999999999999")]
    wrong += [["--timeout"], ["--quiet", "stop"], ["--control", daemon.control, "stop"], ["-stop"]]
    wrong += [["--toml", "stop"], ["--toml"], ["--toml", "list", "stop"], ["--toml", "--explain", "stop"]]
    for words in wrong:
        must_be_refused(asked(daemon, *words), words)
    must(daemon.stop().status == 0, "it ended otherwise")


def statuses_of_answers(machine):
    """3 where something was refused, whatever else was answered; and the lines behind a fault are asked all the
    same."""
    daemon = quiet(machine)
    must_be(asked(daemon, "join", "5", "10.0.0.5:7000")[1:], (b"", 0), "a join")
    must_be(asked(daemon, "join", "5", "10.0.0.5:7000"), (b"refused 2\n", b"", 3), "the same again")
    must_be(asked(daemon, "remove", "5"), (b"removed\n", b"", 0), "a removal")
    lines = b"no\n" + b"x" * 500 + b"\ngap 2\n" + b"y" * 129 + b"\nlist\nremove 9\ngap 2\nlis"
    wanted = b"fault 2\nfault 1\ngap none\nfault 1\n" + LISTED + b"refused 4\ngap none\nfault 6\n"
    must_be(asked(daemon, input=lines), (wanted, b"", 3), "lines behind faults")
    must_be(asked(daemon, input=b"gap 2\nlist\n"), (b"gap none\n" + LISTED, b"", 0), "lines without a fault")
    must_be(asked(daemon, input=b"z" * 200), (b"fault 1\n", b"", 3), "a line that is too long, and has no end")
    # A join and a removal, and one of each that was refused.
    must(daemon.stop().entries == 4, "a line was asked twice, or not at all")


def more_lines_than_a_connection_takes(machine):
    """A daemon makes 1,048,576 reads for a connection; all lines are answered."""
    daemon = quiet(machine)
    found = asked(daemon, input=b"gap 4294967295\n" * 80_000)
    must(found == (b"gap none\n" * 80_000, b"", 0), f"80,000 lines are answered {len(found[0])} bytes, {found[1:]}")
    must(daemon.stop().status == 0, "it ended otherwise")


def a_full_journal(machine):
    daemon = quiet(machine, journal=1)
    must_be(asked(daemon, "join", "5", "10.0.0.5:7000")[1:], (b"", 0), "a join")
    found = asked(daemon, input=b"join 6 10.0.0.6:7000\ngap 2\n")
    must_be(found, (b"journal full\ngap none\n", b"", 3), "a join that meets the full journal, and a line behind it")
    must(daemon.stop().status == 0, "it ended otherwise")


def a_stop_by_words(machine):
    """When `ask` of `stop` comes back, the daemon's end is closed; the lines behind it aren't asked."""
    daemon = quiet(machine)
    must_be(asked(daemon, "stop"), (b"stopping\n", b"", 0), "`stop`")
    must(daemon.child.wait(1.0) == 0, "the daemon lives on")
    must_be(asked(daemon, "list")[1].split(b"\n")[0], b"connect control", "a daemon that is gone")
    daemon.ended()


def nobody_there(machine):
    """The first line is the outcome's, and the cause stands below it, each line of it behind two spaces."""
    folder, program = machine.folder, machine.program
    file, stale = f"{folder}/file", f"{folder}/stale.sock"
    with open(file, "w", encoding="utf-8"):
        pass
    with socket.socket(socket.AF_UNIX) as gone:
        gone.bind(stale)
    long = f"{folder}/{'x' * 120}"
    causes = {
        f"{folder}/none": "no such file or folder",
        file: "nobody serves this socket; remove it",
        stale: "nobody serves this socket; remove it",
        f"{file}/below": "a part of the path is no folder",
        long: "no path of a socket",
        f"{folder}/a\nb\x1b": "no such file or folder",
    }
    for path, words in causes.items():
        out, err, status = ran(program, "ask", "--control", path, input=b"list\n")
        shown = "".join("?" if ord(it) < 32 else it for it in path)
        must((out, status) == (b"", 5), f"{path}: {out!r}, status {status}")
        must_be(err, f"connect control\n  {shown}: {words}\n".encode(), path)


def many_stops_at_once(machine):
    """However many ask at once: each that met the daemon ends well, and says that it stops."""
    for turn in range(STOPS):
        daemon = quiet(machine)
        daemon.stand_still()
        words = [daemon.program, "ask", "--control", daemon.control, "stop"]
        pipes = {"stdin": subprocess.DEVNULL, "stdout": subprocess.PIPE, "stderr": subprocess.PIPE}
        asking = [subprocess.Popen(words, **pipes) for _ in range(1 + turn)]
        # All of them have connected by then, and sent their line.
        time.sleep(0.3)
        daemon.go_on()
        for it in asking:
            out, err = it.communicate(timeout=SECONDS)
            must_be((out, err, it.returncode), (b"stopping\n", b"", 0), f"one of {len(asking)} that ask to stop")
        must(daemon.ended().why == "stopped", "it ended otherwise")


@contextmanager
def full_queue(path):
    """A socket that listens at a path and lets nobody more in, and those who wait there."""
    with socket.socket(socket.AF_UNIX) as full:
        full.bind(path)
        full.listen(0)
        waiting = []
        try:
            while True:
                it = socket.socket(socket.AF_UNIX)
                it.setblocking(False)
                waiting.append(it)
                it.connect(path)
        except BlockingIOError:
            pass
        try:
            yield full, waiting
        finally:
            for it in waiting:
                it.close()


def a_daemon_that_stands_still(machine):
    """Five seconds are waited where no word says how long; as many clients as the queue takes hold nobody up either."""
    daemon = quiet(machine)
    daemon.stand_still()
    try:
        began = time.monotonic()
        must_be(asked(daemon, "list"), (b"", b"ask timeout\n", 5), "a daemon that is stopped")
        must(4.9 < time.monotonic() - began < 5 + SOON, f"five seconds last {time.monotonic() - began:.1f}")
    finally:
        daemon.go_on()
    until(lambda: asked(daemon, "list") == (LISTED, b"", 0), "the daemon goes on")
    path = f"{machine.folder}/full.sock"
    with full_queue(path):
        began = time.monotonic()
        found = ran(machine.program, "ask", "--control", path, "--timeout", "1", "list")
        must_be(found, (b"", b"ask timeout\n", 5), "a socket whose queue is full")
        must(time.monotonic() - began < SOON, "a limit of a second lasts longer at a full queue")
    must(daemon.stop().status == 0, "it ended otherwise")


def answers_that_cannot_be_written(machine):
    daemon = quiet(machine)
    with open(FULL, "wb") as full:
        must_be(asked(daemon, "list", stdout=full), (None, b"ask write\n", 1), "a full disk")
        must_be(asked(daemon, "--help", stdout=full)[2], 1, "help on a full disk")
    taking, giving = os.pipe()
    os.close(taking)
    with os.fdopen(giving, "wb") as broken:
        must_be(asked(daemon, "list", stdout=broken), (None, b"ask write\n", 1), "a pipe whose reader is gone")
    folder = os.open(machine.folder, os.O_RDONLY)
    try:
        must_be(asked(daemon, stdin=folder), (b"", b"ask read\n", 1), "an input that can't be read")
    finally:
        os.close(folder)
    must(daemon.stop().status == 0, "it ended otherwise")


def one_who_thinks_for_long(machine):
    """A daemon that is started anew between two lines is asked by a connection of its own."""
    daemon, pipe = quiet(machine), subprocess.PIPE
    words = [daemon.program, "ask", "--control", daemon.control]
    with subprocess.Popen(words, stdin=pipe, stdout=pipe, bufsize=0) as child:
        try:
            child.stdin.write(b"list\n")
            must_be(come(child.stdout, len(LISTED)), LISTED, "the first line")
            must(daemon.stop().status == 0, "the daemon ended otherwise")
            daemon.start()
            time.sleep(0.2)
            child.stdin.write(b"list\n")
            must_be(come(child.stdout, len(LISTED)), LISTED, "a line to the daemon that was started anew")
            child.stdin.close()
            must(child.wait(SECONDS) == 0, "it ends otherwise")
        finally:
            child.kill()
    must(daemon.stop().status == 0, "the daemon ended otherwise")


def help_and_version(machine):
    """On standard output, with status 0, and nothing else is done; what is no word is answered `usage` as ever."""
    program = machine.program
    commands = {
        (): b"[COMMAND]", ("check",): b"swimd check", ("run",): b"--config <FILE>", ("ask",): b"--control <PATH>"
    }
    for command, shown in commands.items():
        for word in ("--help", "-h"):
            out, err, status = ran(program, *command, word)
            must((err, status) == (b"", 0), f"{command} {word}: {err!r}, status {status}")
            must(b"Usage: swimd" in out and shown in out and b"--help" in out, f"{command} {word} writes {out!r}")
        for word in ("--version", "-V"):
            must_be(ran(program, *command, word), (b"swimd 1.0\n", b"", 0), f"{command} {word}")
    for words in (
        ["help"],
        ["--hel"],
        ["run"],
        ["run", "--quiet"],
        ["check", "--quiet"],
        ["--version=1"],
        ["-x"],
        ["no", "--helpx"],
    ):
        must_be_refused(ran(program, *words), words)


ASKING = [
    a_line_of_words,
    a_path_of_the_environment,
    answers_with_names,
    a_list_as_a_configuration,
    no_second_line,
    statuses_of_answers,
    more_lines_than_a_connection_takes,
    a_full_journal,
    a_stop_by_words,
    nobody_there,
    many_stops_at_once,
    a_daemon_that_stands_still,
    answers_that_cannot_be_written,
    one_who_thinks_for_long,
    help_and_version,
]
