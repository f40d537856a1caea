"""What a terminal is shown, and what is told who types at one. Of what others say at a path `swimd ask` and `swimd
watch` show a terminal nothing that steers it, and anything else every byte."""

import os
import pty
import select
import subprocess
import time

from tests.swimd.daemon_asking import must_be, ran
from tests.swimd.daemon_impostors import Server
from tests.swimd.daemon_lines import LISTED, quiet
from tests.swimd.worked_configs import FULL, SUMMARY, WARNED

# A title, a bell, a byte 0, one of two bytes, a return, a delete; and what stands for each of these.
STEERING = b"a\x1b]0;b\x07c\0d\xc3\xa9e\rf\x7fg~ h\n"
SHOWN = b"a?]0;b?c?d??e?f?g~ h\n"
AT_ONCE = 5.0


def on_a_terminal(program, *words, lines):
    """What a terminal gets of a program until so many lines came, without what the terminal makes of a line's end."""
    ours, theirs = pty.openpty()
    streams = {"stdin": subprocess.DEVNULL, "stdout": theirs, "stderr": subprocess.PIPE}
    with subprocess.Popen([program, *words], **streams) as child:
        os.close(theirs)
        text, end = b"", time.monotonic() + AT_ONCE
        try:
            while text.count(b"\n") < lines and select.select([ours], [], [], max(0.0, end - time.monotonic()))[0]:
                text += os.read(ours, 4_096)
        except OSError:
            pass
        finally:
            child.kill()
            os.close(ours)
    return text.replace(b"\r\n", b"\n")


def answers_that_steer(machine):
    """An answer with bytes that don't print."""

    def steering(server, connection):
        while server.take(connection):
            connection.sendall(STEERING)

    path = f"{machine.folder}/steering.sock"
    server = Server(path, steering)
    try:
        words = ["ask", "--control", path, "gap", "2"]
        must_be(on_a_terminal(machine.program, *words, lines=1), SHOWN, "to a terminal")
        must_be(ran(machine.program, *words), (STEERING, b"", 0), "to a pipe")
    finally:
        server.close()


def names_on_a_terminal(machine):
    """A terminal gets the names of what answers tell by a number, and a pipe the answers alone."""
    daemon = quiet(machine)
    words = ["ask", "--control", daemon.control, "remove", "9"]
    must_be(on_a_terminal(machine.program, *words, lines=1), b"refused 4 unknown\n", "to a terminal")
    must_be(ran(machine.program, *words), (b"refused 4\n", b"", 3), "to a pipe")
    words = ["ask", "--control", daemon.control, "list"]
    must_be(on_a_terminal(machine.program, *words, lines=3), LISTED, "a list to a terminal")


def typed(program, *words):
    """What is told who types the configuration at a terminal, before anything is typed; and what is written then."""
    ours, theirs = pty.openpty()
    pipes = {"stdin": theirs, "stdout": subprocess.PIPE, "stderr": subprocess.PIPE}
    with subprocess.Popen([program, *words], **pipes, bufsize=0) as child:
        os.close(theirs)
        try:
            told = child.stderr.readline()
            os.write(ours, FULL.encode() + b"\x04")
            out, more = child.communicate(timeout=AT_ONCE)
        finally:
            child.kill()
            os.close(ours)
    return told, out, more


def a_configuration_that_is_typed(machine):
    """Who starts it at a terminal is told what it waits for; from a pipe nothing is told, and of a file neither."""
    told = b"swimd waits for a configuration on standard input, up to its end; swimd --help tells its commands\n"
    for words in ([], ["check"]):
        must_be(typed(machine.program, *words), (told, SUMMARY.encode(), WARNED), f"{words} at a terminal")
        must_be(ran(machine.program, *words, input=FULL.encode()), (SUMMARY.encode(), WARNED, 0), f"{words} at a pipe")
    path = f"{machine.folder}/full.toml"
    with open(path, "w", encoding="utf-8") as file:
        file.write(FULL)
    ours, theirs = pty.openpty()
    try:
        must_be(ran(machine.program, "check", path, stdin=theirs), (SUMMARY.encode(), WARNED, 0), "a file at a terminal")
    finally:
        os.close(ours)
        os.close(theirs)


def events_that_steer(machine):
    """Lines of events with such bytes."""

    def steering(server, connection):
        connection.sendall(b"up 2 10.0.0.2:7000\n" + STEERING)
        connection.recv(1)

    path = f"{machine.folder}/steering.events"
    server = Server(path, steering)
    try:
        words = ["watch", "--events", path]
        wanted = b"up 2 10.0.0.2:7000\n"
        must_be(on_a_terminal(machine.program, *words, lines=2), wanted + SHOWN, "to a terminal")
        pipes = {"stdin": subprocess.DEVNULL, "stdout": subprocess.PIPE, "stderr": subprocess.PIPE}
        with subprocess.Popen([machine.program, *words], **pipes) as child:
            try:
                found = b"".join(child.stdout.readline() for _ in range(2))
            finally:
                child.kill()
        must_be(found, wanted + STEERING, "to a pipe")
    finally:
        server.close()


SCREENS = [answers_that_steer, names_on_a_terminal, a_configuration_that_is_typed, events_that_steer]
