"""`swimd watch`: what it writes of a daemon's events, as lines and as JSON, when it finds the next daemon, and how it
ends."""

import datetime
import json
import os
import subprocess
import time

from tests.support.daemons import SECONDS, lying_in, must, until
from tests.support.sayings import first_line_of
from tests.swimd.daemon_watchers import MINUTE, watched

# A daemon that is back is found within so many seconds.
FOUND_AGAIN = 2
USAGE = b"usage\n"


class Watch:
    """A `swimd watch` that runs, and what it wrote. Its path is named by a word, or by the environment."""

    def __init__(self, machine, path, *words, is_word=True):
        pipes = {"stdin": subprocess.DEVNULL, "stdout": subprocess.PIPE, "stderr": subprocess.PIPE}
        named, surroundings = (["--events", path], None) if is_word else ([], {**os.environ, "SWIMD_EVENTS": path})
        self.child, self.text = subprocess.Popen(
            [machine.program, "watch", *named, *words], **pipes, env=surroundings, bufsize=0
        ), b""
        machine.watches = [*getattr(machine, "watches", []), self.child]

    @property
    def lines(self):
        self.text += lying_in(self.child.stdout)
        return self.text.decode().split("\n")[:-1]

    def must_write(self, *lines):
        """Its lines are these, as soon as there are so many."""
        until(lambda: len(self.lines) >= len(lines) or self.child.poll() is not None, f"{lines} are written")
        must(self.lines == list(lines), f"it writes {self.lines}, and not {lines}")

    def end(self):
        self.child.kill()
        self.child.communicate()


def end_all(machine):
    for it in getattr(machine, "watches", []):
        it.kill()
        it.communicate()


def with_watches(test):
    """The same test, behind which no `swimd watch` runs any more."""

    def run(machine):
        try:
            return test(machine)
        finally:
            end_all(machine)

    run.__name__, run.__doc__ = test.__name__, test.__doc__
    return run


@with_watches
def watch_writes_lines(machine):
    """The lines as the socket has them, each as soon as it is told."""
    daemon, path = watched(machine, members=[(2, "10.0.0.2:7000")], tick_ms=MINUTE)
    watch = Watch(machine, path)
    table = ["up 2 10.0.0.2:7000", "."]
    watch.must_write(*table)
    must(daemon.ask(b"join 3 10.0.0.3:7000\n") .startswith(b"joined "), "a join is refused")
    watch.must_write(*table, "up 3 10.0.0.3:7000")
    must(daemon.ask(b"remove 2\n") == b"removed\n", "a removal is refused")
    watch.must_write(*table, "up 3 10.0.0.3:7000", "gone 2")
    must(daemon.stop().status == 0, "it ended otherwise")
    watch.must_write(*table, "up 3 10.0.0.3:7000", "gone 2", "ended")
    must(watch.child.poll() is None, "watching ended with the daemon")


@with_watches
def watch_writes_json(machine):
    """An object a line: its members are known, and the time is that of now, in UTC."""
    daemon, path = watched(machine, members=[(2, "10.0.0.2:7000")], k=0, rtt=1, period=3, tick_ms=20, journal=100)
    watch = Watch(machine, path, "--json")
    until(lambda: any("life" in it for it in watch.lines), "a life is written")
    must(daemon.ask(b"remove 2\n") == b"removed\n", "a removal is refused")
    until(lambda: any("gone" in it for it in watch.lines), "a removal is written")
    must(daemon.stop().status == 0, "it ended otherwise")
    until(lambda: any("ended" in it for it in watch.lines), "the end is written")
    found = [json.loads(it, object_pairs_hook=list) for it in watch.lines]
    for pairs in found:
        key, text = pairs.pop()
        at = datetime.datetime.strptime(text, "%Y-%m-%dT%H:%M:%S.%fZ").replace(tzinfo=datetime.timezone.utc)
        age = (datetime.datetime.now(datetime.timezone.utc) - at).total_seconds()
        must(key == "time" and 0 <= age < SECONDS, f"the time of {pairs} is {text}")
    objects = [dict(it) for it in found]
    must(
        objects[:2] == [{"event": "up", "id": 2, "peer": "10.0.0.2:7000"}, {"event": "table_ends"}],
        f"first stands {objects[:2]}",
    )
    failed = next(it for it in objects if it["event"] == "failed")
    must(
        failed == {"event": "failed", "id": 2, "period": failed["period"]} and failed["period"] >= 1,
        f"a verdict is {failed}",
    )
    life = next(it for it in objects if it["event"] == "life")
    must(life == {"event": "life", "life": 1}, f"a life is {life}")
    must({"event": "gone", "id": 2} in objects and objects[-1] == {"event": "ended"}, f"last stands {objects[-3:]}")
    must(all(it == it.replace(" ", "") for it in watch.lines), "an object has spaces")


@with_watches
def watch_finds_the_next_daemon(machine):
    """`again` stands before the table of a daemon that came after one that was stopped, or killed."""
    daemon, path = watched(machine, tick_ms=MINUTE)
    watch, other = Watch(machine, path), Watch(machine, path, "--json")
    lines = ["."]

    def both_must_write():
        watch.must_write(*lines)
        until(lambda: len(other.lines) >= len(lines), "JSON has as many lines")

    both_must_write()
    must(daemon.stop().status == 0, "it ended otherwise")
    lines.append("ended")
    both_must_write()
    daemon.members = [(7, "10.0.0.7:7000")]
    daemon.write()
    daemon.start()
    began = time.monotonic()
    lines += ["again", "up 7 10.0.0.7:7000", "."]
    watch.must_write(*lines)
    must(time.monotonic() - began < FOUND_AGAIN, "it took longer to find the next daemon")
    # Who hasn't found it before it is killed is told nothing of it.
    both_must_write()
    daemon.kill()
    daemon.start()
    lines += ["again", "up 7 10.0.0.7:7000", "."]
    both_must_write()
    events = [json.loads(it)["event"] for it in other.lines]
    must(
        events == ["table_ends", "ended", "again", "up", "table_ends", "again", "up", "table_ends"],
        f"as JSON stands {events}",
    )
    must(daemon.stop().status == 0, "it ended otherwise")


@with_watches
def watch_ends(machine):
    """Where nobody tells anything at first, where what it writes isn't read any more, and where its words are
    refused."""
    run = lambda *words: subprocess.run(
        [machine.program, "watch", *words], stdin=subprocess.DEVNULL, capture_output=True, timeout=SECONDS
    )
    path = f"{machine.folder}/nobody"
    ran = run("--events", path)
    must(
        (ran.returncode, ran.stdout, ran.stderr) == (
            5, b"", f"connect events\n  {path}: no such file or folder\n".encode()
        ),
        f"{ran!r}",
    )
    for words in (["--events"], [path], ["--events", path, "more"], ["--events", path, "--quiet"]):
        ran = run(*words)
        must((ran.returncode, ran.stdout, first_line_of(ran.stderr)) == (2, b"", USAGE), f"with {words} it is {ran!r}")
    daemon, path = watched(machine, tick_ms=MINUTE)
    usual = Watch(machine, path, is_word=False)
    usual.must_write(".")
    usual.end()
    watch = Watch(machine, path)
    watch.must_write(".")
    watch.child.stdout.close()
    must(daemon.ask(b"join 3 10.0.0.3:7000\n") .startswith(b"joined "), "a join is refused")
    status = watch.child.wait(timeout=SECONDS)
    said = watch.child.stderr.read()
    must((status, said) == (1, b"watch write\n"), f"without a reader it ends {status}, {said!r}")
    # A file that is full: nothing more can be written.
    if os.path.exists("/dev/full"):
        with open("/dev/full", "wb") as full:
            pipes = {"stdin": subprocess.DEVNULL, "stdout": full, "stderr": subprocess.PIPE}
            ran = subprocess.run([machine.program, "watch", "--events", path], **pipes, timeout=SECONDS)
        must((ran.returncode, ran.stderr) == (1, b"watch write\n"), f"where nothing is taken it is {ran!r}")
    must(daemon.stop().status == 0, "it ended otherwise")


WATCHING = [watch_finds_the_next_daemon, watch_writes_json, watch_writes_lines, watch_ends]
