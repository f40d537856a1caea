"""Parts that are played: a process each, whose lines go into a log and are shown in their turn."""

import contextlib
import os
import re
import subprocess
import tempfile
import threading
import time

from tests.support.parts import TOP

# What `rt ci` says of a crate that it proved, and of one whose tests it proved.
PROVED = re.compile(r"rt: (\w+)(: its tests are)? proved$")
# What it says of a crate that an earlier run on the same machine proved, whose program is there when `rt ci` is over.
KEPT = re.compile(r"rt: (\w+) is kept: ")


class Play:
    """A part that is played: a command, whose lines go into a log, and are shown in their turn."""

    def __init__(self, words, **streams):
        """What it reads is told by streams. Behind `chrt` or the like stand the words of a part."""
        self.words, self.streams = words, {"stdin": subprocess.DEVNULL, **streams}
        self.log = tempfile.NamedTemporaryFile(prefix="part-", suffix=".log")
        self.child, self.status, self.seconds, self.used, self.over = None, None, 0.0, 0.0, threading.Event()

    def begin(self):
        """Begins it, and answers it."""
        self.began = time.monotonic()
        try:
            self.child = subprocess.Popen(
                self.words, cwd=TOP, stdout=self.log, stderr=subprocess.STDOUT, text=True, **self.streams
            )
        except OSError as fault:
            self.status = str(fault)
        return self

    def end(self):
        """Waits for its end, and notes what it took: seconds by the clock, and of processors with all that it
        started."""
        if self.child:
            _, status, usage = os.wait4(self.child.pid, 0)
            self.status = os.WEXITSTATUS(status) if os.WIFEXITED(status) else -os.WTERMSIG(status)
            self.used = usage.ru_utime + usage.ru_stime
        self.seconds = time.monotonic() - self.began
        self.over.set()

    def lines(self):
        """Its lines as they come."""
        with open(self.log.name, "rb") as log:
            is_over = False
            while not is_over:
                is_over = self.over.wait(0.1)
                yield from log if is_over else whole_lines(log)


def whole_lines(log):
    """The lines that a file has more by now, but for one that isn't whole."""
    for line in iter(log.readline, b""):
        if not line.endswith(b"\n"):
            log.seek(-len(line), os.SEEK_CUR)
            return
        yield line


class Edits(Play):
    """The edits, which are tried while crates are proved, each crate's as soon as it and all below it are, and while
    parts are played. They take what processor time nobody else wants. Their lines come in their turn."""

    def __init__(self, words):
        super().__init__(["chrt", "--idle", "0", *words, "--as-named"], stdin=subprocess.PIPE)

    def proved(self, crate):
        """Names a crate that is proved. That the edits have ended is seen in their turn."""
        if self.child:
            with contextlib.suppress(OSError):
                print(crate, file=self.child.stdin, flush=True)

    def end(self):
        """No crate is named any more, which a line `.` says: the input of a run whose caller is gone just ends."""
        if self.child:
            with contextlib.suppress(OSError):
                print(".", file=self.child.stdin, flush=True)
                self.child.stdin.close()
        super().end()


class Queue:
    """Parts that are played so many at a time, in their order, each as soon as its programs are built."""

    def __init__(self, plays, lanes):
        """`plays` are pairs of a part and what plays it."""
        self.left, self.changed = list(plays), threading.Condition()
        self.built, self.is_closed = set(), False
        self.workers = [threading.Thread(target=self.work, daemon=True) for _ in range(lanes)]
        for it in self.workers:
            it.start()

    def add(self, program):
        """That program is built."""
        with self.changed:
            self.built.add(program)
            self.changed.notify_all()

    def close(self):
        """Nothing more is built: the parts that lack a program, which aren't played."""
        with self.changed:
            lacking = [it for it in self.left if not self.is_ready(it[0])]
            self.left, self.is_closed = [it for it in self.left if it not in lacking], True
            self.changed.notify_all()
        return [part for part, _ in lacking]

    def is_ready(self, part):
        return self.built.issuperset(part.programs)

    def next(self):
        """The first that can be played; None where none is left."""
        with self.changed:
            while True:
                ready = next((it for it in self.left if self.is_ready(it[0])), None)
                if ready:
                    self.left.remove(ready)
                    return ready[1]
                if self.is_closed:
                    return None
                self.changed.wait()

    def work(self):
        for play in iter(self.next, None):
            play.begin().end()
