"""What the gate takes, crate by crate: processor time of the prover, seen from outside while it runs."""

import json
import os
import threading
import time

from tests.support.parts import TOP

# Where the times of the last run of all parts stand.
TIMES = f"{TOP}/out/gate.json"
TICK = os.sysconf("SC_CLK_TCK")
SECONDS_A_LOOK = 0.5


def words_of(pid):
    with open(f"/proc/{pid}/cmdline", "rb") as file:
        return file.read().decode(errors="replace").split("\0")


def kind_of(words, folder):
    """Of what a process of the prover is: an edit, which is tried in a folder of its own, the tests of a crate, or the
    crate."""
    if "/edits-" in folder:
        return "edits"
    return "tests" if "--test" in words else "proof"


def fields_of(pid):
    """What the system tells of a process behind its name: its state, its parent, and so on."""
    with open(f"/proc/{pid}/stat", encoding="ascii", errors="replace") as file:
        return file.read().rpartition(")")[2].split()


def used(pid):
    """Seconds of processor time that a process took by now, its children aside."""
    fields = fields_of(pid)
    return (int(fields[11]) + int(fields[12])) / TICK


def is_ours(pid):
    """Whether this process, or one that it started, started that one: others may prove on the same machine."""
    while pid > 1 and pid != os.getpid():
        pid = int(fields_of(pid)[1])
    return pid == os.getpid()


class Meter:
    """Looks at the processes of the prover twice a second, while it is entered. What a process takes behind the last
    look isn't seen."""

    def __init__(self):
        self.seen, self.is_over = {}, threading.Event()
        self.looking = threading.Thread(target=self.look_on, daemon=True)

    def __enter__(self):
        self.looking.start()
        return self

    def __exit__(self, *_):
        self.is_over.set()
        self.looking.join()

    def look_on(self):
        while not self.is_over.wait(SECONDS_A_LOOK):
            for pid in filter(str.isdigit, os.listdir("/proc")):
                try:
                    self.look(pid)
                except (OSError, ValueError, IndexError):
                    pass

    def look(self, pid):
        words = words_of(pid)
        if os.path.basename(words[0]) == "rattle" and "--crate-name" in words and is_ours(int(pid)):
            crate = words[words.index("--crate-name") + 1]
            kind = kind_of(words, os.readlink(f"/proc/{pid}/cwd"))
            began = os.stat(f"/proc/{pid}").st_ctime_ns
            self.seen[pid, began] = crate, kind, used(pid)

    def crates(self):
        """By crate and kind, the seconds of processor time."""
        found = {}
        for crate, kind, seconds in self.seen.values():
            row = found.setdefault(crate, {})
            row[kind] = row.get(kind, 0) + seconds
        return found


def write(run, path=TIMES):
    """Writes the times of a run by part and by crate."""
    rows = [dict(zip(("part", "seconds", "processor", "passed", "failed"), it)) for it in run.rows]
    told = {
        "when": time.strftime("%Y-%m-%d", time.gmtime()),
        "processors": len(os.sched_getaffinity(0)),
        "seconds": time.monotonic() - run.began,
        "parts": rows,
        "crates": run.meter.crates(),
    }
    os.makedirs(os.path.dirname(path), exist_ok=True)
    with open(path, "w", encoding="utf-8") as file:
        json.dump(told, file, indent=1)
