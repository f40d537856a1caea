"""Who watches a daemon: what it is told, and whether that is what the daemon's journal files say."""

import re
import select
import time

from tests.support.daemons import SECONDS, DaemonFault, connected, must

CHANGE = re.compile(r"up [1-9]\d* [\d.]+:\d+|failed [1-9]\d* [1-9]\d*|gone [1-9]\d*|life [1-9]\d*")
STARTED = re.compile(r"started judged (\d+|-) .*")


class Watcher:
    """One who watches the daemon at the events' socket of a path, and keeps what it is told."""

    def __init__(self, path):
        self.socket, self.text, self.count, self.is_over = connected(path), b"", 0, False

    def fileno(self):
        return self.socket.fileno()

    def take(self):
        """Takes what lies there."""
        more = self.socket.recv(65_536)
        self.text, self.count, self.is_over = self.text + more, self.count + more.count(b"\n"), not more

    @property
    def lines(self):
        """The whole lines so far."""
        return self.text.decode().split("\n")[:-1]

    def close(self):
        self.socket.close()


def hear(watchers, is_enough, what, seconds=SECONDS):
    """Takes in what these are told, until it is enough."""
    end = time.monotonic() + seconds
    while not is_enough():
        if time.monotonic() >= end:
            newest = [it.lines[-3:] for it in watchers][:5]
            raise DaemonFault(f"{what}: not within {seconds} seconds; told are {newest}")
        open_ones = [it for it in watchers if not it.is_over]
        for it in select.select(open_ones, [], [], 0.05)[0] if open_ones else []:
            it.take()


def hear_all(watchers, what="the end of what is told", seconds=SECONDS):
    """Takes in what these are told, to its end."""
    hear(watchers, lambda: all(it.is_over for it in watchers), what, seconds)


def table_and_changes(lines):
    """The table that comes first, and the lines behind it, of which only the last may be no change."""
    must("." in lines, f"no table ends in {lines[:9]}")
    at = lines.index(".")
    rows, rest = lines[:at], lines[at + 1 :]
    ids = [int(it.split(" ")[1]) for it in rows]
    must(all(re.match("up|failed", it) for it in rows) and ids == sorted(set(ids)), f"no table is {rows}")
    wrong = [it for it in rest[:-1] if not CHANGE.fullmatch(it)]
    must(not wrong, f"no changes are {wrong[:9]}")
    return rows, rest


def after(rows, changes):
    """The lines of a table after these changes, ascending by id."""
    table = {it.split(" ")[1]: it for it in rows}
    for words in (it.split(" ") for it in changes if not it.startswith("life")):
        table[words[1]] = " ".join(words)
        if words[0] == "gone":
            del table[words[1]]
    return sorted(table.values(), key=lambda it: int(it.split(" ")[1]))


def told_by(files):
    """The rows of the first table of these journal files of one start, and what changed from there on, over lives."""
    changes, first = [], []
    for file in files:
        lines = file.text.decode().split("\n")
        last, rows, periods, call = 0, [], 0, ""
        changes += [f"life {file.life}"] if file.life else []
        for line in lines:
            words = line.split(" ")
            if words[0] == "open":
                last = int(words[5])
            elif words[0] == "row":
                rows.append(f"failed {words[1]} {words[4]}" if words[3:] else f"up {words[1]} {words[2]}")
            elif words[0] == "=":
                answer = " ".join(words[2:])
                periods += answer.startswith("started")
                changes += change_of(call, answer, last + periods - 1)
                call = ""
            elif words[0] in ("join", "remove"):
                call = line
        first = after(rows, []) if file == files[0] else first
    return first, changes


def change_of(call, answer, period):
    """What an entry changed: the call's line, where it is a join or a removal, and the text of its answer."""
    if answer.startswith("joined"):
        return [f"up {call[len('join '):]}"]
    if answer == "removed":
        return [f"gone {call[len('remove '):]}"]
    judged = STARTED.fullmatch(answer)
    return [f"failed {judged[1]} {period}"] if judged and judged[1] != "-" else []


def must_be_told(watcher, files, ending="ended"):
    """What a watcher was told is a table of a beginning of the journal, and then exactly what changed behind it, up to
    that ending. Who didn't keep up was told a beginning of that."""
    first, changes = told_by(files)
    rows, rest = table_and_changes(watcher.lines)
    must(rest[-1:] == [ending], f"the last line is {rest[-1:]}, and not {ending}")
    said = rest[:-1]
    places = range(len(changes) + 1) if ending == "lost" else [len(changes) - len(said)]
    fits = (at >= 0 and changes[at : at + len(said)] == said and after(first, changes[:at]) == rows for at in places)
    told = f"told are {rows} and {said[:20]}.. of {len(said)}"
    must(any(fits), f"{told}, and the journal says {first} and {changes[:20]}.. of {len(changes)}")
