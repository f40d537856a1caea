"""What a daemon counts: the metrics' file and `stats` beside what its journal files say."""

import hashlib
import os
import re
import shutil
import stat
import subprocess
import time
from collections import Counter

from tests.support.daemons import SECONDS, introduced, must, until
from tests.support.datagrams import ACK, PING, datagram, fields
from tests.support.journals import journals
from tests.support.parts import leave_out
from tests.support.tags import FIRST, SECOND, THIRD, key_texts
from tests.support.watchers import Watcher
from tests.swimd.daemon_groups import Answerer
from tests.swimd.daemon_returning import Silent

MINUTE = 60_000
# The file is written as soon as a life has begun, and then every ten seconds.
AT_ONCE, PAUSE = 2, 10
BOUNDS = [2**it for it in range(16)]
MEMBER_COUNTS = ["acks_total target", "acks_total relay", "verdicts_total", "asked_total"]
REASONS = ["not_for_me", "borrowed", "about_me", "unlisted", "table_full", "stray", "no_request"]
GAUGES = [
    "build_info", "member_id", "members", "period_number", "period_seconds", "tick_seconds", "journal_entries",
    "journal_entries_limit", "journal_entries_behind", "watchers", "member_up", "member_heard_period", "journal_file_ok",
]
COUNTERS = [
    "ticks", "pings_sent", "pings_heard", "acks_heard", "acks_late", "odd_senders", "asks_sent", "requests_served", "dropped", "verdicts", "joins",
    "own_joins", "removals", "knocks", "lives", "unsent", "wire", "refused", "forged", "fenced", "lost_watchers",
    "metrics_unwritten", "member_acks", "member_verdicts", "member_asked", "journal_files_cut",
]
NAMES = {
    **{f"swimd_{it}": "gauge" for it in GAUGES},
    **{f"swimd_{it}_total": "counter" for it in COUNTERS},
    "swimd_ack_wait_ticks": "histogram",
}
# A page tells nothing of a family without samples.
OF_MEMBERS = [it for it in NAMES if it.startswith("swimd_member_") and it != "swimd_member_id"]
# Those of journal files, which a daemon has none of that writes none.
FILES_NAMES = ["swimd_journal_file_ok", "swimd_journal_files_cut_total"]
# Those of a daemon with keys.
KEYED_NAMES = {**NAMES, "swimd_key": "gauge"}
SAMPLE = re.compile(
    r'(?P<name>[a-z_]+)\{member="(?P<member>\d+)"(?:,(?:id|place)="(?P<id>\d+)")?'
    r'(?:,[a-z]+="(?P<label>(?:[^"\\]|\\["\\n])*)")?\} (?P<value>[0-9.]+)'
)
ENTRY = re.compile(r"= \d+ (.*)")


def key_of(found):
    """The name of a sample, and its label; of a member, its id and then its label, if it has one; of a key, its place
    and then its fingerprint."""
    labels = [it for it in (found["id"], found["label"]) if it is not None]
    return found["name"], " ".join(labels) or None


def parsed(text, names=NAMES, bare=()):
    """The samples of a text in the exposition format, by name and label. Each family stands together, behind what it
    tells and its type, and once, and these are all families; but these bare ones may be left out. All samples are of one
    member."""
    samples, family, seen, last_line, members = {}, None, {}, text[-1:], set()
    must(last_line == "\n", f"the text ends with {last_line!r}")
    for line in text.split("\n")[:-1]:
        if line.startswith("# HELP "):
            family = line.split(" ")[2]
            must(family not in seen and len(line.split(" ")) > 3, f"of {family} it tells {line!r}")
        elif line.startswith("# TYPE "):
            words = line.split(" ")
            must(words[2] == family and len(words) == 4, f"behind {family} stands {line!r}")
            seen[family] = words[3]
        else:
            found = SAMPLE.fullmatch(line)
            must(found and family in seen, f"no sample is {line!r}")
            suffixes = ["_bucket", "_sum", "_count"] if seen[family] == "histogram" else [""]
            must(found["name"] in [family + it for it in suffixes], f"among those of {family} stands {line!r}")
            must(key_of(found) not in samples, f"twice stands {line!r}")
            samples[key_of(found)] = float(found["value"])
            members.add(int(found["member"]))
    wanted = {name: kind for name, kind in names.items() if name in seen or name not in bare}
    must(seen == wanted, f"the families are {seen}")
    must(members == {samples["swimd_member_id", None]}, f"they are samples of {members}")
    return samples


def stats_of(daemon):
    """The samples of `stats`: a line each, and a dot. In a daemon's first moments nothing was counted yet."""
    text = until(lambda: (it := daemon.ask(b"stats\n")) != b".\n" and it, "something is counted", AT_ONCE)
    lines = text.decode().split("\n")
    must(lines[-2:] == [".", ""], f"`stats` ends with {lines[-2:]}")
    found = [SAMPLE.fullmatch(it) for it in lines[:-2]]
    must(all(it and it["member"] == str(daemon.id) for it in found), f"`stats` says {lines}")
    return {key_of(it): float(it["value"]) for it in found}


def counted(machine, id=1, **values):
    """A daemon that writes metrics, and where."""
    path = f"{machine.folder}/{id}.prom"
    return machine.started(id, metrics=path, **values), path


def file_of(path):
    with open(path, encoding="utf-8") as file:
        return file.read()


def written(path, seconds=AT_ONCE, names=NAMES):
    """The samples in the file, as soon as it is there."""
    until(lambda: os.path.exists(path), f"{path} is written", seconds)
    return parsed(file_of(path), names)


class Journal:
    """What the journal files of a daemon say of each count, read without any code of the daemon's."""

    def __init__(self, daemon):
        self.counts, self.waits, self.entries, self.number = Counter(), [], 0, 0
        # Of each member of the table its figures, by what they are called.
        self.members = {}
        self.files = journals(daemon.values["journal_dir"], daemon.id)
        for file in self.files:
            self.read_life(file.text.decode().split("\n"))

    def read_life(self, lines):
        self.counts["lives"] += 1
        self.entries, self.waited, self.was_heard, call = 0, 0, False, ""
        table = {}
        for line in lines:
            entry, words = ENTRY.fullmatch(line), line.split(" ")
            if words[0] == "open":
                self.number = int(words[5])
            elif words[0] == "row":
                table[int(words[1])] = "up" if len(words) == 3 else "failed"
            elif words[0] == "seed":
                self.members = {id: self.figures(id, state) for id, state in table.items()}
            if entry:
                self.read_entry(call, entry[1])
            elif line and line.split(" ")[0] in ("tick", "hear", "join", "remove"):
                call = line

    def figures(self, id, state):
        """What was counted of a member until now, in this state. Nothing was of one that isn't in the table."""
        return {**self.members.get(id, dict.fromkeys(MEMBER_COUNTS, 0)), "up": int(state == "up")}

    def read_entry(self, call, answer):
        words, said = call.split(" "), answer.split(" ")
        self.entries += 1
        kind = bytes.fromhex(words[2])[3] if words[0] == "hear" else 0
        if words[0] == "tick":
            self.read_tick(said)
        elif words[0] == "join" and said[0] == "joined":
            self.counts["joins"] += 1
            self.members[int(words[1])] = self.figures(int(words[1]), "up")
        elif said[0] == "removed":
            self.counts["removals"] += 1
            del self.members[int(words[1])]
        elif kind == PING:
            self.counts["pings_heard"] += 1
        if said[0] == "dropped":
            self.counts[REASONS[int(said[1]) - 1]] += 1
            is_stray = REASONS[int(said[1]) - 1] == "stray"
            self.counts["late"] += is_stray and fields(bytes.fromhex(words[2]))[4] < self.number
        elif said[0] == "heard":
            self.read_ack(*fields(bytes.fromhex(words[2]))[1:5])
        elif said[0] == "sent" and kind not in (PING, ACK):
            self.counts["requests_served"] += 1
            self.counts["pings_sent"] += 1

    def read_tick(self, said):
        self.counts["ticks"] += said[0] != "refused"
        self.waited += said[0] != "refused"
        if said[0] == "started":
            self.waited, self.was_heard, self.number = 0, False, self.number + 1
            self.counts["verdicts"] += said[2] != "-"
            self.counts["pings_sent"] += said[4] != "-"
            if said[2] != "-":
                judged = self.members[int(said[2])]
                judged["up"], judged["verdicts_total"] = 0, judged["verdicts_total"] + 1
        elif said[0] == "asked" and said[4] != "-":
            self.counts["asks_sent"] += len(said[4].split(","))
            for id in said[4].split(","):
                self.members[int(id)]["asked_total"] += 1

    def read_ack(self, sender, _, target, number):
        source = "target" if sender == target else "relay"
        self.counts[source] += 1
        self.members[target][f"acks_total {source}"] += 1
        self.members[target]["heard_period"] = number
        if not self.was_heard:
            self.waits.append(self.waited)
        self.was_heard = True


def must_be_counted(samples, daemon, **others):
    """The counts are those of the daemon's journal files, and these others."""
    journal = Journal(daemon)
    wanted = {(f"swimd_{it}_total", None): journal.counts[it] for it in (
        "ticks", "pings_sent", "pings_heard", "asks_sent", "requests_served", "verdicts", "joins", "removals", "lives"
    )}
    wanted |= {("swimd_dropped_total", it): journal.counts[it] for it in REASONS}
    wanted |= {("swimd_acks_heard_total", it): journal.counts[it] for it in ("target", "relay")}
    wanted["swimd_acks_late_total", None] = journal.counts["late"]
    for id, figures in journal.members.items():
        for name, value in figures.items():
            name, _, label = name.partition(" ")
            wanted[f"swimd_member_{name}", f"{id} {label}".strip()] = value
    told = {key: value for key, value in samples.items() if key[0].startswith("swimd_member_") and key[1]}
    of_members = {key: value for key, value in wanted.items() if key[0].startswith("swimd_member_")}
    must(told == of_members, f"of members it tells {told}, and not {of_members}")
    waits = journal.waits
    wanted |= {("swimd_ack_wait_ticks_bucket", str(it)): sum(wait <= it for wait in waits) for it in BOUNDS}
    wanted["swimd_ack_wait_ticks_bucket", "+Inf"] = wanted["swimd_ack_wait_ticks_count", None] = len(waits)
    wanted["swimd_ack_wait_ticks_sum", None] = sum(waits)
    wanted["swimd_journal_entries", None] = journal.entries
    wanted |= {(name, None): value for name, value in zip(FILES_NAMES, (1, 0))}
    wanted |= {(f"swimd_{name}", None): value for name, value in others.items()}
    found = {key: samples.get(key) for key in wanted}
    differing = {key: (found[key], wanted[key]) for key in wanted if found[key] != wanted[key]}
    must(not differing, f"found and wanted: {differing}")


def metrics_of_a_group(machine):
    """Of three daemons, one of which is killed: at the end the file says what the journal files say, and what the
    configuration has."""
    path = lambda id: f"{machine.folder}/{id}.prom"
    # They are told of each other when all are there: so nobody is judged who came late.
    daemons = introduced([machine.started(id, metrics=path(id)) for id in range(1, 4)])
    first, _, last = daemons
    samples = written(first.values["metrics"])
    must(samples["swimd_member_id", None] == 1 and samples["swimd_lives_total", None] == 1, f"it says {samples}")
    until(lambda: all(state == "up" for state in first.states().values()), "all are up")
    last.kill()
    until(lambda: first.states()[3] == "failed", "the killed one is judged")
    must(first.ask(b"join 9 10.0.0.9:7000\nremove 9\n").endswith(b"removed\n"), "a removal is refused")
    for it in daemons[:2]:
        closing = it.stop()
        samples = written(it.values["metrics"])
        must_be_counted(
            samples, it, unsent_total=closing.unsent, wire_total=0, refused_total=0, forged_total=0, fenced_total=0,
            period_seconds=0.24, tick_seconds=0.02, journal_entries_limit=1_000_000, journal_entries_behind=0, watchers=0,
        )
        must(samples["swimd_build_info", "1.0"] == 1, f"it says {samples}")
    must(samples["swimd_verdicts_total", None] == 1, f"the second one says {samples}")


def two_members_in_one_folder(machine):
    """Of two daemons whose files lie in one folder no two series are the same, and each family tells the same of both."""
    texts = []
    for id in (1, 2):
        _, path = counted(machine, id, tick_ms=MINUTE)
        written(path)
        texts.append(file_of(path))
    series, heads = [], []
    for text in texts:
        lines = text.split("\n")[:-1]
        series.append({it.rpartition(" ")[0] for it in lines if not it.startswith("#")})
        heads.append([it for it in lines if it.startswith("#")])
    must(not series[0] & series[1], f"both have {sorted(series[0] & series[1])}")
    must(heads[0] == heads[1], "what a family tells differs")


def a_histogram_of_waits(machine):
    """Acks that come late, but in time, are counted by the ticks that they were waited for; those of relays apart."""
    peer, late = machine.socket(), machine.socket()
    Answerer(peer, 2, lambda *_: True)
    slow = Answerer(late, 3, lambda *_: bool(time.sleep(0.1)) or True)
    daemon, path = counted(machine, members=[(2, peer.getsockname()[1]), (3, slow.port)], period=20, tick_ms=20)
    until(lambda: len(slow.pings) >= 4, "four pings")
    must(daemon.stop().status == 0, "it ended otherwise")
    samples = written(path)
    must_be_counted(samples, daemon)
    waits = Journal(daemon).waits
    must(max(waits) >= 4 and samples["swimd_ack_wait_ticks_count", None] >= 4, f"the waits are {waits}")


def stats_say_the_same(machine):
    """`stats` has the names and values of the file, and nothing is lost between two lives."""
    daemon, path = counted(machine, members=[(2, "10.0.0.2:7000")], k=0, rtt=1, period=3, tick_ms=5, journal=30)
    until(lambda: daemon.lives_so_far() >= 5, "five lives")
    first, then = stats_of(daemon), stats_of(daemon)
    growing = [key for key in first if key[0].endswith("_total") and first[key] > then[key]]
    must(not growing and first["swimd_lives_total", None] >= 5, f"it says {first}, and then {then}")
    must(set(first) == set(written(path)), f"`stats` says {sorted(first, key=str)}")
    words = [machine.program, "ask", "--control", daemon.control, "stats"]
    ran = subprocess.run(words, capture_output=True, timeout=SECONDS)
    must((ran.returncode, ran.stderr) == (0, b"") and ran.stdout.endswith(b"\n.\n"), f"`ask` says {ran!r}")
    must(daemon.ask(b"stats 1\n") == b"fault 5\n", "`stats` takes a word")
    must(daemon.stop().status == 0, "it ended otherwise")
    must_be_counted(written(path), daemon)


def what_nobody_sent_is_counted(machine):
    """Datagrams that are none, pings of a stranger, and those that can't be sent."""
    daemon, path = counted(machine, tick_ms=MINUTE, members=[(2, "10.0.0.2:7000")])
    peer = machine.socket()
    for number in range(1, 8):
        peer.sendto(b"none", daemon.address)
        peer.sendto(datagram(PING, 9, 9, 1, number), daemon.address)
        must(fields(peer.recv(100))[0] == ACK, "a ping isn't answered")
    peer.sendto(datagram(ACK, 2, 1, 2, 5), daemon.address)
    until(lambda: stats_of(daemon)["swimd_dropped_total", "stray"] == 1, "the stray ack is counted", AT_ONCE)
    closing = daemon.stop()
    must(closing.wire == 7, f"it ended {closing}")
    must_be_counted(written(path), daemon, wire_total=7, pings_heard_total=7)


def what_is_thrown_away_is_counted_apart(machine):
    """Datagrams without a tag by a key of the group, and those that come faster than the fence lets in."""
    sealed_one, path = counted(machine, keys=key_texts(FIRST), tick_ms=MINUTE)
    peer = machine.socket()
    for number in range(1, 6):
        peer.sendto(datagram(PING, 9, 9, 1, number), sealed_one.address)
    until(lambda: stats_of(sealed_one)["swimd_forged_total", None] == 5, "five are counted", AT_ONCE)
    must(sealed_one.stop().entries == 0, "one of them is an entry")
    must_be_counted(written(path, names=KEYED_NAMES), sealed_one, forged_total=5, fenced_total=0, wire_total=0)
    fenced_one, path = counted(machine, 2, fence=1, tick_ms=MINUTE)
    for number in range(1, 51):
        peer.sendto(datagram(PING, 9, 9, 2, number), fenced_one.address)
    told = lambda: (it := stats_of(fenced_one))["swimd_fenced_total", None] + it["swimd_pings_heard_total", None] == 50
    until(told, "fifty are counted", AT_ONCE)
    entries = fenced_one.stop().entries
    must(0 < entries < 10, f"of fifty at once {entries} pass")
    must_be_counted(written(path), fenced_one, forged_total=0, fenced_total=50 - entries, wire_total=0)


def keys_are_told_by_their_fingerprints(machine):
    """Each key has a sample with its place and its fingerprint, in the order of the configuration. Without keys nothing is
    told of them."""
    rings = [(), (FIRST,), (FIRST, SECOND), (SECOND, FIRST), (SECOND, THIRD, bytes(32), FIRST)]
    for id, ring in enumerate(rings, 1):
        keys, names = ({"keys": key_texts(*ring)}, KEYED_NAMES) if ring else ({}, NAMES)
        daemon, path = counted(machine, id, tick_ms=MINUTE, **keys)
        file, stats = written(path, names=names), stats_of(daemon)
        prints = [(place, hashlib.sha256(key).hexdigest()[:8]) for place, key in enumerate(ring, 1)]
        wanted = {("swimd_key", f"{place} {it}"): 1 for place, it in prints}
        for samples in (file, stats):
            found = {key: value for key, value in samples.items() if key[0] == "swimd_key"}
            must([*found.items()] == [*wanted.items()], f"of keys it tells {found}, and not {wanted}")
        lines = "".join(f'swimd_key{{member="{id}",place="{place}",fingerprint="{it}"}} 1\n' for place, it in prints)
        must(f"\n{lines}swimd_watchers{{" in daemon.ask(b"stats\n").decode(), f"`stats` hasn't {lines}")
        must(daemon.stop().status == 0, "it ended otherwise")


def knocks_and_own_joins_are_counted(machine):
    """Each knock, and of the joins those that the daemon makes by itself; an operator's isn't one of them."""
    path = f"{machine.folder}/1.prom"
    silent = Silent(machine, rejoin=1, metrics=path)
    daemon, numbers = silent.daemon, [silent.knock() for _ in range(4)]
    first = stats_of(daemon)
    must(first["swimd_own_joins_total", None] == 0, f"it says {first}")
    silent.socket.sendto(datagram(ACK, 2, 1, 2, numbers[-1]), daemon.address)
    until(silent.is_up, "it is joined again")
    must(daemon.ask(b"remove 2\njoin 2 10.0.0.2:7000\n").startswith(b"removed\njoined"), "a join is refused")
    samples = until(lambda: (it := stats_of(daemon))["swimd_joins_total", None] == 2 and it, "both are counted", AT_ONCE)
    must(samples["swimd_own_joins_total", None] == 1, f"it says {samples}")
    must(samples["swimd_knocks_total", None] >= 4, f"it says {samples}")
    must(daemon.stop().status == 0, "it ended otherwise")
    must_be_counted(written(path), daemon, own_joins_total=1)


def watchers_are_counted(machine):
    daemon, path = counted(machine, tick_ms=MINUTE, events=f"{machine.folder}/events")
    watchers = [Watcher(daemon.values["events"]) for _ in range(3)]
    until(lambda: stats_of(daemon)["swimd_watchers", None] == 3, "three are counted", AT_ONCE)
    watchers.pop().close()
    until(lambda: stats_of(daemon)["swimd_watchers", None] == 2, "two are left", AT_ONCE)
    lines = b"".join(b"join 5 10.0.0.5:7000\nremove 5\n" for _ in range(1_000))
    for _ in range(12):
        daemon.ask(lines)
    until(lambda: stats_of(daemon)["swimd_lost_watchers_total", None] == 2, "who never reads is lost", AT_ONCE)
    must(daemon.stop().status == 0, "it ended otherwise")
    must(written(path)["swimd_lost_watchers_total", None] == 2, "the file says otherwise")


def the_file_is_never_half(machine):
    """Whoever reads it sees all of it: another file takes its place each time, with the same rights, and beside it
    nothing is left."""
    daemon, path = counted(machine, members=[(2, "10.0.0.2:7000")])
    written(path)
    first = os.stat(path)
    must(stat.S_IMODE(first.st_mode) == 0o644, f"its mode is {oct(first.st_mode)}")
    end = time.monotonic() + PAUSE + AT_ONCE
    while os.stat(path).st_ino == first.st_ino:
        parsed(file_of(path))
        must(time.monotonic() < end, f"within {PAUSE + AT_ONCE} seconds it isn't written again")
    must(daemon.stop().status == 0, "it ended otherwise")
    must([it for it in os.listdir(machine.folder) if ".prom" in it] == ["1.prom"], f"{os.listdir(machine.folder)}")


def promtool_agrees(machine):
    """`promtool check metrics` has nothing to say of the file."""
    promtool = shutil.which("promtool")
    if not promtool:
        return leave_out("promtool isn't installed, so that says nothing of the metrics")
    daemon, path = counted(machine, members=[(2, "10.0.0.2:7000")])
    written(path)
    ran = subprocess.run([promtool, "check", "metrics"], input=file_of(path).encode(), capture_output=True)
    must((ran.returncode, ran.stderr) == (0, b""), f"promtool says {ran!r}")
    return None


METRICS = [
    the_file_is_never_half,
    metrics_of_a_group,
    two_members_in_one_folder,
    a_histogram_of_waits,
    stats_say_the_same,
    what_nobody_sent_is_counted,
    what_is_thrown_away_is_counted_apart,
    keys_are_told_by_their_fingerprints,
    knocks_and_own_joins_are_counted,
    watchers_are_counted,
    promtool_agrees,
]
