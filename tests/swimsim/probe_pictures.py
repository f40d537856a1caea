"""The pictures of probes that `swimsim --timeline` draws beside `--trace`: each stroke by docs/FORMATS.md ("Pictures
of probes"), over what `--json` says of the same files, which traced.py compares with what the network did; one picture
that was worked out by hand; and which words, files and judgements make one."""

import glob
import json
import os
import re
import subprocess
import tempfile
import xml.etree.ElementTree as tree

from tests.support.networks import Group
from tests.support.parts import TOP, content
from tests.swimsim.cases import SECONDS, difference
from tests.swimsim.traced import MEMBERS, STEPS, Losing, at_once, at_random, judged_once

SVG = "{http://www.w3.org/2000/svg}"
SEEDS, MOST_OF_A_GROUP = 24, 4
EXAMPLES = f"{TOP}/examples/probe"
OURS = f"{TOP}/docs/trace.svg"


def drawn(program, files, words=(), before=None):
    """A run of `--trace` over these files, with a picture, and the bytes of that; `before` is what its file holds."""
    with tempfile.TemporaryDirectory() as folder:
        for name, text in files:
            with open(f"{folder}/{name}", "w", encoding="ascii") as file:
                file.write(text)
        path = f"{folder}/probe.svg"
        if before is not None:
            with open(path, "wb") as file:
                file.write(before)
        names = [name for name, _ in files]
        words = [os.path.abspath(program), *words, "--timeline", "probe.svg", "--trace", *names]
        ran = subprocess.run(words, cwd=folder, capture_output=True, timeout=SECONDS)
        return ran, content(path) if os.path.exists(path) else None


# ---- what a picture has to show


def spot(step, lane):
    return 120 + 40 * step, 190 + 64 * lane


def ends(place, relays):
    """Where the datagram at a place is sent and heard, and where it is heard too late: each a step and a lane."""
    n, part = divmod(place - 2, 4)
    if place < 2:
        return [((0, 0), (2, 1), None), ((2, 1), (4, 0), (16 + 2 * relays, 0))][place]
    return [
        ((6, 0), (8, n + 2), None), ((8, n + 2), (10 + n, 1), None), ((10 + n, 1), (11 + relays, n + 2), None),
        ((11 + relays, n + 2), (13 + relays + n, 0), (17 + 2 * relays + n, 0))
    ][part]


def middle(a, b):
    return (a[0] + b[0]) // 2, (a[1] + b[1]) // 2


class Drawn:
    """A datagram of an object of `--json`, as a picture has to show it."""

    def __init__(self, object, place):
        self.one, self.place = object["datagrams"][place], place
        relays = (len(object["datagrams"]) - 2) // 4
        passing = [it for it in self.one["heard"] if not it["answer"].startswith("dropped")]
        hearing = (passing or self.one["heard"] or [None])[0]
        judged = object["judged"]
        self.heard = hearing and hearing["entry"]
        self.is_late = bool(hearing and hearing["file"] == judged["file"] and hearing["entry"] > judged["entry"])
        self.sent = self.one["sent"][0]["entry"] if self.one["sent"] else None
        start, end, late = ends(place, relays)
        self.start, self.end = spot(*start), spot(*(late if self.is_late and late else end))
        self.middle = middle(self.start, self.end)

    def title(self):
        fate = self.one["fate"]
        word = {"passed": "arrived", "dropped": "late" if self.is_late else "ignored"}.get(fate, fate)
        text = f"{self.one['kind']} {self.one['from']} -> {self.one['to']} ({word})"
        text += f", sent at entry {self.sent}" if self.sent is not None else ""
        return text + (f", heard at entry {self.heard}" if self.heard is not None else "")

    def stroke(self):
        """Its colour, its words, its line and the mark on that."""
        whole, half, rest = (self.start, self.end), (self.start, self.middle), (self.middle, self.end)
        shape, (a, b), mark = {
            "passed": ("whole", whole, None),
            "dropped": ("whole", whole, ("ignored", *self.end)),
            "lost": ("half", half, ("lost", *self.middle)),
            "never sent": ("whole", rest, ("unsent", *self.middle)),
            "unknown": ("unknown", whole, None),
        }[self.one["fate"]]
        return self.one["kind"], self.title(), shape, f"M{a[0]} {a[1]}L{b[0]} {b[1]}", mark

    def numbers(self):
        """The entries beside it, with their places."""
        if self.place in (0, 2) and self.sent is not None:
            yield (*self.start, self.sent)
        if self.heard is not None:
            yield (*self.end, self.heard)


def shown_of(object):
    every = [Drawn(object, place) for place in range(len(object["datagrams"]))]
    strokes = [it.stroke() for it in every if it.one["fate"] != "unsent"]
    return strokes, [number for it in every for number in it.numbers()]


# ---- what a picture shows


def marks_in(group):
    path, uses = group.find(f"{SVG}path"), group.findall(f"{SVG}use")
    marks = [
        (it.get("class"), int(it.get("x")), int(it.get("y"))) for it in uses if it.get("href") == f"#{it.get('class')}"
    ]
    title = group.findtext(f"{SVG}title")
    return group.get("class"), title, path.get("class"), path.get("d"), marks[0] if marks else None


def texts_of(root, name):
    return [it for it in root.iter(f"{SVG}text") if it.get("class") == name]


def strokes_in(text):
    root = tree.fromstring(text)
    strokes = [marks_in(it) for it in root.find(f"{SVG}g[@id='datagrams']")]
    numbers = [(int(it.get("x")), int(it.get("y")), it.text) for it in texts_of(root, "entry")]
    return root, strokes, [(x, y, int(it)) for x, y, it in numbers if it.isdigit()]


def stands_alone(root, text):
    """What isn't as it has to be of a picture that stands alone, in light and dark, for those who hear it too."""
    said = [] if root.get("role") and root.get("aria-labelledby") == "title" else ["the root says no role, or no title"]
    said += [f"no {it}" for it in ("title", "desc") if not (root.findtext(f"{SVG}{it}") or "").strip()]
    if "prefers-color-scheme:dark" not in (root.findtext(f"{SVG}style") or ""):
        said.append("no colours for dark surroundings")
    known = {it.get("id") for it in root.iter() if it.get("id")}
    named = re.findall(r'url\(#([^)]*)\)|href="#([^"]*)"', text.decode())
    said += [f"{a or b} is not of this picture" for a, b in named if (a or b) not in known]
    outside = re.search(rb'<script|<image|@import|url\([^#]|href="[^#]', text)
    return said + (["something outside of the picture"] if outside else [])


def unlike(what, wanted, found):
    pairs = list(zip([*wanted, "nothing"], [*found, "nothing"]))
    wrong = [pair for pair in pairs if pair[0] != pair[1]]
    return [f"{what}: {wrong[0][1]!r}, and not {wrong[0][0]!r}"] if wrong else []


def faults_of(object, lines, text):
    """What a picture shows otherwise than the object of a judgement says, and the last line of it."""
    root, strokes, numbers = strokes_in(text)
    wanted, entries = shown_of(object)
    said = unlike("strokes", wanted, strokes) + unlike("entries", entries, numbers) + stands_alone(root, text)
    ids = [object["initiator"], object["target"], *(it["to"] for it in object["datagrams"][2::4])]
    said += unlike("lanes", ids, [int(it.text) for it in texts_of(root, "id")])
    names = ["initiator", "target", *["relay"] * (len(ids) - 2)]
    said += unlike("parts", names, [it.text for it in texts_of(root, "part")])
    title = "Probe of member {target} by member {initiator}, period {period}".format(**object)
    said += unlike("title", [title], [root.findtext(f"{SVG}title")])
    heading = "Member {initiator} judged member {target} failed in period {period}".format(**object)
    said += unlike("heading", [heading], [it.text for it in texts_of(root, "heading")])
    judged = [it.text for it in texts_of(root, "entry") if not it.text.isdigit()]
    said += unlike("the end", [f"judged at entry {object['judged']['entry']}"], judged)
    last = next(it for it in lines if it.startswith("  so "))[5:]
    return said + ([] if last in (it.text for it in root.iter(f"{SVG}text")) else [f"it doesn't say {last!r}"])


# ---- tests


def probes_drawn_as_traced(program):
    """Each stroke is that of its datagram, where a third of all are lost, and others are late or come twice."""
    said, count = [], 0
    for seed in range(1, SEEDS + 1):
        with Group(program, MEMBERS, at_random(seed), seed=seed, k=1 + seed % 3) as group:
            group.run(STEPS)
        for it in group.judgements[:MOST_OF_A_GROUP]:
            files = sorted(group.files(), key=lambda file: file[0] != str(it.probe.initiator))
            said += [f"seed {seed}, {it.probe}: {fault}" for fault in drawn_as_traced(program, files, it)]
            count += 1
    return said + ([] if count > 2 * SEEDS else [f"{count} judgements are few"])


def drawn_as_traced(program, files, judgement):
    words = ["--judged", str(judgement.probe.target), "--period", str(judgement.probe.number)]
    ran, text = drawn(program, files, words)
    as_json, same = drawn(program, files, [*words, "--json"])
    if (ran.returncode, as_json.returncode, text) != (0, 0, same) or text is None:
        return [f"status {ran.returncode} and {as_json.returncode}: {ran.stderr[:200]!r}"]
    objects = [json.loads(line) for line in as_json.stdout.decode().splitlines()]
    object = next(it for it in objects if "initiator" in it)
    if object["initiator"] != judgement.probe.initiator:
        return [f"it is of a probe by {object['initiator']}"]
    return faults_of(object, ran.stdout.decode().splitlines(), text)


# Of examples/probe: member 1 pinged member 3, whose ack was lost. Of its relays the first pinged member 3 for it, and
# forwarded the ack, which came after the end of the period; the request to the second was lost. There are two relays,
# so the period ends at step 18, and the forwarded ack is heard at step 21.
WORKED = [
    ("ping", "ping 1 -> 3 (arrived)", "whole", "M120 190L200 254", None),
    ("ack", "ack 3 -> 1 (lost)", "half", "M200 254L240 222", ("lost", 240, 222)),
    ("ping-req", "ping-req 1 -> A (arrived)", "whole", "M360 190L440 318", None),
    ("ping", "ping A -> 3 (arrived)", "whole", "M440 318L520 254", None),
    ("ack", "ack 3 -> A (arrived)", "whole", "M520 254L640 318", None),
    ("ack", "ack A -> 1 (late)", "whole", "M640 318L960 190", ("ignored", 960, 190)),
    ("ping-req", "ping-req 1 -> B (lost)", "half", "M360 190L400 286", ("lost", 400, 286)),
]


def examples():
    return [(os.path.basename(it), content(it).decode()) for it in sorted(glob.glob(f"{EXAMPLES}/*.swim"))]


def a_probe_drawn_by_hand(program):
    """The strokes of the example are those that were worked out by hand, and docs/trace.svg is its picture."""
    ran, text = drawn(program, examples(), ["--judged", "3"])
    if ran.returncode or ran.stderr or text is None:
        return [f"status {ran.returncode}: {ran.stderr[:200]!r}"]
    root, strokes, _ = strokes_in(text)
    ids = [it.text for it in texts_of(root, "id")]
    wanted = [
        (kind, title.replace("A", ids[2]).replace("B", ids[3]), *others) for kind, title, *others in WORKED
    ]
    found = [(kind, title.split(",")[0], *others) for kind, title, *others in strokes]
    said = unlike("strokes", wanted, found) + difference("docs/trace.svg", content(OURS), text)
    ends = [it.get("d") for it in root.iter(f"{SVG}path") if it.get("class") == "end"]
    return said + unlike("the end of the period", "M840 160V410", ends[-1])


def a_probe_is_chosen(program):
    """The first judgement of those that are named is drawn, in the order of files; without a name there may be one."""
    with Group(program, MEMBERS, at_once) as group:
        group.run(20)
        group.dead = {5}
        group.run(40)
    probes = [it.probe for it in group.judgements]
    said = [] if len(probes) > 2 and {it.target for it in probes} == {5} else [f"judged are {probes}"]
    files = dict(group.files())
    for initiator in sorted({it.initiator for it in probes}):
        first = str(initiator)
        ordered = [(first, files[first]), *(it for it in files.items() if it[0] != first)]
        ran, text = drawn(program, ordered, ["--judged", "5"])
        title = strokes_in(text)[0].findtext(f"{SVG}title") if text else None
        if ran.returncode or not (title or "").startswith(f"Probe of member 5 by member {first}, "):
            said.append(f"{first} is given first, and drawn is {title!r}: {ran.stderr!r}")
    count = len(probes)
    why = f"{count} judgements are traced: --judged or --period names one to be drawn"
    for words, why in (([], why), (["--judged", "4"], NOBODY), (["--period", "1"], NOBODY)):
        ran, text = drawn(program, group.files(), words)
        wanted = 1, f"swimsim: probe.svg: {why}\n".encode(), None
        said += [] if (ran.returncode, ran.stderr, text) == wanted else [f"{words}: {ran}"]
    return said + one_alone(program)


NOBODY = "there is no judgement to be drawn"


def one_alone(program):
    """One judgement alone needs no name."""
    lost = {("ack",): None, ("request", 0): None, ("request", 1): None}
    group = judged_once(program, Losing(lost))
    ran, text = drawn(program, group.files())
    said = [] if ran.returncode == 0 and text and text.endswith(b"</svg>\n") else [f"one judgement alone: {ran}"]
    plain, _ = drawn(program, group.files(), ["--judged", "9"])
    lines = [it for it in ran.stdout.splitlines() if b": entries " in it]
    return said + ([] if lines == plain.stdout.splitlines() else ["the lines of the files are others"])


LOST_OTHERWISE = b"it holds something else than a picture of swimsim: --force writes over it"


def a_probe_drawn_over_files(program):
    """The file of a picture is kept if it holds something else than one of ours, of a run or of a probe."""
    said, files = [], examples()
    wanted, other = content(OURS), b'<svg xmlns="http://www.w3.org/2000/svg" width="9">\n</svg>\n'
    run = content(f"{TOP}/docs/timeline.svg")
    for before, words, is_kept in ((run, [], False), (wanted, [], False), (b"", [], False), (b"notes\n", [], True),
                                   (other, [], True), (b"notes\n", ["--force"], False)):
        ran, text = drawn(program, files, ["--judged", "3", *words], before)
        if (ran.returncode, text) != ((1, before) if is_kept else (0, wanted)):
            said.append(f"{before[:60]!r} {words}: status {ran.returncode}, {ran.stderr!r}")
        refusal = b"swimsim: probe.svg: " + LOST_OTHERWISE + b"\n" if is_kept else b""
        said += [] if ran.stderr == refusal else [f"{before[:60]!r}: {ran.stderr!r}"]
    with tempfile.TemporaryDirectory() as folder:
        for name, text in files:
            with open(f"{folder}/{name}", "w", encoding="ascii") as file:
                file.write(text)
        os.mkfifo(f"{folder}/pipe.svg")
        names = [name for name, _ in files]
        why = "it is no file: a picture is written to a file, or to /dev/stdout"
        for path, words in (("pipe.svg", []), ("/dev/null", ["--force"]), (".", [])):
            words = [os.path.abspath(program), *words, "--timeline", path, "--judged", "3", "--trace", *names]
            ran = subprocess.run(words, cwd=folder, capture_output=True, timeout=SECONDS)
            refusal = 1, f"swimsim: {path}: {why}\n".encode()
            said += [] if (ran.returncode, ran.stderr) == refusal else [f"{path}: {ran}"]
        words = [os.path.abspath(program), "--timeline", "/dev/stdout", "--judged", "3", "--trace", *names]
        ran = subprocess.run(words, cwd=folder, capture_output=True, timeout=SECONDS)
        is_behind = b"  so " in ran.stdout and ran.stdout.endswith(b"\n" + wanted)
        said += [] if ran.returncode == 0 and is_behind else [f"/dev/stdout: status {ran.returncode}"]
    return said


def a_probe_drawn_beside_other_words(program):
    """Words that don't go together are refused before anything is read, and nothing is written."""
    said = []
    with tempfile.TemporaryDirectory() as folder:
        path = f"{folder}/probe.svg"
        for words in (["--from", "8"], ["--around", "3"], ["--decode"], ["--explain"], ["--verify", "a"], ["--", "a"]):
            ran = subprocess.run(
                [program, "--timeline", path, "--trace", "a", *words], input=b"", capture_output=True, timeout=SECONDS
            )
            if ran.returncode != 2 or ran.stdout or not ran.stderr.startswith(b"error: ") or os.path.exists(path):
                said.append(f"{words}: status {ran.returncode}, {ran.stdout[:100]!r}, {ran.stderr[:200]!r}")
    return said


PICTURED = [
    probes_drawn_as_traced, a_probe_drawn_by_hand, a_probe_is_chosen, a_probe_drawn_over_files,
    a_probe_drawn_beside_other_words
]
