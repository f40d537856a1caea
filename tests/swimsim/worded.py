"""Runs of swimsim with words on its command line, as tests/swimsim/run makes them."""

import glob
import os
import re
import shutil
import subprocess
import tempfile
from typing import NamedTuple

from tests.generators.made_scripts import known_members, waiting_requests
from tests.models.datagram_model import in_words
from tests.swimsim.cases import EVENTS, OPENED, SCRIPTS, SECONDS, STARTED, Case
from tests.swimsim.cases import content, difference, kept_scripts, short_scripts
from tests.swimsim.explanations import CAUSES, FAULTS, JOURNALS, OPENINGS, READ_FAILED, RUNS, WRITE_FAILED


class Called(NamedTuple):
    """A run with words: its status, and what it writes on standard output and standard error, as patterns."""

    words: list
    status: int
    stdout: bytes
    stderr: bytes
    stdin: bytes = b""


USAGE = rb"(?s)error: .*\n\nUsage: \S+ [^\n]*\[FILE\]\n.*"


def called(program, calls):
    """What isn't as expected of runs with words."""
    said = []
    for call in calls:
        ran = subprocess.run([program, *call.words], input=call.stdin, capture_output=True, timeout=SECONDS)
        found = [] if ran.returncode == call.status else [f"status {ran.returncode}, and not {call.status}"]
        for what, wanted, got in (("output", call.stdout, ran.stdout), ("error", call.stderr, ran.stderr)):
            if not re.fullmatch(wanted, got):
                found.append(f"standard {what} is {got[:400]!r}, and not {wanted!r}")
        said += [f"{call.words}: {it}" for it in found]
    return said


def with_a_file(program):
    """The script of a file is played as that of standard input is, which is let be."""
    wanted = re.escape(content("examples/first.stdout"))
    calls = [Called([*words, "examples/first.swim"], 0, wanted, b"", b"no script\n") for words in ([], ["--"])]
    with tempfile.TemporaryDirectory() as folder:
        path = f"{folder}/bad.swim"
        with open(path, "wb") as file:
            file.write(OPENED + b"tock\n")
        return called(program, [*calls, Called([path], 1, re.escape(STARTED), b"line 7: word\n")])


def decoded(script, stdout):
    """What is written for a script with its datagrams in words, from what is written without."""
    lines, wanted = stdout.decode().splitlines(True), []
    for line in script.decode("latin-1").split("\n"):
        word, *arguments = line.split(" ")
        if word not in ("tick", "hear", "join", "remove", "table", "gap") or not lines:
            continue
        if word == "hear" and not lines[0].startswith("wire "):
            wanted.append(words_of(arguments[1]))
        wanted.append(lines.pop(0))
        while word == "table" and wanted[-1] != ".\n":
            wanted.append(lines.pop(0))
        while lines and lines[0].startswith("> "):
            wanted += [lines[0], words_of(lines.pop(0).split()[2])]
    return "".join(wanted).encode()


def words_of(digits):
    return f"{in_words(bytes.fromhex(digits))}\n"


def with_decode(program):
    """Datagrams in words stand between the other lines, which stay as they are; so do a fault and the status."""
    said = []
    for folder in SCRIPTS:
        for case in kept_scripts(folder):
            ran = subprocess.run([program, "--decode", case.name], capture_output=True, timeout=SECONDS)
            found = difference("standard output", decoded(case.script, case.stdout), ran.stdout)
            found += difference("standard error", case.stderr, ran.stderr)
            found += [] if ran.returncode == case.status else [f"status {ran.returncode}, and not {case.status}"]
            said += [f"{case.name}: {it}" for it in found]
    unended = OPENED + b"hear 10.0.0.2:7000 535701030000000200000001000000020000000000000001"
    wanted = decoded(unended, STARTED + b"heard\n")
    return said + called(program, [Called(["--decode"], 0, re.escape(wanted), b"", unended)])


def numbered(script, output):
    """What is written for a script with the numbers of its entries, from what is written without, where no datagram is
    in words."""
    lines, wanted, entries = output.decode().splitlines(True), [], 0
    for line in script.decode("latin-1").split("\n"):
        word = line.split(" ")[0]
        if word not in ("tick", "hear", "join", "remove", "table", "gap") or not lines:
            continue
        if word not in ("table", "gap") and not re.match("wire |journal full|no memory", lines[0]):
            wanted.append(f"# entry {entries}\n")
            entries += 1
        wanted.append(lines.pop(0))
        while word == "table" and wanted[-1] != ".\n":
            wanted.append(lines.pop(0))
        while lines and lines[0].startswith("> "):
            wanted.append(lines.pop(0))
    return "".join(wanted).encode()


def with_numbers(program):
    """A line with its number stands above each entry, and all other lines stay as they are; so do a fault and the
    status."""
    said, words = [], {}
    cases = [it for folder in SCRIPTS for it in kept_scripts(folder)]
    cases += [it for path in EVENTS for it in short_scripts(path, words)]
    for case in cases:
        ran = subprocess.run([program, "--numbers"], input=case.script, capture_output=True, timeout=SECONDS)
        found = difference("standard output", numbered(case.script, case.stdout), ran.stdout)
        found += difference("standard error", case.stderr, ran.stderr)
        found += [] if ran.returncode == case.status else [f"status {ran.returncode}, and not {case.status}"]
        said += [f"{case.name}: {it}" for it in found]
    return said


def with_numbers_of_journal_files(program):
    """The numbers are those that a journal file's own lines have, also where datagrams are in words; and nothing of it
    stands beside `--verify` and `--trace`."""
    said = []
    for path in sorted([*glob.glob("examples/probe/*.swim"), "examples/journal.swim"]):
        wanted = re.findall(rb"^= (\d+) (.*)$", content(path), re.MULTILINE)
        for words in (["--numbers"], ["--decode", "--numbers"]):
            ran = subprocess.run([program, *words, path], capture_output=True, timeout=SECONDS)
            found = re.findall(rb"^# entry (\d+)\n(?:  [^\n]+\n)?(.*)$", ran.stdout, re.MULTILINE)
            if ran.returncode or not wanted or found != wanted:
                said.append(f"{words} {path}: status {ran.returncode}, {found[:3]}, and not {wanted[:3]}")
    mixed = rb"error: --verify and --trace each stand beside journal files alone\n(?s:.*)"
    path = "examples/journal.swim"
    return said + called(program, [Called(["--numbers", it, path], 2, b"", mixed) for it in ("--verify", "--trace")])


def names_in_formats():
    """The names of reasons that docs/FORMATS.md lists, by the answers' first word and number."""
    names = {}
    for word, listed in re.findall(rb"\n\| `(dropped|refused|wire) W` \| (1 .*) \|", content("docs/FORMATS.md")):
        for number, name in (it.split(b" ", 1) for it in re.split(rb", (?=[0-9] )", listed)):
            names.setdefault(b"%s %s" % (word, number), name)
    return names


def with_names(program):
    """Each number of a reason is followed by the name that docs/FORMATS.md lists, and each of them comes up; all else
    on standard output is as it is without the word. A fault's line stays the first on standard error."""
    names, met, said, words = names_in_formats(), set(), [], {}
    cases = [it for folder in SCRIPTS for it in kept_scripts(folder)]
    cases += [it for path in EVENTS for it in short_scripts(path, words)]
    cases += [Case(*it) for it in (*known_members(), *waiting_requests())]
    for case in cases:
        ran = subprocess.run([program, "--explain"], input=case.script, capture_output=True, timeout=SECONDS)
        lines = case.stdout.split(b"\n")
        met.update(lines)
        wanted = b"\n".join(it + b" " * (it in names) + names.get(it, b"") for it in lines)
        found = difference("standard output", wanted, ran.stdout)
        found += [] if ran.stderr.startswith(case.stderr) else [f"standard error begins with {ran.stderr[:200]!r}"]
        found += [] if ran.returncode == case.status else [f"status {ran.returncode}, and not {case.status}"]
        said += [f"{case.name}: {it}" for it in found]
    if len(names) != 20:
        said.append(f"docs/FORMATS.md has names of {len(names)} reasons, and not of 20")
    return said + [f"no script is answered {it.decode()}" for it in sorted(set(names) - met)]


def with_explain(program):
    """Faults and runs are explained as explanations.py says."""
    said = []
    for script, wanted in (*CAUSES, *FAULTS, *OPENINGS, *RUNS, *JOURNALS):
        ran = subprocess.run([program, "--explain"], input=script, capture_output=True, timeout=SECONDS)
        found = difference("standard error", wanted.encode(), ran.stderr)
        said += [f"{script[:200]!r}: {it}" for it in found]
    return said


def with_failures(program):
    """A failed read and a failed write are explained: input that is a directory, output that is full."""
    said = []
    with open("/dev/full", "wb") as full:
        runs = [("the read", {"stdin": os.open("/", os.O_RDONLY), "stdout": subprocess.DEVNULL}, READ_FAILED),
                ("the write", {"input": OPENED, "stdout": full}, WRITE_FAILED)]
        for what, how, wanted in runs:
            ran = subprocess.run([program, "--explain"], stderr=subprocess.PIPE, timeout=SECONDS, **how)
            said += [f"{what}: {it}" for it in difference("standard error", wanted.encode(), ran.stderr)]
        os.close(runs[0][1]["stdin"])
    return said


def with_both(program):
    """With both words each does what it does alone: a name stands behind a number, and a message above its answer."""
    heard = b"hear 10.0.0.2:7000 535701030000000200000001000000020000000000000009\n"
    wanted = decoded(OPENED + heard, STARTED + b"dropped 6 stray\n")
    end = rb"entries 2\nperiods 1\ndropped 6 stray: 1\n"
    return called(program, [Called(["--explain", "--decode"], 0, re.escape(wanted), end, OPENED + heard)])


def with_a_picture(program):
    """The run is drawn into the file, and all else is as without the word. A file that can't be written is named, and
    so is one for which there is nothing to draw."""
    script, wanted = "examples/first.swim", re.escape(content("examples/first.stdout"))
    with tempfile.TemporaryDirectory() as folder:
        path, nowhere = f"{folder}/run.svg", f"{folder}/none/run.svg"
        named = lambda it, why: b"swimsim: " + re.escape(it.encode()) + b": " + why + b"\n"
        nothing = named(path, rb"there is no event to be drawn")
        said = called(program, [
            Called(["--timeline", path], 1, b"", nothing, OPENED[: OPENED.index(b"tick")]),
            Called(["--timeline", nowhere, script], 1, wanted, named(nowhere, rb"[^\n]+")),
            Called(["--timeline", path, script], 0, wanted, b""),
            Called([f"--timeline={path}", "--explain", script], 0, wanted, rb"(?s)entries .*"),
        ])
        with open(path, "rb") as file:
            return said + ([] if file.read().endswith(b"</svg>\n") else ["the picture has no end"])


def with_a_picture_over_a_file(program):
    """A picture is drawn over a picture of ours and over an empty file, and over nothing else: not over the script that
    is played, whether it is named or standard input, nor over another program's picture or a part of ours. With
    `--force` it is."""
    script, ours = content("examples/first.swim"), content("docs/timeline.svg")
    kept = {
        "played.swim": script,
        "notes.txt": b"notes\n",
        "other.svg": b'<svg xmlns="http://www.w3.org/2000/svg" width="9">\n</svg>\n',
        "line.svg": ours[: ours.index(b"\n")],
        "later.svg": b"\n" + ours,
    }
    said = []
    with tempfile.TemporaryDirectory() as folder:
        for name, text in {**kept, "ours.svg": ours, "empty.svg": b""}.items():
            path = f"{folder}/{name}"
            with open(path, "wb") as file:
                file.write(text)
            said += drawn_over(program, path, script, name in kept)
    return said


def drawn_over(program, path, script, is_kept):
    """What isn't so of a picture over the file of this path, which has to be kept or not; in the end it is drawn over
    it anyway."""
    wanted, held = re.escape(content("examples/first.stdout")), content(path)
    fault = b"it holds something else than a picture of swimsim: --force writes over it"
    refusal = b"swimsim: " + re.escape(path.encode()) + b": " + fault + b"\n" if is_kept else b""
    named = path if held == script else "examples/first.swim"
    said = []
    for words, given in (([named], b""), (["-"], script), ([], script)):
        said += called(program, [Called(["--timeline", path, *words], int(is_kept), wanted, refusal, given)])
        if (content(path) == held) != is_kept:
            said.append(f"{path} was {'drawn over' if is_kept else 'kept'}")
    said += called(program, [Called(["--force", "--timeline", path, "-"], 0, wanted, b"", script)])
    return said + ([] if content(path).endswith(b"</svg>\n") else [f"{path} was kept, in spite of --force"])


def with_help(program):
    """Help and the version are answers, and no script is played."""
    text = rb"(?s)Replays a script .*\n\nUsage: \S+ [^\n]*\[FILE\]\n.*--help.*--version.*"
    calls = [Called([word], 0, text, b"", OPENED) for word in ("--help", "-h")]
    calls += [Called([word], 0, rb"swimsim [0-9]+\.[0-9]+\n", b"", OPENED) for word in ("--version", "-V")]
    said = called(program, calls)
    with open("/dev/full", "wb") as full:
        ran = subprocess.run([program, "--help"], stdout=full, stderr=subprocess.PIPE, timeout=SECONDS)
    return said + ([] if ran.returncode == 1 and ran.stderr.startswith(b"swimsim: ") else [f"unwritten help: {ran}"])


def with_other_words(program):
    """Any other word is refused, and no script is played."""
    words = [["--frob"], ["-x"], ["--help=yes"], ["examples/first.swim", "examples/gap.swim"], [b"\xff"]]
    nowhere = Called(["--timeline"], 2, b"", rb"(?s)error: a value is required for '--timeline <FILE>' .*", OPENED)
    return called(program, [*(Called(it, 2, b"", USAGE, OPENED) for it in words), nowhere])


def with_a_file_that_cannot_be_read(program):
    """The error names the file: one that is missing, a folder, and one that the user may not read."""
    with tempfile.TemporaryDirectory() as folder:
        os.chmod(folder, 0o755)
        copy, secret = f"{folder}/swimsim", f"{folder}/secret.swim"
        shutil.copy(program, copy)
        with open(secret, "wb") as file:
            file.write(OPENED)
        os.chmod(secret, 0)
        named = lambda path: b"swimsim: " + re.escape(path.encode()) + rb": [^\n]+\n"
        said = called(
            program, [Called([it], 1, b"", named(it), OPENED) for it in ("", f"{folder}/nowhere.swim", folder)]
        )
        # whoever may read everything becomes nobody first
        become = (lambda: os.setuid(65534)) if os.getuid() == 0 else None
        ran = subprocess.run(
            [copy, secret], stdin=subprocess.DEVNULL, capture_output=True, timeout=SECONDS, preexec_fn=become
        )
        if ran.returncode != 1 or ran.stdout or not ran.stderr.startswith(f"swimsim: {secret}: ".encode()):
            said.append(f"a file that may not be read: {ran}")
        return said


ATTEMPTS = [
    with_a_file,
    with_decode,
    with_numbers,
    with_numbers_of_journal_files,
    with_names,
    with_explain,
    with_failures,
    with_both,
    with_a_picture,
    with_a_picture_over_a_file,
]
ATTEMPTS += [with_help, with_other_words, with_a_file_that_cannot_be_read]
