"""Journal files of daemons: which there are, what stands in them, and whether swimsim plays and verifies them."""

import functools
import os
import re
import subprocess
from concurrent.futures import ThreadPoolExecutor
from typing import NamedTuple

from tests.support.daemons import SECONDS, must, until
from tests.support.parts import content

NAME = re.compile(r"([1-9]\d*)-(0|[1-9]\d*)-(0|[1-9]\d*)\.swim")
TOLD = re.compile(rb"^= (\d+) ([^\n]*)\n", re.MULTILINE)
LANES = 4
# A folder may have so many files that playing all takes too long: then these are played, half of them the first, half
# the last.
MOST_PLAYED = 40


class File(NamedTuple):
    """A journal file, and what its name says: whose it is, when the daemon started, and which life it is of."""

    path: str
    id: int
    seconds: int
    life: int

    @property
    def text(self):
        return content(self.path)

    @property
    def header(self):
        """Its lines before the first call, without comments."""
        lines = self.text.split(b"\n")[:-1]
        words = (b"journal", b"open", b"wire", b"row", b"seed")
        count = next(
            (at for at, it in enumerate(lines) if not it.startswith(b"#") and it.split(b" ")[0] not in words),
            len(lines),
        )
        return [it.decode() for it in lines[:count] if not it.startswith(b"#")]


def journals(folder, id=None):
    """The journal files of a folder, of that member or of all, the oldest first."""
    names = [NAME.fullmatch(it.name) for it in os.scandir(folder) if it.is_file(follow_symlinks=False)]
    files = [File(f"{folder}/{it[0]}", *map(int, it.groups())) for it in names if it]
    return sorted((it for it in files if id in (None, it.id)), key=lambda it: it[1:])


def told(text):
    """What the lines of a file tell of its entries: the text of each, in order, which have to be numbered from 0."""
    found = TOLD.findall(text)
    must(
        [int(it) for it, _ in found] == list(range(len(found))),
        f"the entries of a file are numbered {[it for it, _ in found][:20]}",
    )
    return [it.decode() for _, it in found]


def front(text):
    """A file up to its last whole line that tells an answer; nothing where there is none."""
    ends = [it.end() for it in TOLD.finditer(text)]
    return text[: ends[-1]] if ends else b""


def must_play(simulator, text, what):
    """It is played to its end without a difference."""
    ran = subprocess.run([simulator], input=text, stdout=subprocess.DEVNULL, stderr=subprocess.PIPE, timeout=SECONDS)
    must((ran.returncode, ran.stderr) == (0, b""), f"swimsim plays {what} with status {ran.returncode}, {ran.stderr!r}")


def must_play_alike(simulator, reference, file):
    """Up to its last answer the reference, which shares no code with what wrote and what plays it, plays it as swimsim
    does."""
    ran = [
        subprocess.run([it], input=front(file.text), capture_output=True, timeout=SECONDS)
        for it in (simulator, reference)
    ]
    found, wanted = ((it.returncode, it.stderr, it.stdout) for it in ran)
    must(
        found[:2] == (0, b"") and found == wanted,
        f"swimsim plays {file.path} as {found}, and the reference as {wanted}"[:2_000],
    )


def must_verify(simulator, *files):
    """Nothing speaks against them, one after the other, and each answer that stands in them is confirmed."""
    paths = [it.path for it in files]
    ran = subprocess.run(
        [simulator, "--verify", *paths], stdout=subprocess.PIPE, stderr=subprocess.PIPE, timeout=SECONDS
    )
    must(
        (ran.returncode, ran.stderr) == (0, b""),
        f"swimsim verifies {paths} with status {ran.returncode}, {ran.stderr!r}",
    )
    for it in files:
        confirmed = b"%s: entries %%d confirmed %d periods" % (it.path.encode(), len(told(front(it.text))))
        found = re.search(re.escape(confirmed).replace(rb"%d", rb"\d+"), ran.stdout)
        must(found, f"{it.path} is told as {ran.stdout[:1_000]!r}")


def must_verify_each(simulator, files, reference=None):
    """Each is verified by itself, up to its last answer. What comes behind that may be cut off by the end of a
    daemon."""

    def verify(file):
        must_verify(simulator, file)
        if reference:
            must_play_alike(simulator, reference, file)

    with ThreadPoolExecutor(LANES) as pool:
        list(pool.map(verify, [it for it in files if front(it.text)]))


def must_verify_all(machine):
    """Verifies what the daemons of a machine wrote, which are ended before."""
    for it in machine.daemons:
        it.kill()
    if machine.simulator:
        folders, half = [
            machine.journals, *(it.path for it in os.scandir(machine.journals) if it.is_dir())
        ], MOST_PLAYED // 2
        files = [file for folder in folders for file in journals(folder)]
        played = files if len(files) <= MOST_PLAYED else files[:half] + files[-half:]
        must_verify_each(machine.simulator, played, machine.reference)


def in_one_folder(test):
    """The same test with one folder for the journal files of all its daemons."""

    @functools.wraps(test)
    def run(machine):
        machine.has_one_folder = True
        return test(machine)

    return run


def written(folder, text, seconds=SECONDS):
    """Waits until a file of a folder has the text, and says which."""
    find = lambda: next((it for it in journals(folder) if text in it.text), None)
    return until(find, f"{text!r} stands in a file", seconds)
