"""Scripts that are kept, with what swimsim has to write for them, and what is common to the tests of the built
program."""

import difflib
import os
import re
from typing import NamedTuple

SECONDS = 60
# Folders of scripts that are kept, and tables of short ones.
SCRIPTS = ["examples", "tests/swimsim/scripts"]
EVENTS = ["tests/swimsim/short-scripts.txt", "tests/swimsim/short-events.txt"]

# six lines, two of them comments and one empty, and the answer to the last
OPENED = b"# a comment\nopen 1 0 1 3 0 100\n\nrow 2 10.0.0.2:7000\n# another\ntick\n"
STARTED = b"started judged - probe 2 1\n> 10.0.0.2:7000 535701010000000100000001000000020000000000000001\n"


class Case(NamedTuple):
    name: str
    script: bytes
    stdout: bytes
    stderr: bytes
    status: int


class BadCase(Exception):
    """A case that says too little, or what can't be read."""


def content(path, missing=None):
    try:
        with open(path, "rb") as file:
            return file.read()
    except FileNotFoundError:
        if missing is None:
            raise BadCase(f"{path} is missing") from None
        return missing


def kept_scripts(folder):
    """The scripts of a folder, without those of folders in it. An expected text without its script is a fault too."""
    names = [it.name for it in os.scandir(folder) if it.is_file() and not it.name.endswith(".toml")]
    stems = sorted({os.path.splitext(name)[0] for name in names})
    if not stems:
        raise BadCase(f"{folder} holds no script")
    for stem in stems:
        path = f"{folder}/{stem}"
        status = content(f"{path}.status", b"0").decode("ascii").strip()
        if not status.isdigit():
            raise BadCase(f"{path}.status holds no number")
        script, stdout = content(f"{path}.swim"), content(f"{path}.stdout")
        yield Case(f"{path}.swim", script, stdout, content(f"{path}.stderr", b""), int(status))


def unescaped(text):
    def byte(found):
        code = found[1]
        return {b"n": b"\n", b"\\": b"\\"}.get(code) or bytes([int(code[1:], 16)])

    if re.search(rb"\\(?!n|\\|x[0-9a-f]{2})", re.sub(rb"\\\\", b"", text)):
        raise BadCase(f"an escape that isn't one in {text!r}")
    return re.sub(rb"\\(n|\\|x[0-9a-f]{2})", byte, text)


def short_scripts(path, words):
    """The scripts of a table: the head of short-scripts.txt says how they are written. Its names are put among the
    words."""
    named = lambda text: re.sub(rb"\{(\w+)\}", lambda found: words[found[1]], text)
    for number, line in enumerate(content(path).split(b"\n"), 1):
        if not line or line.startswith(b"#"):
            continue
        if line.startswith(b"let "):
            _, word, text = (line + b" ").split(b" ", 2)
            words[word] = named(text[:-1])
            continue
        columns = line.split(b" | ")
        if len(columns) not in (2, 3):
            raise BadCase(f"{path}:{number}: a case has two or three columns")
        try:
            fault, script, stdout = (unescaped(named(it)) for it in [*columns, b""][:3])
        except KeyError as word:
            raise BadCase(f"{path}:{number}: there is no {word}") from None
        good = fault == b"ok"
        yield Case(f"{path}:{number}", script, stdout, b"" if good else fault + b"\n", 0 if good else 1)


def difference(what, wanted, found):
    """The lines that differ, at most 20 of them."""
    if wanted == found:
        return []
    shown = [[f"{line[:200]!r}" for line in text[:100_000].split(b"\n")] for text in (wanted, found)]
    lines = list(difflib.unified_diff(*shown, f"{what} wanted", f"{what} found", lineterm="", n=1))
    return lines[:20] or [f"{what} differs after its first 100,000 bytes"]
