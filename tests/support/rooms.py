"""What the tables of a document say of crates, their files and other places, and what of that the tree doesn't have."""

import os
import re
from collections import Counter
from pathlib import Path
from typing import NamedTuple

QUOTED = re.compile(r"`([^`]+)`")
# The head of a column, and which files of a crate it names: in which room they are, and how they end.
KINDS = {"Module": ("src", ".rt"), "Specs": ("specs", ".antt"), "Lemmas": ("proofs", ".antt")}
# With these a crate begins. No table has to name them.
BEGINNINGS = {"lib", "main", "Lib"}
# A file by its ending, in folders or alone; or a place as it is named from the top of the repository on.
PLACE = re.compile(
    r"(?<![\w/.<*-])((?:[\w-]+/)*[\w-]+\.(?:rt|antt|py|rs)\b|(?:tests|examples|docs)/[\w./-]*\w)(?![\w*])"
)
AT_TOP = ("tests/", "examples/", "docs/")
BESIDE_CRATES = (".py", ".rs")


class Row(NamedTuple):
    """A row of a table: its line, the heading above the table, and its cells by the heads of their columns."""

    line: int
    section: str
    cells: dict


def cells_of(line):
    return [it.strip() for it in line.strip().strip("|").split("|")]


def headed(text):
    """The lines of a document, each with its number and the heading above it."""
    section = ""
    for number, line in enumerate(text.splitlines(), 1):
        section = line.lstrip("# ") if line.startswith("#") else section
        yield number, section, line


def rows_of(text):
    """The rows of all tables of a document."""
    heads = None
    for number, section, line in headed(text):
        if not line.startswith("|"):
            heads = None
        elif heads is None:
            heads = cells_of(line)
        elif set(line) - set("|-: "):
            yield Row(number, section, dict(zip(heads, cells_of(line))))


def names_in(rows, head):
    """What is in backticks in the column of that head."""
    return [name for row in rows for name in QUOTED.findall(row.cells.get(head, ""))]


def crate_faults(rows, below):
    """What the table of crates says, and the list of crates doesn't. Each crate is there once, with those that it
    stands on; of crates of tests it may name some."""
    named = Counter(names_in(rows, "Crate"))
    yield from (f"crate {it} isn't in the table" for it in below if it not in named and not it.endswith("_tests"))
    yield from (f"crate {it} is in the table {count} times" for it, count in named.items() if count > 1)
    yield from (f"there is no crate {it}" for it in named if it not in below)
    for row in rows:
        for name in (it for it in names_in([row], "Crate") if it in below and not it.endswith("_tests")):
            told, stands = {it for it in row.cells["Stands on"].split(", ") if it != "std"}, {*below[name]}
            yield from (f"{row.line}: {name} doesn't stand on {it}" for it in sorted(told - stands))
            yield from (f"{row.line}: {name} stands on {it}, too" for it in sorted(stands - told))


def files_of(folder, kind):
    """The files of a crate that tables of a kind name, by their paths without endings. Of proofs these are lemmas: what
    is in a folder there is of a function. Tests have no table."""
    room, ending = KINDS[kind]
    for path in Path(folder, room).rglob(f"*{ending}"):
        name = path.relative_to(Path(folder, room)).with_suffix("").as_posix()
        if name.split("/")[0] != "tests" and not (kind == "Lemmas" and "/" in name):
            yield name


def is_so(path, name):
    """Whether a path is this name, or ends with it below a folder."""
    return f"/{path}".endswith(f"/{name}")


def file_faults(rows, crate, folder):
    """What the tables of a crate say, and its folder doesn't. A crate may have no table of specs or of lemmas."""
    for kind, (room, ending) in KINDS.items():
        names, files = names_in((it for it in rows if it.section == crate), kind), sorted(files_of(folder, kind))
        gone = (it for it in names if not any(is_so(path, it) for path in files))
        yield from (f"there is no {crate}/{room}/{it}{ending}" for it in gone)
        twice = (it for it, count in Counter(names).items() if count > 1)
        yield from (f"{crate}/{room}/{it}{ending} is there more than once" for it in twice)
        wanted = (it for it in files if it not in BEGINNINGS) if names or kind == "Module" else []
        unnamed = (it for it in wanted if not any(is_so(it, name) for name in names))
        yield from (f"{crate}/{room}/{it}{ending} isn't in a table" for it in unnamed)


def paths_below(top, room):
    """The files of a room by their paths below the top, but for what was built."""
    for at, rooms, files in os.walk(Path(top, room)):
        rooms[:] = [it for it in rooms if it != "out"]
        yield from (Path(at, it).relative_to(top).as_posix() for it in files)


class Places:
    """The files of a repository, and which of them a text names."""

    def __init__(self, top, crates):
        """These are the names of its crates."""
        self.top, self.crates = Path(top), crates
        self.files = {room: [*paths_below(top, room)] for room in ("crates", "tests")}

    def found(self, name, crate):
        """The files that a place may be. It may be named without its crate, which is the one that was named last, if one
        was; or without the folder of tests/ in which it is."""
        if name.startswith(AT_TOP) or name.split("/")[0] in self.crates:
            path = self.top / name if name.startswith(AT_TOP) else self.top / "crates" / name
            return [path] if path.exists() else []
        if name.endswith(BESIDE_CRATES):
            files = self.files["tests"]
        else:
            files = [it for it in self.files["crates"] if it.startswith(f"crates/{crate}/" if crate else "")]
        return [self.top / it for it in files if is_so(it, name)]

    def named(self, text, crate=""):
        """Each place that a text names, with the files that it may be. The first ones may be of this crate."""
        for name in PLACE.findall(text):
            yield name, self.found(name, crate)
            crate = name.split("/")[0] if name.split("/")[0] in self.crates else crate

    def lost(self, text):
        """The places that a document names and that aren't there, but for those of any `NAME`. Below the heading of a
        crate they may be named without it."""
        for number, section, line in headed(text):
            for name, files in self.named(line, section if section in self.crates else ""):
                if not files and "NAME" not in name:
                    yield f"{number}: there is no {name}"

    def wordless(self, rows):
        """The names in the table of rules that no file has which is named in the same cell, if one is."""
        for row in (it for it in rows if "Rule" in it.cells):
            for cell in row.cells.values():
                files = [it for _, found in self.named(cell) for it in found if it.is_file()]
                text = "\n".join(it.read_text(encoding="utf-8", errors="replace") for it in files)
                for name in QUOTED.findall(cell) if files else []:
                    if not re.search(rf"\b{re.escape(name.split('::')[-1])}\b", text):
                        yield f"{row.line}: {name} isn't in a file that is named beside it"
