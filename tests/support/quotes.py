"""What a document quotes of the sources, and whether it stands there word by word."""

import re
from pathlib import Path
from typing import NamedTuple

# The text in front of a block names what it quotes: a definition or a function, and the file below crates/ in which it
# stands.
NAMED = re.compile(r"`(?:\w+::)*(\w+)` \(([\w/]+\.(?:rt|antt))\)")
INDENT, COLUMNS = "    ", 120
# From a definition's line on to the next empty line; from the line of a function, or of a ghost value, on to the next
# one of either.
DEFINED = r"^(?:abbrev )?(?:pub )?(?:record |data )?{}\b"
PART = r" *(?:[\w()]+ )*(?:fn|ghost) {}\b"
PARTS = re.compile("^(?=" + PART.format(r"\w+") + ")", re.MULTILINE)
COMMENT = re.compile(r"(?:^|(?<=\s))(?://|--).*$", re.MULTILINE)
# The last clause of a method of a trait has a semicolon, which counts for nothing.
LAST = r"\};$"
SHOWN = 60


class Block(NamedTuple):
    """What is quoted: in which line it begins, how many lines it has, of what, from which file, and its words."""

    line: int
    count: int
    name: str
    path: str
    words: str


def collapsed(text):
    """The words of a text."""
    return re.sub(LAST, "}", " ".join(text.split()))


def blocks_of(text, first=1):
    """The indented blocks of a text, whose first line has that number. Each is of what was named last before it."""
    prose, quoted, begins = [], [], 0
    for number, line in enumerate([*text.splitlines(), ""], first):
        if line.startswith(INDENT):
            begins = begins if quoted else number
            quoted.append(line)
            continue
        if quoted:
            name, path = (NAMED.findall(collapsed(" ".join(prose))) or [("", "")])[-1]
            yield Block(begins, len(quoted), name, path, collapsed(" ".join(quoted)))
            quoted = []
        prose.append(line)


def items_of(path, name):
    """What a source says of a definition or of functions of that name: lines without comments, and none is empty."""
    text = path.read_text(encoding="utf-8")
    lines = [COMMENT.sub("", line).rstrip() for line in text.splitlines() if not line.lstrip().startswith(("//", "--"))]
    if path.suffix == ".rt":
        found = [it for it in PARTS.split("\n".join(lines)) if re.match(PART.format(name), it)]
    else:
        found = [it for it in "\n".join(lines).split("\n\n") if re.search(DEFINED.format(name), it, re.MULTILINE)]
    return [[line for line in it.splitlines() if line] for it in found]


def indent_of(line):
    return len(line) - len(line.lstrip())


def says(lines, words):
    """Whether these words are lines of a source, from the beginning of a clause on to the end of one."""
    for start, first in enumerate(lines):
        for end in range(start + 1, len(lines) + 1):
            is_whole = end == len(lines) or indent_of(lines[end]) <= indent_of(first)
            if is_whole and collapsed(" ".join(lines[start:end])) == words:
                return True
    return False


def fault_of(block, top):
    """Why a block isn't what the sources say; `None` where it is."""
    path = Path(top, "crates", block.path)
    if not block.path:
        return "nothing is named that it quotes"
    if not path.is_file():
        return f"there is no {block.path}"
    items = items_of(path, block.name)
    if not items:
        return f"{block.path} has no {block.name}"
    if not any(says(it, block.words) for it in items):
        return f"{block.name} of {block.path} doesn't say so"
    return None


def whole(lines, is_code):
    """What is quoted of an item: of a function its clauses, of a ghost value all up to the semicolon, and all of a
    definition."""
    if not is_code:
        return lines
    start = next((place for place, line in enumerate(lines) if re.match(r" +(requires|ensures)\b", line)), 0)
    indent = indent_of(lines[start])
    if start:
        ends = (place for place in range(start, len(lines)) if indent_of(lines[place]) < indent)
        lines = [re.sub(LAST, "}", line) for line in lines]
    else:
        ends = (place for place, line in enumerate(lines, 1) if line.endswith(";"))
    return [line[indent:] for line in lines[start : next(ends, len(lines))]]


def set_in(line):
    """A line of a source as it is quoted: in several lines, where it is too long."""
    line, lines = INDENT + line, []
    rest = " " * indent_of(line) + INDENT
    while len(line) > COLUMNS:
        cut = line.rindex(" ", 0, COLUMNS)
        lines.append(line[:cut])
        line = rest + line[cut + 1 :]
    return [*lines, line]


def requoted(text, top):
    """A text in which each block that isn't what the sources say is made anew of what is named, if they have that."""
    lines = text.splitlines()
    for block in reversed([*blocks_of(text)]):
        path = Path(top, "crates", block.path)
        items = items_of(path, block.name) if path.is_file() else []
        if items and fault_of(block, top):
            start, said = block.line - 1, whole(items[0], path.suffix == ".rt")
            lines[start : start + block.count] = [it for line in said for it in set_in(line)]
    return "\n".join(lines)


def misquoted(text, top, first=1):
    """The lines in which blocks begin that aren't what the sources say, with why, and how they begin."""
    for block in blocks_of(text, first):
        fault = fault_of(block, top)
        if fault:
            yield block.line, f"{fault}: {block.words[:SHOWN]}"


def section_of(text, head):
    """What stands below the heading that begins so, up to the next one that is as high, and the number of its line."""
    lines = text.splitlines()
    start = next((place for place, line in enumerate(lines) if line.startswith(head)), None)
    if start is None:
        raise ValueError(f"there is no heading {head!r}")
    level = head.split()[0]
    ends = (place for place in range(start + 1, len(lines)) if re.match(rf"#{{1,{len(level)}}} ", lines[place]))
    return "\n".join(lines[start : next(ends, len(lines))]), start + 1
