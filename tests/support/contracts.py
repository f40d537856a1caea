"""docs/CONTRACTS.md, as it is made of the crates' sources and of docs/CONTRACTS.in.md.

That file has what people wrote for it: its head, and behind `## NAME` what stands below the heading of that crate."""

import re
import textwrap
from pathlib import Path

from tests.support.crates import Crates
from tests.support.parts import TOP
from tests.support.sources import Crate

MADE, WORDS = Path(TOP) / "docs/CONTRACTS.md", Path(TOP) / "docs/CONTRACTS.in.md"
COLUMNS = 120
# A clause is told by its name and the definitions that it cites. Its text is told where it is short, and has no name or
# cites none.
SHORT = 44
# They measure, or show what the compiler refuses, and nobody calls them.
TOOLS = ("node_bench", "swim_node_pairs")
OPERATOR = re.compile(r" (?=[-+*=>#] )")
SPAN = re.compile(f"`[^`]{{1,{SHORT}}}`")
SECTION = re.compile(r"^## (\w+)\n", re.MULTILINE)


def code(text):
    return f"`{text}`"


def wrapped(text, indent=""):
    """Lines of a paragraph. No short code is cut, and no line begins with a sign that Markdown takes for a list."""
    held = SPAN.sub(lambda it: it[0].replace(" ", "\0"), OPERATOR.sub("\0", text))
    lines = textwrap.fill(held, COLUMNS, subsequent_indent=indent, break_long_words=False, break_on_hyphens=False)
    return lines.replace("\0", " ")


def clause_words(clause):
    """A clause by its name, and its text or the definitions that it cites."""
    is_plain = not clause.cites or not clause.name
    is_shown = is_plain and len(clause.text) <= SHORT or not clause.name and not clause.cites
    what = [code(clause.text)] if is_shown else [code(it) for it in clause.cites]
    return " ".join(([f"*{clause.name}*"] if clause.name else []) + [", ".join(what)]).strip()


def clauses_of(call):
    """What a call requires, and what it ensures."""
    for kind in ("requires", "ensures"):
        found = [clause_words(it) for it in call.clauses if it.kind == kind]
        if found:
            yield f"{kind.capitalize()} {'; '.join(found)}."


def call_line(call):
    """The line of a call. What a trait's call is for, the trait says."""
    name = f"{call.of}::{call.name}" if call.of else call.name
    says = call.says or (f"As `{call.trait}::{call.name}`." if call.trait else "")
    return wrapped(" ".join(["-", f"`{name}`:", *filter(None, [says]), *clauses_of(call)]), "  ")


def type_line(kind, always):
    """The line of a type that has an invariant."""
    return wrapped(f"- **`{kind.name}`**: {kind.says} Always {clause_words(always)}.", "  ")


def file_lines(crate, file):
    """The lines of a file: what holds of its types always, and its calls, in its own order."""
    for kind in file.types:
        if kind.name in file.always and kind.is_public and crate.is_known(file, kind.name):
            yield type_line(kind, file.always[kind.name])
    yield from (call_line(it) for it in file.calls if crate.is_seen(file, it))


def crate_text(name, crate, words):
    """The section of a crate."""
    parts = [f"## {name}", wrapped(crate.says), *([words] if words else [])]
    for file in crate.files:
        lines = list(file_lines(crate, file))
        if lines:
            path = file.path.relative_to(crate.folder / "src")
            parts.append("\n".join([wrapped(f"**{path}.** {file.says}"), *lines]))
    return "\n\n".join(parts)


def written():
    """What people wrote: the head, and the words of each crate."""
    head, *rest = SECTION.split(WORDS.read_text(encoding="utf-8"))
    return head.strip(), dict(zip(rest[::2], map(str.strip, rest[1::2])))


def names_told(crates):
    """The crates whose calls are told."""
    return [it for it in crates.below if not it.endswith("_tests") and it not in TOOLS]


def made():
    """The document as the sources are now."""
    crates, (head, words) = Crates(TOP), written()
    names = names_told(crates)
    unknown = [it for it in words if it not in names]
    if unknown:
        raise ValueError(f"{WORDS.relative_to(TOP)} has words on {', '.join(unknown)}, which crates.txt doesn't name")
    return "\n\n".join([head, *(crate_text(it, Crate(crates.folder(it)), words.get(it)) for it in names)]) + "\n"
