"""What the functions of a source take, which of them note in a `Trail`, and which modules of a crate import which."""

import re
from pathlib import Path

# What isn't code: comments to the end of the line, and texts. A lifetime has one tick, and a character two.
NO_CODE = re.compile(r"//[^\n]*|b?\"(?:\\.|[^\"\\])*\"|b?'(?:\\.|[^'\\])'", re.DOTALL)
FUNCTION = re.compile(r"\bfn\s+(\w+)\s*")
USE = re.compile(
    r"^\s*(?:pub(?:\(\w+\))? )?use (crate|self|super(?:::super)*)::(\{.*?\}|[\w:*]+)", re.MULTILINE | re.DOTALL
)
TRAIL = re.compile(r"\b(\w+): (?:&mut )?Trail<|\blet mut (\w+) = Trail::new\(\)")
OPENS, CLOSES = "(<[{", ")>]}"


def code_of(path):
    """A source without its comments and texts."""
    return NO_CODE.sub(" ", Path(path).read_text(encoding="utf-8"))


def bracketed(code, start):
    """The parts between the bracket that stands there and its other one, by its commas, and the place behind."""
    depth, part, parts = 0, "", []
    for place in range(start, len(code)):
        sign = code[place]
        # The head of an arrow closes nothing.
        is_arrow = sign == ">" and code[place - 1] in "-="
        if sign in OPENS:
            depth += 1
        elif sign in CLOSES and not is_arrow:
            depth -= 1
            if depth == 0:
                return [it for it in (*parts, part.strip()) if it], place + 1
        if depth == 1 and sign == ",":
            parts.append(part.strip())
            part = ""
        elif place > start:
            part += sign
    raise ValueError("a bracket has no other one")


def functions_of(path):
    """Each function of a source: its name, how many type parameters it has, and how many parameters, itself too."""
    code = code_of(path)
    for found in FUNCTION.finditer(code):
        place, types = found.end(), []
        if code[place] == "<":
            types, place = bracketed(code, place)
        parameters, _ = bracketed(code, code.index("(", place))
        yield found.group(1), sum(not it.startswith("'") for it in types), len(parameters)


def noting_in(path):
    """The functions of a source that note in a `Trail`, be it a field, a parameter or a value of their own."""
    code = code_of(path)
    trails = [one or other for one, other in TRAIL.findall(code)]
    notes = re.compile(rf"\b(?:{'|'.join(trails)})\.note\(")
    starts = [*FUNCTION.finditer(code)] if trails else []
    for found, end in zip(starts, [*(it.start() for it in starts[1:]), len(code)]):
        if notes.search(code, found.end(), end):
            yield found.group(1)


def modules_of(folder):
    """The sources of a crate, by the names of their modules."""
    sources = Path(folder, "src")
    return {
        "::".join(it.relative_to(sources).with_suffix("").parts): it
        for it in sorted(sources.rglob("*.rt"))
    }


def imports_of(modules):
    """Which modules of a crate each of them imports."""
    imported = {}
    for name, path in modules.items():
        words = {word for room, use in USE.findall(code_of(path)) for word in paths_in(room_of(name, room), use)}
        imported[name] = {it for it in (longest(modules, word) for word in words) if it and it != name}
    return imported


def room_of(name, room):
    """The parts of the path in which a module's `use` begins: `crate`, `self`, `super` or `super::super`."""
    if room == "crate":
        return []
    parts = [] if name in ("lib", "main") else name.split("::")
    return parts[: len(parts) - room.count("super")]


def paths_in(room, use):
    """The paths of a `use` below the crate."""
    words = re.findall(r"[\w:*]+", use) if use.startswith("{") else [use]
    return ["::".join([*room, word]) for word in words]


def longest(modules, path):
    """The module that a path leads into."""
    parts = path.split("::")
    for count in range(len(parts), 0, -1):
        if "::".join(parts[:count]) in modules:
            return "::".join(parts[:count])
    return None


def cycles_of(imported):
    """The sets of modules each of which imports each other one, if not at once, then by others of them."""
    reached = {name: reach(imported, name) for name in imported}
    cycles = {frozenset(it for it in there if name in reached[it]) for name, there in reached.items() if name in there}
    return sorted(sorted(it) for it in cycles)


def reach(imported, name):
    """All modules that a module imports, and that these do."""
    there, left = set(), [*imported[name]]
    while left:
        it = left.pop()
        if it not in there:
            there.add(it)
            left.extend(imported[it])
    return there
