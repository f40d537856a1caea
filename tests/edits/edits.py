"""Edits: files crates/NAME/edits/*.edit, each a wrong body that the prover has to refuse.

An edit has lines `file: src/lib.rt`, `old: TEXT` and `new: TEXT`. Each old text stands once in that file; further pairs
apply to what the earlier ones made.
"""

from pathlib import Path

from tests.edits.functions import function_around, functions_in


class BadEdit(Exception):
    """An edit that can't be tried, with the reason."""


class Edit:
    """An edit of a crate: its name, its pairs (file, old, new), the one function whose body alone it changes, if it is
    so, and what it is near to: the functions whose bodies it changes, or where there is none, all in its files."""

    def __init__(self, path, texts):
        """Reads it, and plants it for once: one that can't be planted is a bad one."""
        self.name, self.pairs = Path(path).name, read_pairs(Path(path).read_text(encoding="utf-8"))
        self.planted(texts)
        around = {function_around(old, file, texts) for file, old, _ in self.pairs}
        bodies, files = sorted(around - {None}), sorted({file for file, _, _ in self.pairs})
        self.function = bodies[0] if bodies and len(around) == 1 else None
        self.near = bodies or [path for it in files for path, _, _ in functions_in(it, texts)]

    def planted(self, texts):
        """The texts of a crate's files, by their path, with this edit in them."""
        made = dict(texts)
        for file, old, new in self.pairs:
            if file not in made:
                raise BadEdit(f"there is no file {file}")
            if made[file].count(old) != 1:
                raise BadEdit(f"an 'old:' text is in {file} {made[file].count(old)} times, and not once")
            made[file] = made[file].replace(old, new)
        return made


def read_pairs(text):
    """The pairs of an edit's lines."""
    pairs, file, old = [], None, None
    for line in text.split("\n"):
        word, _, rest = line.partition(":")
        if word == "file":
            file = rest.strip()
        elif word == "old":
            old = rest[1:]
        elif word == "new":
            if not file or not old:
                raise BadEdit("a 'new:' line stands before any 'file:' or 'old:' line")
            pairs, old = [*pairs, (file, old, rest[1:])], None
        elif line:
            raise BadEdit(f"a line begins with none of 'file:', 'old:' and 'new:': {line.strip()[:60]}")
    if not pairs:
        raise BadEdit("it has no 'old:' and 'new:' pair")
    return pairs


def edits_of(folder):
    """The paths of the edits in a folder, by name."""
    return sorted(str(it) for it in Path(folder).glob("*.edit"))


def in_rooms(paths, texts, size):
    """These edits of a crate, about so many a room: those of one function stand in one room, since they are tried in
    turn."""
    by_function, share = {}, len(paths) / max(1, round(len(paths) / size))
    for path in paths:
        by_function.setdefault(function_of(path, texts), []).append(path)
    rooms = [[]] if paths else []
    for group in by_function.values():
        rooms += [[]] * (len(rooms[-1]) >= share)
        rooms[-1] = [*rooms[-1], *group]
    return rooms


def function_of(path, texts):
    """The one function that an edit changes, or None; a bad edit is told when it is tried."""
    try:
        return Edit(path, texts).function
    except BadEdit:
        return None
