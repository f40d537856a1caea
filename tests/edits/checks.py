"""Checks of a crate with edits in it, by the toolchain's prover in a room of its own, and what they say of each
function."""

import os
import re
import shutil
import subprocess
import time
from pathlib import Path

from tests.support.crates import SOURCES, kit

# What the prover says where a proof names something that the edited body hasn't any more, and of what rests on that: it
# says little of the contract.
ONLY_NAMES = re.compile(r"has no field|is not in scope|has no `|was not admitted|which was rejected, was not checked")
ERROR = re.compile(r"(?:\./)?(\S+?):\d+:\d+: error: .*")
SEARCH = re.compile(r"`search` did not prove .*")
# What it says of a proof file whose function it doesn't know by that name.
MISNAMED = re.compile(r"`\w+` has no function `([^`]*)`")
# What the prover says last, where a crate got as far as to it.
VERDICTS = ("logic=proved", "logic=not-proved", "only=")
REFUSED, NOT_REFUSED, BAD_EDIT = "refused", "NOT REFUSED", "BAD EDIT"


class Check:
    """What a check wrote: its lines, of which some tell of functions that aren't proved, and some are errors that stand
    in a file."""

    def __init__(self, lines):
        self.lines = lines
        self.unproved = [it for it in lines if it.startswith("fn ") and not it.endswith(": proved")]
        self.errors = [it for it in lines if ERROR.match(it)]
        self.is_told = any(it.startswith(VERDICTS) for it in lines)
        self.misnamed = {found[1] for it in lines for found in [MISNAMED.search(it)] if found}

    def refusal(self, crate, path):
        """The error that stands inside a function or in its own answers: that something isn't proved. None where there
        is none."""
        head = f"fn {crate}::{path}: "
        said = next((it for it in self.unproved if it.startswith(head)), "")
        searched = SEARCH.search(said)
        if searched:
            return searched[0].split("; it calls")[0]
        *above, last = path.split("::")
        folders = ["/".join(["proofs", *above, it]) for it in (last, f"+{last}")] if said else []
        errors = [it for it in self.errors if os.path.dirname(ERROR.match(it)[1]) in folders]
        return next((it for it in errors if not ONLY_NAMES.search(it)), None)

    def ending(self):
        """What came of an edit that was checked with the whole crate, and the error or the reason."""
        verdicts = [it for it in self.lines if it.startswith(VERDICTS)]
        if not verdicts:
            rejections = [it for it in self.lines if it.startswith("error")]
            return BAD_EDIT, f"it did not reach the prover: {next(iter(rejections), ' '.join(self.lines[:3]))}"
        if verdicts[-1].startswith("logic=proved"):
            return NOT_REFUSED, "the crate is still proved with this edit"
        told = [it for it in self.errors if not ONLY_NAMES.search(it)] + [
            it for it in self.unproved if SEARCH.search(it)
        ]
        if told:
            return REFUSED, told[0]
        if self.errors:
            return BAD_EDIT, f"refused only because a proof names what the edit took away: {self.errors[0]}"
        return BAD_EDIT, f"refused, but not by a contract: {next(iter(self.unproved), 'nothing is told')}"


def prover_words(crates, name):
    """What checks a crate over the libraries that lie below it, as they are. `rt check` would prove those anew that
    `rt ci` left: it takes only what it built itself."""
    toolchain, below = kit(), crates.below[name]
    root = "main" if os.path.exists(f"{crates.folder(name)}/src/main.rt") else "lib"
    libraries = {"std": f"{toolchain}/rlibs/std.rlib"}
    libraries.update({it: crates.made(it) if it in crates.below else f"{toolchain}/rlibs/{it}.rlib" for it in below})
    folders = [f"{toolchain}/rlibs", *(os.path.dirname(crates.made(it)) for it in crates.chain(*below))]
    return [f"{toolchain}/bin/rattle", "check", "--crate-name", name, f"src/{root}.rt",
            *(word for it, path in libraries.items() for word in ("--extern", f"{it}={path}")),
            *(word for it in folders for word in ("-L", f"dependency={it}")),
            "--antt-project", f"{toolchain}/rattle/logic/antt-project.json", "--logic-built", f"{toolchain}/logic_built",
            "--links", f"{name}=", "--jobs", "1"]


class Room:
    """A place in which a crate is checked with edits in it. What its checks prove is kept for the next ones, but for
    what the first proves: mostly there is no other, and to keep it takes some tenth of its time. The room keeps the
    functions that the prover doesn't know by the names that they have here."""

    def __init__(self, crates, name, folder):
        self.name, self.folder, self.seconds, self.misnamed = name, Path(folder), [], set()
        self.words, self.texts = prover_words(crates, name), texts_of(crates.folder(name))
        Path(folder, "kept").mkdir(parents=True)

    def check(self, texts, *words):
        """Checks the crate with these texts for its own."""
        began, kept = time.monotonic(), ["--incremental", f"{self.folder}/kept"] if self.seconds else []
        for it in SOURCES:
            shutil.rmtree(self.folder / it, ignore_errors=True)
        for path, text in ((self.folder / it, text) for it, text in texts.items()):
            path.parent.mkdir(parents=True, exist_ok=True)
            path.write_text(text, encoding="utf-8")
        how = {"stdin": subprocess.DEVNULL, "stdout": subprocess.PIPE, "stderr": subprocess.STDOUT, "errors": "replace"}
        said = subprocess.run([*self.words, *kept, *words], cwd=self.folder, **how).stdout
        self.seconds.append(time.monotonic() - began)
        check = Check(said.split("\n"))
        self.misnamed |= check.misnamed
        return check


def texts_of(folder):
    """The texts of a crate's src/, specs/ and proofs/, by their path below it."""
    files = (it for room in SOURCES for it in Path(folder, room).rglob("*") if it.is_file())
    return {it.relative_to(folder).as_posix(): it.read_text(encoding="utf-8") for it in files}
