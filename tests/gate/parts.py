"""The parts of the gate: what each is, which programs it is given, and what it needs."""

import shutil
import sys
from typing import NamedTuple


class Part(NamedTuple):
    """A part: its words, the crates whose programs it is given, what it needs beside Python 3.8, whether it is short,
    and whether nothing is to be played beside it, edits neither."""

    name: str
    what: str
    words: list
    programs: tuple = ()
    needs: tuple = ()
    is_short: bool = False
    is_alone: bool = False

    def lacking(self):
        """Why it can't be run here, if it can't."""
        if RUSTC in self.needs and not shutil.which("rustc"):
            return "rustc, the Rust compiler, is not on PATH"
        if VALGRIND in self.needs and not shutil.which("valgrind"):
            return "valgrind, which counts instructions, is not on PATH"
        if OBJDUMP in self.needs and not shutil.which("objdump"):
            return "objdump, which shows the frames of functions, is not on PATH"
        if TOML in self.needs and sys.version_info < (3, 11):
            return "this Python is older than 3.11"
        return None


def room(name, what, programs, *needs, **marks):
    """A part whose name is its path below tests/."""
    return Part(name, what, [f"tests/{name}"], programs, needs, **marks)


RUSTC, VALGRIND, OBJDUMP, TOML = "rustc", "valgrind", "objdump", "toml"
SWIMSIM, SWIMD = ("swimsim",), ("swimd",)
ALL_PROGRAMS = (
    "swim_detector_tests",
    "swim_node_tests",
    "swim_desk_tests",
    "swim_crew_tests",
    "swim_lives_tests",
    "swim_config_tests",
    "swimsim",
    "swimd",
    "node_bench",
)

CHECK = Part("check", "what changed, and what stands on it, over what was proved before", ["tests/support/check"])
# What proves leaves the processors to the parts that are played meanwhile: some of these tell how soon a daemon answers.
CI = Part("ci", "every proof and test of the crates (`rt ci`)", ["nice", "-n", "19", "rt", "ci"])
EDITS = Part(
    "edits", "wrong bodies that the prover has to refuse, those of a crate tried together", ["tests/edits/run"]
)
# They are begun in this order, as soon as their programs are built: what depends on time stands first.
ROOMS = [
    room("swimd/daemon", "daemons on this machine, alone and in groups, and their journal files", SWIMD + SWIMSIM),
    room(
        "swimd/keys", "daemons with keys of a group, and groups whose keys differ or are changed over", SWIMD + SWIMSIM
    ),
    room("swimd/watch", "daemons that tell those who watch of each change, and `swimd watch`", SWIMD + SWIMSIM),
    room("swimd/web", "pages that `swimd web` serves, and whoever asks for them", SWIMD + SWIMSIM),
    room("swimd/metrics", "what daemons log and count, beside their journal files", SWIMD + SWIMSIM),
    room("swimd/rejoin", "groups whose members are judged and come back", SWIMD + SWIMSIM),
    room("swimd/compare", "swimd beside models of its texts, and beside the reference", SWIMD + SWIMSIM, TOML),
    room("swimd/run", "`swimd check` on configurations whose answers are known", SWIMD, is_short=True),
    room("swimsim/run", "swimsim on scripts whose answers are known, and with words", SWIMSIM, is_short=True),
    room("swimsim/pictures", "the pictures of `--timeline`, by an XML parser", SWIMSIM, is_short=True),
    room("swimsim/compare", "swimsim beside the reference, on random scripts", SWIMSIM, RUSTC),
    room("node/failures", "the programs, each call of the system failing in turn", SWIMSIM + SWIMD, RUSTC),
    room("bench/bounds", "instructions of datagrams, ticks, lines and pages, each within a bound", SWIMSIM + SWIMD, VALGRIND),
    room("bench/frames", "swimd's stacks, and the frames that every datagram and line pays for", SWIMD, OBJDUMP, is_short=True),
    room("tools/layout", "sources, definitions and proofs are laid out as `rt ci` wants them", (), is_short=True),
    room("tools/contracts", "docs/CONTRACTS.md is what the sources say", (), is_short=True),
    room("tools/by_hand", "proofs by hand, and what notes in trails, are those that are known", (), is_short=True),
    room("tools/quotes", "the clauses that documents quote are what the sources say", (), is_short=True),
    room("tools/rooms", "documents name the crates and files that there are", (), is_short=True),
    room(
        "tools/run",
        "`make install` and `make uninstall`, and which programs tests/support/build takes",
        SWIMSIM + SWIMD,
    ),
    Part("fuzz/run", "both programs on mutations of valid texts, for ten seconds", ["tests/fuzz/run", "--seed", "0"],
         SWIMSIM + SWIMD, (RUSTC, TOML)),
    room("node/refusals", "the programs, each request for memory refused in turn", ALL_PROGRAMS, RUSTC),
    # These two flood: they take all processors, and want them.
    room("swimd/flood", "a flooded daemon, whose memory must not grow", SWIMD, is_alone=True),
    room("swimd/fence", "daemons that are flooded, with a fence and without one", SWIMD + SWIMSIM, is_alone=True),
]
PARTS = [CI, EDITS, *ROOMS]
