"""What tests/tools/rooms finds that the tables of a document say and the tree doesn't have."""

from pathlib import Path

from tests.support.rooms import Places, crate_faults, file_faults, rows_of
from tests.tools.copies import unlike

BELOW = {"low": [], "high": ["arrayvec", "low"], "high_tests": ["high"]}
FILES = {
    "crates/low/src/lib.rt": "mod depths;",
    "crates/low/src/depths.rt": "fn sink() {}",
    "crates/low/src/depths/bottom.rt": "fn lie() {}",
    "crates/low/specs/Lib.antt": "pub mod Deep",
    "crates/low/specs/Deep.antt": "IsDeep = 1",
    "crates/low/proofs/Sinking.antt": "",
    "crates/low/proofs/depths/sink/Answers.antt": "",
    "crates/low/out/kept.rt": "",
    "crates/high/src/main.rt": "",
    "crates/high/src/tests.rt": "",
    "crates/high/src/tests/peaks.rt": "fn climbs() {}",
    "tests/hills/worked_hills.py": "climb = 1",
}
TEXT = """\
# The tree

| Crate | What | Stands on |
|---|---|---|
| **Libraries** | | |
| `low` | what is below | std |
| `high` | what is above | low, arrayvec |
| `high_tests` and the others | tests | all |

| Rule | Stated in | Tried in |
|---|---|---|
| how deep | `IsDeep` in low/specs/Deep.antt | `climb` in tests/hills/worked_hills.py |
| how far | `Deep::IsDeep` in low/specs/Deep.antt; src/depths.rt | `climbs` in high/src/tests/peaks.rt |
| how long | the same | worked_hills.py |

### low

| Module | What |
|---|---|
| `depths`, `bottom` | the depths, as src/depths.rt; any of crates/NAME/src/NAME.rt |

| Specs | What |
|---|---|
| `Deep` | how deep |

| Lemmas | What |
|---|---|
| `Sinking` | that it sinks |
"""
# What stands in the place of a part of the text, and what is said then.
WRONG = [
    ("| `low` | what is below | std |\n", "", ["crate low isn't in the table"]),
    ("| `low` | what is below", "| `low` | it | std |\n| `low` | it", ["crate low is in the table 2 times"]),
    ("| `high_tests` and", "| `deep_tests`, `high_tests` and", ["there is no crate deep_tests"]),
    ("low, arrayvec |", "low, itoa |", ["7: high doesn't stand on itoa", "7: high stands on arrayvec, too"]),
    ("`depths`, `bottom`", "`depths`", ["low/src/depths/bottom.rt isn't in a table"]),
    ("`depths`, `bottom`", "`depths`, `bottom`, `top`", ["there is no low/src/top.rt"]),
    ("`depths`, `bottom`", "`bottom`, `depths`, `depths`", ["low/src/depths.rt is there more than once"]),
    ("| `Deep` | how deep", "| `Flat` | how deep", ["there is no low/specs/Flat.antt",
                                                     "low/specs/Deep.antt isn't in a table"]),
    ("| `Sinking` |", "| `sink` |", ["there is no low/proofs/sink.antt", "low/proofs/Sinking.antt isn't in a table"]),
    ("| `Deep` | how deep", "| `kept` | how deep", ["there is no low/specs/kept.antt",
                                                     "low/specs/Deep.antt isn't in a table"]),
    ("as src/depths.rt", "as src/heights.rt", ["20: there is no src/heights.rt"]),
    ("as src/depths.rt", "as src/kept.rt", ["20: there is no src/kept.rt"]),
    ("the same | worked_hills.py", "the same | worked_dales.py", ["14: there is no worked_dales.py"]),
    ("in tests/hills/", "in tests/dales/", ["12: there is no tests/dales/worked_hills.py"]),
    ("Deep.antt; src/depths.rt", "Deep.antt; src/main.rt", ["13: there is no src/main.rt"]),
    ("`climb` in", "`fall` in", ["12: fall isn't in a file that is named beside it"]),
    ("`Deep::IsDeep` in", "`IsDeep::Deep` in", ["13: IsDeep::Deep isn't in a file that is named beside it"]),
]


def with_files(folder):
    for name, text in FILES.items():
        path = Path(folder, name)
        path.parent.mkdir(parents=True, exist_ok=True)
        path.write_text(text, encoding="utf-8")
    return Path(folder)


def faults_of(text, top):
    """All that is said of a text."""
    rows, places = [*rows_of(text)], Places(top, [*BELOW])
    crates = [*crate_faults(rows, BELOW)]
    files = [it for name in ("low", "high") for it in file_faults(rows, name, Path(top, "crates", name))]
    return [*crates, *files, *places.lost(text), *places.wordless(rows)]


def what_is_there_may_be_told(_programs, folder):
    """A crate of tests needs no row, nor does a program of one file need a table; a cell without a place names what it
    likes."""
    text = TEXT.replace("| `high_tests` and the others | tests | all |\n", "").replace("the same |", "`nothing` |")
    top = with_files(folder)
    return [
        *unlike("what is said of the text", [], faults_of(TEXT, top)),
        *unlike("what is said of less", [], faults_of(text.replace("`nothing` | worked_hills.py", "`nothing` |"), top)),
    ]


def what_is_not_there_is_named(_programs, folder):
    """Each wrong word is told, and nothing else is."""
    top, said = with_files(folder), []
    for old, new, faults in WRONG:
        said += unlike(f"what is said where {new!r} stands", faults, faults_of(TEXT.replace(old, new), top))
    return said


def a_new_file_has_to_be_told(_programs, folder):
    """A module has to be, and what a table of its kind may name."""
    top = with_files(folder)
    for name in ("high/src/peaks.rt", "high/specs/Steep.antt", "low/specs/Flat.antt"):
        path = top / "crates" / name
        path.parent.mkdir(parents=True, exist_ok=True)
        path.write_text("", encoding="utf-8")
    wanted = [f"{it} isn't in a table" for it in ("low/specs/Flat.antt", "high/src/peaks.rt")]
    return unlike("what is said", wanted, faults_of(TEXT, top))


ROOMING = [what_is_there_may_be_told, what_is_not_there_is_named, a_new_file_has_to_be_told]
