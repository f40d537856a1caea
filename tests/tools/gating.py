"""What `tests/all` plays when, and that tests/edits/run tries nothing for who is gone. `rt` and the parts are stand-ins:
nothing is proved here."""

import json
import re
import subprocess

from tests.gate.parts import CI, ROOMS
from tests.support.parts import TOP
from tests.tools.copies import SECONDS, Copy, unlike

# It wants each program that it is given to be there.
STAND_IN_PART = """\
#!/bin/sh
for program; do
    case $program in -*|[0-9]*) ;; *) [ -x "$program" ] || exit 1 ;; esac
done
echo "$(basename "$(dirname "$0")")/$(basename "$0")" >> "$PLAYED"
echo '1 passed, 0 failed'
"""
# It proves swimsim, and goes on when a part of it was played; then it proves all else.
STAND_IN_CI = """\
#!/bin/sh
[ "$1" = ci ] || exit 1
made() { mkdir -p "$(dirname "$1")"; printf '#!/bin/sh\\n' > "$1"; chmod +x "$1"; }
made crates/swimsim/out/swimsim
echo 'rt: swimsim proved'
while ! grep -q swimsim/run "$PLAYED"; do sleep 0.05; done
grep -q swimd "$PLAYED" && echo 'a part was played without its program'
for it in swimd node_bench; do
    made crates/$it/out/$it
    echo "rt: $it proved"
done
for it in swim_detector swim_node swim_desk swim_crew swim_lives swim_config; do
    made crates/${it}_tests/out/${it}_tests_tests
    echo "rt: ${it}_tests proved"
    echo "rt: ${it}_tests: its tests are proved"
done
echo '10 passed, 0 failed'
"""

# It reads the names of the crates that are proved, up to a line `.`.
STAND_IN_EDITS = """\
#!/bin/sh
while read -r name && [ "$name" != . ]; do echo "$name" >> "$PLAYED"; done
[ "$name" = . ] && echo '3 passed, 0 failed'
"""


def with_parts(copy):
    """The parts of the tests are stand-ins, which write down that they were played."""
    for part in ROOMS:
        copy.put_file(f"tests/{part.words[0].partition('/')[2]}", STAND_IN_PART, mode=0o755)
    copy.put_file("tests/all", open(f"{TOP}/tests/all", encoding="utf-8").read(), mode=0o755)
    copy.played = f"{copy.top}/played"
    open(copy.played, "w").close()
    copy.variables = {"PLAYED": copy.played}
    return copy


def short_parts_take_what_the_check_built(_programs, folder):
    """Where no program lies there at first, each part is given the one that the check made."""
    copy = with_parts(Copy(folder))
    ran = copy.run("tests/all", "--short")
    last = f"{len(copy.crates.below) + sum(it.is_short for it in ROOMS)} passed, 0 failed"
    return unlike("the end", (0, last), (ran.returncode, ran.stdout.splitlines()[-1]))


def parts_begin_when_their_programs_are_built(_programs, folder):
    """Parts of swimsim are played while other crates are still proved. Each part is told once, and the times are
    written."""
    copy = with_parts(Copy(folder))
    copy.put("rt", STAND_IN_CI)
    ran, left_out = copy.run("tests/all"), sum(it.lacking() is not None for it in ROOMS)
    said = unlike("the end", (0, f"{10 + len(ROOMS) - left_out} passed, 0 failed"), (ran.returncode, last_of(ran)))
    said += [f"it says {it}" for it in re.findall("a part was played without.*", ran.stdout)]
    with open(copy.played, encoding="utf-8") as file:
        said += unlike("how many were played", len(ROOMS) - left_out, len(file.read().splitlines()))
    with open(f"{copy.top}/out/gate.json", encoding="utf-8") as file:
        told = [it["part"] for it in json.load(file)["parts"]]
    return said + unlike("the first that is told", (CI.name, len(ROOMS) + 1 - left_out), (told[0], len(told)))


def edits_are_tried_beside_the_rest(_programs, folder):
    """They are told each crate as it is proved, and when no more comes."""
    copy = with_parts(Copy(folder))
    copy.put("rt", STAND_IN_CI)
    copy.put_file("tests/edits/run", STAND_IN_EDITS, mode=0o755)
    ran, left_out = copy.run("tests/all", "--with-edits"), sum(it.lacking() is not None for it in ROOMS)
    with open(copy.played, encoding="utf-8") as file:
        named = [it for it in file.read().splitlines() if "/" not in it]
    said = unlike("the end", (0, f"{13 + len(ROOMS) - left_out} passed, 0 failed"), (ran.returncode, last_of(ran)))
    return said + unlike("how many crates are named", 9, len(named))


def a_part_without_its_program_fails(_programs, folder):
    """A crate that isn't proved fails, and each part that needs its program is left out, which is said."""
    copy = with_parts(Copy(folder))
    copy.put("rt", "#!/bin/sh\necho 'rt: swimd NOT PROVED'\necho '0 passed, 1 failed'\nexit 1\n")
    ran = copy.run("tests/all")
    found = re.fullmatch(r"(\d+) passed, (\d+) failed", last_of(ran))
    with_program = [it for it in ROOMS if it.programs and not it.lacking()]
    said = [] if ran.returncode == 1 and found and int(found[2]) > 1 else [f"it ends {last_of(ran)!r}"]
    lines = [it for it in with_program if f"left out: {it.name}: a program of it was not built" in ran.stdout]
    return said + unlike("what is left out", len(with_program), len(lines))


def last_of(ran):
    return (ran.stdout.splitlines() or [""])[-1]


# Of the crates by which d stands on a, c is proved longest. What its tests take isn't seen in a chain.
CRATES = "a:\nb: a thiserror\nc: a\nd: b c\nd_tests: d\n"
SECONDS_OF_CRATES = {
    "a": {"proof": 10.2}, "b": {"proof": 19.9, "tests": 500}, "c": {"proof": 20.4}, "d": {"proof": 12.3, "edits": 4.6}
}
CHAIN = "In the run of 2026-01-02 that was a, c, d: 43 seconds of a processor, 12 of them for d."


def with_times(folder):
    copy = Copy(folder)
    for path in ("tests/tools/times", "docs/GATE.md"):
        copy.put_file(path, open(f"{TOP}/{path}", encoding="utf-8").read(), mode=0o755)
    copy.put_file("crates.txt", CRATES)
    return copy


def put_times(copy, **values):
    """Puts the times of a run into the copy's document: the status, and the document."""
    part = {"part": "ci", "seconds": 2_000.4, "processor": 7_000.6, "passed": 1, "failed": 0}
    told = {"when": "2026-01-02", "processors": 4, "seconds": 2_100, "parts": [part], "crates": SECONDS_OF_CRATES}
    copy.put_file("out/gate.json", json.dumps({**told, **values}))
    ran = copy.run("tests/tools/times")
    with open(f"{copy.top}/docs/GATE.md", encoding="utf-8") as file:
        return ran.returncode, file.read()


def times_are_put_into_the_document(_programs, folder):
    """Those of a run with four processors, by part and by crate, and the longest chain; a document without their places
    is left as it is."""
    copy = with_times(folder)
    status, text = put_times(copy)
    wanted = ["A run of 2026-01-02, in seconds:", "| ci | 2,000 | 7,001 |", "| d | 12 | - | 5 |", CHAIN]
    said = unlike("the status", 0, status) + [f"it lacks {it!r}" for it in wanted if it not in text]
    copy.put_file("docs/GATE.md", "nothing\n")
    return said + unlike("the other status", (1, "nothing\n"), put_times(copy))


def two_processors_leave_the_crates(_programs, folder):
    """A run with two processors puts its parts into their own table. Crates and chain stay those of four."""
    copy = with_times(folder)
    _, four = put_times(copy)
    status, both = put_times(copy, when="2026-03-04", processors=2, crates={"a": {"proof": 77.7}})
    places = re.compile(r"<!-- ([^>]*) -->(.*?)<!-- end of \1 -->", re.DOTALL)
    before, after = (dict(places.findall(it)) for it in (four, both))
    moved = [it for it in after if after[it] != before[it]]
    return unlike("the status", 0, status) + unlike("what it puts", ["parts with two processors"], moved)


def no_edit_is_tried_for_who_is_gone(_programs, _folder):
    """A run names the crates that it proved, and a line `.` last. If it is killed, its names just end."""
    words = {"cwd": TOP, "input": "", "capture_output": True, "text": True, "timeout": SECONDS}
    ran = subprocess.run(["tests/edits/run", "--as-named"], **words)
    return unlike("the end", (1, "0 passed, 1 failed"), (ran.returncode, last_of(ran)))


GATING = [
    short_parts_take_what_the_check_built,
    parts_begin_when_their_programs_are_built,
    edits_are_tried_beside_the_rest,
    a_part_without_its_program_fails,
    times_are_put_into_the_document,
    two_processors_leave_the_crates,
    no_edit_is_tried_for_who_is_gone,
]
