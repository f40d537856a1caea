"""Parts of a picture that were worked out by hand, as tests/swimsim/run makes them: `--from` and `--around`, which may
have a period."""

import os
import re
import subprocess
import tempfile

from tests.swimsim.cases import SECONDS, content

# Of member 1, which asks nobody, with a timeout of one tick, and periods of three ticks from 8 on. Members 2 and 3
# never answer: period 8 probes 2, which is judged at tick 4, and period 9 probes 3, which is judged at tick 7. In
# period 10 nobody is listed, until 2 joins behind tick 8: period 11 probes it at tick 10, and it is judged at tick 13.
# 18 ticks are 6 periods, and 19 entries.
JUDGED = (
    b"open 1 0 1 3 7 100\nrow 2 10.0.0.2:7000\nrow 3 10.0.0.3:7000\norder 2,3\n"
    + b"tick\n" * 8
    + b"join 2 10.0.0.2:7000\n"
    + b"tick\n" * 10
)
OF_2 = [
    "probe of 2, period 11, tick 10",
    "no ack of 2 by the timeout, period 11: nobody asked, tick 11",
    "2 judged failed, period 11, tick 13",
]
OF_BOTH = [
    "probe of 2, period 8, tick 1", "no ack of 2 by the timeout, period 8: nobody asked, tick 2",
    "2 judged failed, period 8, tick 4",
    "probe of 3, period 9, tick 4", "no ack of 3 by the timeout, period 9: nobody asked, tick 5",
    "3 judged failed, period 9, tick 7",
    "2 joined, tick 8", *OF_2,
]
CUT = ["Cut: the first 9 ticks, and 10 entries, are left out."]
# With 30 more ticks there are 16 periods, 8 to 23; round period 11 they are 8 to 16, ticks 1 to 27, of 48.
LATER = JUDGED + b"tick\n" * 30
BEHIND = ["Cut: the last 21 ticks, and 21 entries, are left out."]
# With 30 ticks before, of period 8 to 17, in which nobody is known, and 30 behind: 2 is judged at the end of period 18,
# so periods 13 to 23 are shown, ticks 16 to 48, of 63.
ALONE = b"open 1 0 1 3 7 100\n" + b"tick\n" * 30 + b"join 2 10.0.0.2:7000\n" + b"tick\n" * 33
ALL_OF_2 = ["2 joined, tick 30", "probe of 2, period 18, tick 31",
            "no ack of 2 by the timeout, period 18: nobody asked, tick 32",
            "2 judged failed, period 18, tick 34"]
BOTH = ["Cut: the first 15 ticks, and 15 entries, and the last 15 ticks, and 15 entries, are left out."]
# Member 2 is the only one of this life, and judged twice: at tick 4 at the end of period 8, and after it joined again
# behind tick 30, in period 17, at tick 34 at the end of period 18. So round the first one are periods 8 to 13, ticks 1
# to 18, and round the second periods 13 to 23, ticks 16 to 48, of 63 ticks and 64 entries.
TWICE = b"open 1 0 1 3 7 100\nrow 2 10.0.0.2:7000\n" + b"tick\n" * 30 + b"join 2 10.0.0.2:7000\n" + b"tick\n" * 33
FIRST_OF_2 = ["probe of 2, period 8, tick 1", "no ack of 2 by the timeout, period 8: nobody asked, tick 2",
              "2 judged failed, period 8, tick 4"]
BEHIND_FIRST = ["Cut: the last 45 ticks, and 46 entries, are left out."]
DRAWN = [
    (["--from", "11"], JUDGED, OF_2, CUT),
    (["--from", "8"], JUDGED, OF_BOTH, []),
    (["--from", "13"], JUDGED, [], ["Cut: the first 15 ticks, and 16 entries, are left out."]),
    (["--around", "2"], JUDGED, OF_BOTH, []),
    (["--around", "2"], LATER, OF_BOTH, BEHIND),
    (["--around", "2"], ALONE, ALL_OF_2, BOTH),
    (["--around", "2", "--period", "18"], ALONE, ALL_OF_2, BOTH),
    (["--around", "2"], TWICE, ALL_OF_2, BOTH),
    (["--around", "2", "--period", "18"], TWICE, ALL_OF_2, BOTH),
    (["--period", "8", "--around", "2"], TWICE, FIRST_OF_2, BEHIND_FIRST),
]
REFUSED = [
    (["--from", "7"], "the run has no period 7"),
    (["--from", "14"], "the run has no period 14"),
    (["--from", "18446744073709551615"], "the run has no period 18446744073709551615"),
    (["--around", "4"], "member 4 was not judged in this run"),
    (["--around", "1"], "member 1 was not judged in this run"),
    (["--around", "2", "--period", "9"], "member 2 was not judged in period 9 of this run"),
    (["--around", "3", "--period", "8"], "member 3 was not judged in period 8 of this run"),
    (["--around", "4", "--period", "8"], "member 4 was not judged in period 8 of this run"),
    (["--around", "2", "--period", "18446744073709551615"],
     "member 2 was not judged in period 18446744073709551615 of this run"),
]
NUMBERS = [["--from", "0"], ["--around", "0"], ["--from", "x"], ["--around", ""], ["--from", "-1"],
           ["--around", "4294967296"],
           ["--from", "18446744073709551616"], ["--from", "1", "--from", "2"],
           ["--around", "2", "--period", "0"], ["--around", "2", "--period", "18446744073709551616"],
           ["--around", "2", "--period", ""]]


def played(program, script, *words):
    return subprocess.run([program, *words], input=script, capture_output=True, timeout=SECONDS)


def titles(text, tag):
    """The words of the marks that have them, or the remarks of the head."""
    if tag == "remark":
        return [it.strip() for it in re.findall(r'<text class="remark"[^>]*>([^<]*)</text>', text)]
    marks = text[text.index('<g id="marks">'):]
    return re.findall(r"<title>([^<]*)</title>", marks)


def with_a_part_of_a_picture(program):
    """A picture begins with a period, or lies round a judgement; where there is none, the file stays as it was."""
    said = []
    with tempfile.TemporaryDirectory() as folder:
        path = f"{folder}/run.svg"
        for words, script, marks, remarks in DRAWN:
            ran = played(program, script, "--timeline", path, *words)
            text = content(path).decode()
            found = [ran.returncode, ran.stderr, titles(text, "mark"), titles(text, "remark")]
            wanted = [0, b"", marks, remarks]
            said += [f"{words}: {it!r}, and not {that!r}" for it, that in zip(found, wanted) if it != that]
        held = content(path)
        for words, why in REFUSED:
            ran = played(program, JUDGED, "--timeline", path, *words)
            if (ran.returncode, ran.stderr.decode()) != (1, f"swimsim: {path}: {why}\n") or content(path) != held:
                said.append(f"{words}: status {ran.returncode}, {ran.stderr!r}")
    return said


def with_other_numbers_of_a_part(program):
    """A number that can't be one, a part without a picture, a period of no part, and two parts are refused before
    anything is played or written."""
    said = []
    with tempfile.TemporaryDirectory() as folder:
        path = f"{folder}/run.svg"
        tries = [["--timeline", path, *words] for words in NUMBERS]
        tries += [["--from", "8"], ["--around", "2"], ["--timeline", path, "--from", "8", "--around", "2"],
                  ["--timeline", path, "--from"], ["--around", "2", "--period", "8"], ["--period", "8"],
                  ["--timeline", path, "--period", "8"], ["--timeline", path, "--from", "8", "--period", "8"],
                  ["--timeline", path, "--from", "8", "--around", "2", "--period", "8"],
                  ["--verify", path, "--period", "8"], ["--verify", path, "--around", "2", "--period", "8"],
                  ["--trace", path, "--around", "2", "--period", "8"],
                  ["--verify", path, "--from", "8"], ["--around", "2", "--verify", path]]
        for words in tries:
            ran = played(program, JUDGED, *words)
            if ran.returncode != 2 or ran.stdout or not ran.stderr.startswith(b"error: "):
                said.append(f"{words}: status {ran.returncode}, {ran.stdout[:100]!r}, {ran.stderr[:200]!r}")
        return said + ([f"a file was written: {content(path)[:100]!r}"] if os.path.exists(path) else [])
