"""What a program writes on a text, and how that of two differs."""

import difflib
import subprocess
from typing import NamedTuple

SECONDS = 120


class Written(NamedTuple):
    stdout: bytes
    stderr: bytes
    status: object


def run(words, script):
    try:
        ran = subprocess.run(words, input=script, capture_output=True, timeout=SECONDS)
    except subprocess.TimeoutExpired:
        return Written(b"", b"", f"none: it had not ended after {SECONDS} seconds")
    return Written(ran.stdout, ran.stderr, ran.returncode)


def differences(names, left, right):
    """The lines that differ, at most 20 of each output."""
    said = []
    for what, *texts in zip(("standard output", "standard error"), left, right):
        if texts[0] != texts[1]:
            shown = [[f"{line[:200]!r}" for line in text[:1_000_000].split(b"\n")] for text in texts]
            lines = list(difflib.unified_diff(*shown, *(f"{what} of {name}" for name in names), lineterm="", n=1))
            said += lines[:20] or [f"{what} differs after its first 1,000,000 bytes"]
    if left.status != right.status:
        said.append(f"the status of {names[0]} is {left.status}, of {names[1]} {right.status}")
    return said
