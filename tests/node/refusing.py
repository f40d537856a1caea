"""Runs programs with one request for memory refused, or with each request told. What does so is refuser.rs, which is
loaded into them in place of the C library's malloc and realloc: it needs `rustc` and a Linux with glibc."""

import os
import re
import subprocess
from typing import NamedTuple

from tests.support.parts import TOP

SECONDS = 60
MOST = 10_000
REFUSED = b"refused\n"
REQUEST = re.compile(rb"request (\d+)\n")


class Ran(NamedTuple):
    stdout: bytes
    stderr: bytes
    status: int


class Refuser:
    def __init__(self, folder):
        self.library = f"{folder}/librefuser.so"
        words = ["rustc", "--edition", "2024", "--crate-type", "cdylib", "-C", "panic=abort", "-O", "-o", self.library]
        subprocess.run([*words, f"{TOP}/tests/node/refuser.rs"], check=True)

    def run(self, words, script=b"", **variables):
        variables = {**os.environ, "LD_PRELOAD": self.library, **variables}
        ran = subprocess.run(words, input=script, capture_output=True, env=variables, timeout=SECONDS)
        return Ran(ran.stdout, ran.stderr, ran.returncode)

    def refusals(self, words, script=b""):
        """A run with the first request refused, one with the second, and so on, until a run meets none. What is written
        on standard error of the refusal is left out."""
        for number in range(1, MOST):
            ran = self.run(words, script, REFUSE=str(number))
            if REFUSED not in ran.stderr:
                return
            yield number, ran._replace(stderr=ran.stderr.replace(REFUSED, b"", 1))
        raise RuntimeError(f"each of {MOST - 1} runs met a refusal")

    def requests(self, words, script=b""):
        """The bytes of each request, in order."""
        ran = self.run(words, script, TELL="1")
        return [int(size) for size in REQUEST.findall(ran.stderr)]
