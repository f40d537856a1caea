"""Copies of what programs are built of, in a folder of their own, where `rt` is a stand-in that writes down what it is
asked for: nothing is proved there."""

import os
import shutil
import subprocess

from tests.support.crates import Crates
from tests.support.parts import TOP

SECONDS = 60
# It makes a library or a program where there is none, as `rt` leaves what is there where only times are newer. It fails
# where a file `refused` lies.
STAND_IN = """\
#!/bin/sh
crate=$(basename "$PWD")
echo "$crate $*" >> "$(dirname "$0")/calls"
if [ -e refused ]; then echo 'it is not so' >&2; exit 1; fi
case $1 in
    lib) mkdir -p out/rlib/$crate.rlib ;;
    run) mkdir -p out
         [ -e out/$crate ] || printf '#!/bin/sh\\necho a proved program\\n' > out/$crate
         chmod +x out/$crate ;;
    test) mkdir -p out; touch out/${crate}_tests ;;
    try) for pipe; do :; done
         mkdir "$TMPDIR/try" && printf '#!/bin/sh\\necho sources\\n' > "$TMPDIR/try/program"
         chmod +x "$TMPDIR/try/program"
         cat "$pipe" > /dev/null
         rm -r "$TMPDIR/try" ;;
    version) echo a stand-in ;;
esac
"""


class Copy:
    """A copy of what programs are built of, with a stand-in of `rt`."""

    def __init__(self, folder):
        self.top, self.bin = f"{folder}/copy", f"{folder}/bin"
        shutil.copytree(f"{TOP}/crates", f"{self.top}/crates", ignore=shutil.ignore_patterns("out", "edits"))
        for room in ("support", "gate"):
            shutil.copytree(f"{TOP}/tests/{room}", f"{self.top}/tests/{room}")
        for path in ("crates.txt", "tests/__init__.py", "examples/first.swim"):
            os.makedirs(os.path.dirname(f"{self.top}/{path}"), exist_ok=True)
            shutil.copy2(f"{TOP}/{path}", f"{self.top}/{path}")
        os.makedirs(self.bin)
        self.put("rt", STAND_IN)
        self.crates, self.variables = Crates(self.top), {}

    def put(self, name, text):
        """From now on that is the command of this name."""
        with open(f"{self.bin}/{name}", "w", encoding="utf-8") as file:
            file.write(text)
        os.chmod(f"{self.bin}/{name}", 0o755)

    def put_file(self, path, text, mode=0o644):
        """From now on a file lies there, of that text."""
        os.makedirs(os.path.dirname(f"{self.top}/{path}"), exist_ok=True)
        with open(f"{self.top}/{path}", "w", encoding="utf-8") as file:
            file.write(text)
        os.chmod(f"{self.top}/{path}", mode)

    def append(self, path, text):
        with open(f"{self.top}/{path}", "a", encoding="utf-8") as file:
            file.write(text)

    def count(self, path):
        """How many things lie in a folder."""
        return len(os.listdir(f"{self.top}/{path}"))

    def run(self, *words):
        variables = {**os.environ, **self.variables, "PATH": f"{self.bin}:{os.environ['PATH']}"}
        words = {
            "cwd": self.top, "env": variables, "capture_output": True, "text": True, "timeout": SECONDS, "args": words
        }
        return subprocess.run(**words)

    def calls(self):
        """What `rt` was asked for since this was asked last: pairs of a crate and words."""
        path = f"{self.bin}/calls"
        if not os.path.exists(path):
            return []
        with open(path, encoding="utf-8") as file:
            lines = file.read().splitlines()
        os.remove(path)
        return [tuple(line.split(" ", 1)) for line in lines]

    def with_program(self):
        """The proved program of swimsim is there, a second newer than all that it is made of."""
        subprocess.run([f"{self.bin}/rt", "run"], cwd=self.crates.folder("swimsim"), check=True, timeout=SECONDS)
        self.calls()
        newest = max(os.stat(it).st_mtime for it in self.crates.sources("swimsim"))
        os.utime(self.crates.made("swimsim"), (newest + 1, newest + 1))
        return self

    def check(self):
        """Checks what changed, and gives the status, the last line, and which crates `rt` was asked for."""
        ran = self.run("tests/support/check", "--lanes", "3")
        return ran.returncode, ran.stdout.splitlines()[-1], [crate for crate, _ in self.calls()]

    def touch(self, path):
        """From now on that file or folder is newer than the program."""
        self.date(path, os.stat(self.crates.made("swimsim")).st_mtime + 1)

    def date(self, path, seconds):
        os.utime(f"{self.top}/{path}", (seconds, seconds))


def unlike(what, wanted, found):
    return [] if wanted == found else [f"{what} is {found!r}, and not {wanted!r}"]
