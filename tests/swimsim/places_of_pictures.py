"""Where a picture is written: to a file or to /dev/stdout, and nowhere else. What else stands at a path is refused by a
message, nothing is waited for, and all answers stand as without the word."""

import os
import re
import resource
import socket
import stat
import subprocess
import tempfile

from tests.support.parts import TOP, content

SECONDS = 20
SCRIPT = f"{TOP}/examples/first.swim"
ANSWERS = content(f"{TOP}/examples/first.stdout")
REFUSED = "it is no file: a picture is written to a file, or to /dev/stdout"
PICTURE = re.compile(rb'<svg xmlns="http://www\.w3\.org/2000/svg".*</svg>\n', re.S)


def drawn(program, path, *words, **how):
    how = {"stdout": subprocess.PIPE, **how}
    return subprocess.run(
        [program, "--timeline", path, *words, SCRIPT], stderr=subprocess.PIPE, timeout=SECONDS, **how
    )


def refused_at(program, path, *words):
    """What isn't so of a run whose picture is refused, and of what stands at the path."""
    before = os.stat(path)
    ran = drawn(program, path, *words)
    wanted = 1, ANSWERS, f"swimsim: {path}: {REFUSED}\n".encode()
    said = [] if (ran.returncode, ran.stdout, ran.stderr) == wanted else [f"{path} {words}: {ran}"]
    after = os.stat(path)
    same = stat.S_IFMT(before.st_mode) == stat.S_IFMT(after.st_mode) and before.st_ino == after.st_ino
    return said + ([] if same else [f"{path} {words}: something else stands there now"])


def at_pipes(program, folder):
    """A pipe with a name: without a reader nothing is waited for, and a reader is written nothing."""
    path, link = f"{folder}/pipe.svg", f"{folder}/pipe-link.svg"
    os.mkfifo(path)
    os.symlink(path, link)
    said = [it for at in (path, link) for words in ([], ["--force"]) for it in refused_at(program, at, *words)]
    reader = os.open(path, os.O_RDONLY | os.O_NONBLOCK)
    try:
        for words in ([], ["--force"], ["--from", "1"]):
            said += refused_at(program, path, *words)
        # Nobody has the pipe open for writing: its reader is at the end.
        said += [] if os.read(reader, 1) == b"" else ["the reader of a pipe was written something"]
    finally:
        os.close(reader)
    return said


def at_others(program, folder):
    """Devices, sockets and folders."""
    place = f"{folder}/socket.svg"
    with socket.socket(socket.AF_UNIX) as listener:
        listener.bind(place)
        paths = ["/dev/null", "/dev/zero", "/dev/full", place, folder]
        return [it for path in paths for words in ([], ["--force"]) for it in refused_at(program, path, *words)]


def at_standard_output(program, folder):
    """The picture stands behind the answers, where a pipe reads them, and a terminal likewise; of a file the answers
    are kept."""
    said = []
    for words in ([], ["--force"]):
        ran = drawn(program, "/dev/stdout", *words)
        front, picture = ran.stdout[: len(ANSWERS)], ran.stdout[len(ANSWERS) :]
        if ran.returncode or ran.stderr or front != ANSWERS or not PICTURE.fullmatch(picture):
            said.append(f"/dev/stdout {words}: {ran}")
    path = f"{folder}/answers.txt"
    with open(path, "wb") as file:
        ran = drawn(program, "/dev/stdout", stdout=file)
    if ran.returncode != 1 or not ran.stderr.startswith(b"swimsim: /dev/stdout: ") or content(path) != ANSWERS:
        said.append(f"/dev/stdout is a file: {ran}, {content(path)[:200]!r}")
    return said


def at_files(program, folder):
    """A link to a file is one, and so is a link to nothing, where a file is made."""
    said = []
    for name, target in (("a.svg", "made.svg"), ("b.svg", "new.svg")):
        if name == "a.svg":
            open(f"{folder}/{target}", "wb").close()
        os.symlink(f"{folder}/{target}", f"{folder}/{name}")
        ran = drawn(program, f"{folder}/{name}")
        if ran.returncode or ran.stderr or not PICTURE.fullmatch(content(f"{folder}/{target}")):
            said.append(f"a link to {target}: {ran}")
    return said


def at_a_full_place(program, folder):
    """A file that may not grow: the picture can't be written, which is told."""
    path = f"{folder}/full.svg"
    limit = lambda: resource.setrlimit(resource.RLIMIT_FSIZE, (100, 100))
    ran = drawn(program, path, preexec_fn=limit, restore_signals=False)
    wanted = 1, ANSWERS, f"swimsim: {path}: the picture can't be written\n".encode()
    return [] if (ran.returncode, ran.stdout, ran.stderr) == wanted else [f"a file that may not grow: {ran}"]


def tried_places(program):
    """Each try with its name, and what isn't as it has to be."""
    for attempt in (at_pipes, at_others, at_standard_output, at_files, at_a_full_place):
        with tempfile.TemporaryDirectory() as folder:
            try:
                yield attempt.__name__, attempt(program, folder)
            except (OSError, subprocess.SubprocessError) as fault:
                yield attempt.__name__, [str(fault)]
