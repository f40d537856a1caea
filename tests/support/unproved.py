"""Programs that aren't proved yet, compiled from their sources as these are, with checks while they run. They are some
ten times slower than the proved ones, and there in about a minute.

`rt try` compiles such a program, runs it once and removes it. So it is told to run it on a named pipe, which the
program opens and waits at; meanwhile the program is copied. The copy is kept in the crate's out/, under a name that is
made of the sources and the toolchain, so that it is compiled once."""

import glob
import hashlib
import os
import shutil
import subprocess
import tempfile
import time
from concurrent.futures import ThreadPoolExecutor

from tests.support.crates import say
from tests.support.parts import NoProgram

# The words before the path of a file that a program reads before all else.
READING = {"swimsim": [], "swimd": ["run", "--config"]}
# While nothing else is to be seen, a line comes every so many seconds.
SECONDS_A_LINE = 10


def made_of(crates, name):
    """A digest of what a crate is compiled from, the toolchain's line included."""
    found = hashlib.sha256(subprocess.run(["rt", "version"], stdout=subprocess.PIPE, check=True).stdout)
    for crate in crates.chain(name):
        found.update(f"{crate}: {' '.join(crates.below[crate])}\n".encode())
        for path in sorted(glob.glob(f"{crates.folder(crate)}/src/**/*.rt", recursive=True)):
            with open(path, "rb") as file:
                found.update(f"{os.path.relpath(path, crates.top)}\n".encode() + file.read())
    return found.hexdigest()[:16]


def kept(crates, name):
    """Where the unproved program of these sources lies, or is to lie."""
    return f"{crates.folder(name)}/out/unproved/{made_of(crates, name)}/{name}"


def opened(pipe):
    """The pipe, if somebody waits at it to read, and else None."""
    try:
        return os.open(pipe, os.O_WRONLY | os.O_NONBLOCK)
    except OSError:
        return None


def keep(room, path):
    """Copies the one program that lies in a folder to that path, and removes those of older sources."""
    found = [it for it in glob.glob(f"{room}/**", recursive=True) if os.path.isfile(it) and os.access(it, os.X_OK)]
    if len(found) != 1:
        raise NoProgram(f"rt try made {len(found)} programs, and not one")
    shutil.rmtree(os.path.dirname(os.path.dirname(path)), ignore_errors=True)
    os.makedirs(os.path.dirname(path))
    shutil.copy2(found[0], f"{path}.new")
    os.replace(f"{path}.new", path)


def compile_one(crates, name, path):
    """Compiles a program and keeps it."""
    with tempfile.TemporaryDirectory(prefix="unproved-") as folder, tempfile.TemporaryFile() as log:
        pipe, room, held = f"{folder}/pipe", f"{folder}/room", None
        os.mkfifo(pipe)
        os.mkdir(room)
        words = ["rt", "try", "--", *READING[name], pipe]
        streams = {"stdin": subprocess.DEVNULL, "stdout": log, "stderr": log}
        child = subprocess.Popen(words, cwd=crates.folder(name), env={**os.environ, "TMPDIR": room}, **streams)
        try:
            while held is None and child.poll() is None:
                held = opened(pipe)
                time.sleep(0.1)
            if held is None:
                log.seek(0)
                raise NoProgram(f"{name} was not compiled:\n{log.read().decode(errors='replace')}")
            keep(room, path)
        finally:
            if held is not None:
                os.close(held)
            child.wait()


def waited_for(work, names):
    """What came of each piece of work. Meanwhile a line says every ten seconds what is waited for."""
    began = time.monotonic()
    while not all(it.done() for it in work):
        time.sleep(0.2)
        seconds = time.monotonic() - began
        if seconds >= SECONDS_A_LINE:
            left = " and ".join(name for name, it in zip(names, work) if not it.done())
            if left:
                say(f"still compiling {left}")
            began += SECONDS_A_LINE
    return [it.result() for it in work]


def unproved(crates, *names):
    """The paths of unproved programs, which are compiled where they aren't kept yet."""
    unknown = [it for it in names if it not in READING]
    if unknown:
        raise NoProgram(f"{unknown[0]} is none of the programs: {', '.join(READING)}")
    if not shutil.which("rt"):
        raise NoProgram("rt, the command of the Rattle toolchain, is not on PATH")
    paths = {it: kept(crates, it) for it in names}
    missing = [it for it in names if not os.path.exists(paths[it])]
    if missing:
        say(f"compiling {' and '.join(missing)} without a proof, which takes about a minute; it is kept for the next time")
        with ThreadPoolExecutor(len(missing)) as pool:
            waited_for([pool.submit(compile_one, crates, it, paths[it]) for it in missing], missing)
    return [paths[it] for it in names]


def proved_or_not(crates, *names):
    """The proved programs, where each is there and not older than what it is made of, and True; else unproved ones,
    and False."""
    if all(crates.is_fresh(it) for it in names):
        return [crates.made(it) for it in names], True
    return unproved(crates, *names), False
