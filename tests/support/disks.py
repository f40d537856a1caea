"""A file system of its own for a test, which can be made to hang, and can be filled."""

import contextlib
import os
import shutil
import subprocess

from tests.support.daemons import SECONDS

IMAGE_BYTES = 16 * 2**20
TOOLS = ["mkfs.ext4", "mount", "fsfreeze", "umount"]


def is_done(*words):
    return subprocess.run(words, capture_output=True, timeout=SECONDS).returncode == 0


@contextlib.contextmanager
def disk(machine):
    """The folder of a new file system, as long as this is entered. None where none can be made here, which is said."""
    image, folder = f"{machine.folder}/image", f"{machine.folder}/disk"
    os.mkdir(folder)
    with open(image, "wb") as file:
        file.truncate(IMAGE_BYTES)
    are_there = os.getuid() == 0 and all(shutil.which(it) for it in TOOLS)
    is_mounted = are_there and is_done("mkfs.ext4", "-q", image) and is_done("mount", "-o", "loop", image, folder)
    try:
        if not is_mounted:
            print("  not tried, since no file system may be mounted here")
        yield folder if is_mounted else None
    finally:
        is_done("umount", "-l", folder)


@contextlib.contextmanager
def hanging(folder):
    """Who writes to the disk of that folder, or makes a file there, waits as long as this is entered."""
    if not is_done("fsfreeze", "-f", folder):
        raise OSError(f"{folder} can't be frozen")
    try:
        yield
    finally:
        is_done("fsfreeze", "-u", folder)


def fill(path):
    """Writes into a file until the disk is full, and full once more when it has taken all that."""
    for _ in range(3):
        with contextlib.suppress(OSError), open(path, "ab", buffering=0) as file:
            while True:
                file.write(bytes(1_024))
        is_done("sync", "-f", path)
