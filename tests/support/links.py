"""Two hosts of their own for a test, network namespaces, with a link between them that passes on almost nothing."""

import contextlib
import ctypes
import os
import shutil
import socket
import subprocess
import threading
from typing import NamedTuple

from tests.support.daemons import SECONDS, until
from tests.support.parts import leave_out

TOOLS = ["unshare", "nsenter", "ip", "tc"]
CLONE_NEWNET = 0x40000000
NEAR, FAR = "10.99.0.1", "10.99.0.2"
# What the near end takes waits here for the link, and stays in its sender's buffer as long.
QUEUE = "root tbf rate 1kbit burst 2kb limit 8mb"


class Link(NamedTuple):
    """The processes that hold the hosts at both ends."""

    near: int
    far: int


def is_done(*words):
    return subprocess.run(words, capture_output=True, timeout=SECONDS).returncode == 0


def inside(pid, *words):
    return is_done("nsenter", "-t", str(pid), "-n", *words)


def enter(pid):
    """Moves the calling thread to the host of that process."""
    with open(f"/proc/{pid}/ns/net", "rb") as host:
        if ctypes.CDLL(None, use_errno=True).setns(host.fileno(), CLONE_NEWNET):
            raise OSError(ctypes.get_errno(), "no other host can be entered")


def socket_on(pid):
    """A UDP socket on the host of that process."""
    made = []

    def make():
        enter(pid)
        made.append(socket.socket(socket.AF_INET, socket.SOCK_DGRAM))

    there = threading.Thread(target=make)
    there.start()
    there.join()
    return made[0]


def is_linked(near, far):
    return (
        inside(near, "ip", "link", "add", "near", "type", "veth", "peer", "name", "far", "netns", str(far))
        and inside(near, "ip", "addr", "add", f"{NEAR}/24", "dev", "near")
        and inside(near, "ip", "link", "set", "near", "up")
        and inside(far, "ip", "addr", "add", f"{FAR}/24", "dev", "far")
        and inside(far, "ip", "link", "set", "far", "up")
        and inside(near, "tc", "qdisc", "replace", "dev", "near", *QUEUE.split())
    )


def host_of(process):
    """The host of a process; none once it has ended."""
    with contextlib.suppress(OSError):
        return os.readlink(f"/proc/{process.pid}/ns/net")
    return None


@contextlib.contextmanager
def slow_link():
    """A link between two hosts, as long as this is entered: from the near one to the far one it passes on some three
    datagrams a second. None where none can be made here, which is said."""
    are_there = os.getuid() == 0 and all(shutil.which(it) for it in TOOLS)
    holders = [subprocess.Popen(["unshare", "-n", "sleep", "600"]) for _ in range(2)] if are_there else []
    try:
        here = os.readlink("/proc/self/ns/net")
        if holders:
            until(lambda: any(it.poll() is not None or host_of(it) != here for it in holders), "a host is there")
            until(lambda: all(it.poll() is not None or host_of(it) != here for it in holders), "two hosts are there")
        link = Link(*(it.pid for it in holders)) if all(it.poll() is None for it in holders) and holders else None
        link = link if link and is_linked(*link) else None
        if not link:
            leave_out("no hosts with a slow link between them may be made here (by root, unshare, nsenter, ip and tc)")
        yield link
    finally:
        for it in holders:
            it.kill()
            it.wait()
