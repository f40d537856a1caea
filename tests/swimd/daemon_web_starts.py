"""How `swimd web` starts: at which address, without a daemon, and with which folder of journal files."""

import json
import os
import shutil
import subprocess

from tests.support.configurations import HOST
from tests.support.daemons import must, until
from tests.support.parts import leave_out
from tests.support.sayings import first_line_of
from tests.support.web_servers import WebServer
from tests.swimd.daemon_starting import NOBODY
from tests.swimd.daemon_watchers import MINUTE
from tests.swimd.daemon_web import LIMIT, MEMBERS, judged_and_ended, members_of, must_answer


def no_daemon_at_first(machine):
    """It starts all the same, and finds the daemon once there is one, and the next one."""
    daemon = machine.daemon(1, members=MEMBERS, tick_ms=MINUTE)
    with WebServer(machine, daemon.control) as web:
        for path in ("/healthz", "/metrics", "/members.json"):
            must_answer(web, path, 503, b"no answer\n")
        must_answer(web, "/", 200)
        for _ in range(2):
            daemon.start()
            until(lambda: web.get("/healthz").status == 200, "the daemon is found", LIMIT + 1)
            must(json.loads(web.get("/members.json").body) == members_of(daemon), "another table")
            must(daemon.stop().status == 0, "the daemon ended otherwise")
            must_answer(web, "/healthz", 503, b"no answer\n")


def addresses(machine):
    """A port in use is told, and so is an address that others reach; what is none is no word."""
    control = f"{machine.folder}/nobody"

    def ran(*words):
        it = subprocess.run([machine.program, "web", *words], stdin=subprocess.DEVNULL, capture_output=True, timeout=20)
        return it.stdout, first_line_of(it.stderr), it.returncode, it.stderr

    with WebServer(machine, control) as web:
        must(b" serves http://127.0.0.1:" in web.said, f"{web.said!r} is told")
        at = f"{HOST}:{web.port}"
        found = ran("--listen", at, "--control", control)
        must(found[:3] == (b"", b"bind web\n", 5), f"a port in use: {found}")
        must(f"  {at}: address in use\n".encode() in found[3], f"below it stands {found[3]!r}")
    names = [word for number in range(9) for word in ("--name", f"n{number}")]
    for words in (
        ["--listen", "localhost:8946", "--control", control],
        ["--listen", "127.0.0.1", "--control", control],
        ["--listen", "127.0.0.1:0", "--control", control],
        ["--listen", "127.0.0.1:08946", "--control", control],
        ["--listen", "[::1]:8946", "--control", control],
        ["--listen", at],
        ["--control", control],
        ["--listen", at, "--control", control, *names],
        ["--listen", at, "--control", control, "more"],
    ):
        found = ran(*words)
        must(found[:3] == (b"", b"usage\n", 2), f"{words}: {found}")
        must(b"swimd web --listen 127.0.0.1:8946 --control PATH" in found[3], f"{words}: {found[3]!r}")
    found = ran("--listen", at, "--control", control, "--journals", "/" + "d" * 100)
    must(found[:3] == (b"", b"usage\n", 2), f"a long folder: {found}")
    must(b"  --journals takes a folder whose path has at most 100 bytes\n" in found[3], f"a long folder: {found[3]!r}")
    with WebServer(machine, control, "--journals", "/" + "d" * 99) as web:
        must_answer(web, "/verdicts/2/7", 404, b"no such verdict\n")
    with WebServer(machine, control, *names[:-2], host="0.0.0.0") as web:
        until(lambda: [web.hear(), web.said.endswith(b" reads the member table\n")][1], "a warning is told")
        must(f" warning: whoever reaches 0.0.0.0:{web.port} ".encode() in web.said, f"{web.said!r} is told")
        must(web.get("/", Host="n7").status == 200, "a name that was given isn't known")
        must(web.get("/", Host="N7").status == 200, "a name isn't known by a capital letter")
        must(web.get("/", Host="n8").status == 421, "a name that wasn't given is known")


def journal_folders(machine):
    """That a journal folder can't be read is told at the start. The pages are there all the same, and a folder that is
    made later is read."""
    daemon, file, number = judged_and_ended(machine)
    missing, plain = f"{machine.folder}/missing", f"{machine.folder}/plain"
    with open(plain, "wb"):
        pass
    for path, why in (
        (plain, "a part of the path is no folder"),
        (f"{missing}/below", "no such file or folder"),
        (missing, "no such file or folder"),
    ):
        with WebServer(machine, daemon.control, "--journals", path) as web:
            must_answer(web, f"/verdicts/2/{number}", 404, b"no such verdict\n")
            web.hear()
            warning = web.said.split(b"\n", 1)[1].split(b" ", 1)[1]
            must(warning == f"warning: journals {path}: {why}\n".encode(), f"{web.said!r} is told")
            if path == missing:
                os.mkdir(missing)
                shutil.copy(file.path, missing)
                must_answer(web, f"/verdicts/2/{number}", 200)
    with WebServer(machine, daemon.control, "--journals", missing) as web:
        must_answer(web, f"/verdicts/2/{number}", 200)
        web.hear()
        must(web.said.count(b"\n") == 1, f"{web.said!r} is told of a folder that can be read")


def a_closed_folder(machine):
    """A journal folder that this user may not read is told as that."""
    if os.getuid() != 0:
        return leave_out("a journal folder that swimd web may not read needs another user than this one")
    closed = f"{machine.folder}/closed"
    os.mkdir(closed, 0o700)
    os.chmod(machine.folder, 0o755)
    control, as_nobody = f"{machine.folder}/nobody", {"preexec_fn": lambda: os.setuid(NOBODY)}
    with WebServer(machine, control, "--journals", closed, **as_nobody) as web:
        must_answer(web, "/verdicts/2/7", 404, b"no such verdict\n")
        web.hear()
        said = f" warning: journals {closed}: permission denied\n"
        must(web.said.endswith(said.encode()), f"{web.said!r} is told")


STARTS = [no_daemon_at_first, addresses, journal_folders, a_closed_folder]
