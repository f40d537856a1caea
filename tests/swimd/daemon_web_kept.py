"""`swimd web`: pages about verdicts that are kept, and shown again as long as their files stand as they did."""

import os
import re
import subprocess
import time

from tests.support.daemons import must, until
from tests.support.journals import journals
from tests.support.web_servers import WebServer
from tests.swimd.daemon_web import judged_and_ended, lines_on

# What one request may make the server read beside a journal file, and comments that make a file longer than that.
LITTLE, COMMENTS = 16_384, b"# nothing\n" * 10_000
# A longer file is no journal that is read.
MOST_BYTES = 268_435_456
# A comment, and a call with a wrong answer that has as many bytes.
FINE, WRONG = b"# abcdefghijk\n", b"tick\n= 1 else\n"
# The clock by which the system says when a file changed goes on within this time.
CLOCK_SECONDS = 0.05
TITLE = re.compile(rb"<title>Member (\d+), period (\d+)</title>")


def read_by(web):
    """How many bytes the server has read so far, of files and sockets."""
    with open(f"/proc/{web.child.pid}/io", encoding="ascii") as file:
        return next(int(line.split()[1]) for line in file if line.startswith("rchar:"))


def asked(web, member, number):
    """The page about a verdict, and how many bytes the server read for it."""
    before = read_by(web)
    reply = web.get(f"/verdicts/{member}/{number}")
    must(reply.status in (200, 404), f"a verdict is answered with status {reply.status}")
    return (reply.body.decode() if reply.status == 200 else None), read_by(web) - before


def must_read(web, verdict, page=None):
    """The page, for which the server reads a whole file anew; it is that page, if one is given."""
    found, count = asked(web, *verdict)
    must(count >= len(COMMENTS), f"{count} bytes are read for a page that has to be made anew")
    must(page is None or found == page, f"the page is {found!r:.2000}")
    return found


def must_keep(web, verdict, page):
    """The page is this one, and the server reads no file for it."""
    found, count = asked(web, *verdict)
    must(found == page, f"the page that is kept is {found!r:.2000}")
    must(count < LITTLE, f"{count} bytes are read for a page that is kept")


def overwrite(path, at, text):
    """Puts bytes in the place of others, and sets the time back at which the file was written."""
    time.sleep(CLOCK_SECONDS)
    before = os.stat(path)
    with open(path, "r+b") as file:
        file.seek(at)
        file.write(text)
    os.utime(path, ns=(before.st_atime_ns, before.st_mtime_ns))


def a_page_is_kept(machine):
    """A page is shown again without its file being read, until a byte of the file changes, or it grows, or is gone."""
    daemon, file, number = judged_and_ended(machine)
    folder = f"{machine.folder}/kept"
    path, verdict, text = f"{folder}/1-5-0.swim", (2, number), file.text + COMMENTS + FINE
    os.makedirs(folder)
    with open(path, "wb") as written:
        written.write(text)
    with WebServer(machine, daemon.control, "--journals", folder) as web:
        page = must_read(web, verdict)
        must("The file is verified, and whole." in page, f"the page is {page:.2000}")
        must_keep(web, verdict, page)
        overwrite(path, len(text) - len(FINE), WRONG)
        _, said = lines_on(machine, path, number)
        what = said.removeprefix(f"swimsim: {path}: ").removesuffix("\n")
        changed = must_read(web, verdict)
        must(f"This file is not verified: {what}." in changed, f"{what} isn't in {changed:.2000}")
        must_keep(web, verdict, changed)
        overwrite(path, len(text) - len(FINE), FINE)
        must_read(web, verdict, page)
        overwrite(path, len(text), b"# more\n")
        must_read(web, verdict, page)
        must_keep(web, verdict, page)
        os.remove(path)
        must(asked(web, *verdict)[0] is None, "a page of a file that is gone is shown")


def a_newer_file_is_looked_at(machine):
    """That a newer file doesn't tell a verdict is kept as well, until that file changes."""
    daemon, file, number = judged_and_ended(machine)
    folder, verdict = f"{machine.folder}/newer", (2, number)
    os.makedirs(folder)
    head = file.text[: file.text.index(b"\n", file.text.index(b"\nseed ") + 1) + 1]
    for name, text in (("1-5-0", file.text), ("1-6-0", head)):
        with open(f"{folder}/{name}.swim", "wb") as written:
            written.write(text + COMMENTS)
    with WebServer(machine, daemon.control, "--journals", folder) as web:
        page = must_read(web, verdict)
        must("/1-5-0.swim</code>" in page, f"the page is {page:.2000}")
        must_keep(web, verdict, page)
        must(asked(web, 2, number + 1)[0] is None, "another verdict is shown")
        found, count = asked(web, 2, number + 1)
        must(found is None and count < LITTLE, f"{count} bytes are read for what no file tells")
        time.sleep(CLOCK_SECONDS)
        with open(f"{folder}/1-6-0.swim", "wb") as written:
            written.write(file.text + COMMENTS)
        newer = must_read(web, verdict)
        must("/1-6-0.swim</code>" in newer, f"the page is {newer:.2000}")
        os.remove(f"{folder}/1-6-0.swim")
        must_keep(web, verdict, page)


def a_file_above_the_limit(machine):
    """A newer file of as many bytes as may be is read; with one byte more it is passed over."""
    daemon, file, number = judged_and_ended(machine)
    folder = f"{machine.folder}/large"
    os.makedirs(folder)
    for name in ("1-5-0", "1-6-0"):
        with open(f"{folder}/{name}.swim", "wb") as written:
            written.write(file.text)
    with WebServer(machine, daemon.control, "--journals", folder) as web:
        for size, name in ((MOST_BYTES, "1-6-0"), (MOST_BYTES + 1, "1-5-0")):
            os.truncate(f"{folder}/1-6-0.swim", size)
            page, _ = asked(web, 2, number)
            must(page and f"/{name}.swim</code>" in page, f"with {size} bytes the page is {page!r:.2000}")
        must(web.memory() < MOST_BYTES, f"the server has {web.memory()} bytes")


def other_verdicts_cost_nothing(machine):
    """It is kept which verdicts a file tells: for others, of whatever period, it isn't read again."""
    daemon, file, number = judged_and_ended(machine)
    folder = f"{machine.folder}/others"
    os.makedirs(folder)
    for name in ("1-5-0", "1-6-0"):
        with open(f"{folder}/{name}.swim", "wb") as written:
            written.write(file.text + COMMENTS)
    with WebServer(machine, daemon.control, "--journals", folder) as web:
        must(asked(web, 2, number + 1)[0] is None, "another verdict is shown")
        for other in range(number + 2, number + 52):
            for member in (2, 3):
                found, count = asked(web, member, other)
                must(found is None and count < LITTLE, f"{count} bytes are read for a verdict that no file tells")
        page = must_read(web, (2, number))
        must("/1-6-0.swim</code>" in page, f"the page is {page:.2000}")


def a_fault_before_the_verdict(machine):
    """A file with a fault before the verdict doesn't tell it, and the answer says what speaks against the file."""
    daemon, file, number = judged_and_ended(machine)
    folder = f"{machine.folder}/changed"
    path = f"{folder}/1-5-0.swim"
    os.makedirs(folder)
    at = file.text.index(b"\n= ") + len(b"\n= ")
    with open(path, "wb") as changed:
        changed.write(file.text[:at] + b"?" + file.text[at + 1 :])
    ran = subprocess.run([machine.simulator, "--verify", path], capture_output=True, timeout=20)
    must(ran.stderr.startswith(f"swimsim: {path}: line ".encode()), f"it is verified as {ran.stderr!r}")
    wanted = b"no such verdict\n" + ran.stderr.removeprefix(b"swimsim: ")
    with WebServer(machine, daemon.control, "--journals", folder) as web:
        for other in (number, number, number + 1):
            reply = web.get(f"/verdicts/2/{other}")
            must((reply.status, reply.body) == (404, wanted), f"it is answered {reply.status} {reply.body!r}")
        with open(f"{folder}/1-4-0.swim", "wb") as whole:
            whole.write(file.text)
        page, _ = asked(web, 2, number)
        must(page and "/1-4-0.swim</code>" in page, f"the page is {page!r:.2000}")
        reply = web.get(f"/verdicts/2/{number + 1}")
        must((reply.status, reply.body) == (404, wanted), f"a whole file is told: {reply.body!r}")


def each_verdict_has_its_page(machine):
    """Nine verdicts in turn, of which eight are kept: each page is about its own, with its own evidence."""
    members = [(id, "127.0.0.1:9") for id in range(2, 12)]
    daemon = machine.started(members=members, k=0, rtt=1, period=3, tick_ms=20)
    until(lambda: list(daemon.states().values()).count("failed") >= 9, "nine verdicts")
    table = daemon.table()
    must(daemon.stop().status == 0, "the daemon ended otherwise")
    (file,) = journals(daemon.values["journal_dir"], 1)
    verdicts = [(id, int(row.state.split(" ")[1])) for id, row in table.items() if row.state.startswith("failed")][:9]
    with WebServer(machine, daemon.control, "--journals", os.path.dirname(file.path)) as web:
        for member, number in verdicts * 2 + verdicts[::-1]:
            page, _ = asked(web, member, number)
            must(page is not None, f"there is no page about {member} in period {number}")
            found = TITLE.search(page.encode())
            must(found and (int(found[1]), int(found[2])) == (member, number), f"{found} is the title of another page")
            must(f"<pre>judged {member} in period {number}: probed" in page, f"the evidence is another: {page:.2500}")
            must(f"<th scope=\"row\">Acks of period {number}</th>" in page, f"the table is another: {page:.2500}")


KEPT = [
    a_page_is_kept,
    a_newer_file_is_looked_at,
    a_file_above_the_limit,
    other_verdicts_cost_nothing,
    a_fault_before_the_verdict,
    each_verdict_has_its_page,
]
