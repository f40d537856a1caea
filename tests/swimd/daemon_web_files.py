"""`swimd web`: what lies in its journal folder, and what it must not do there, whatever that is; streams that are lost,
and names at port 80."""

import contextlib
import os
import shutil
import socket
import subprocess
import threading
import time

from tests.support.configurations import HOST
from tests.support.daemons import must, until
from tests.support.parts import leave_out
from tests.support.web_servers import WebServer
from tests.swimd.daemon_starting import NOBODY
from tests.swimd.daemon_web import events_of
from tests.swimd.daemon_web_kept import COMMENTS, LITTLE, MOST_BYTES, asked, must_keep, must_read, read_by
from tests.swimsim.verified_files import HEAD, WHOLE, ack

# A file that tells the verdict on member 2 in period 1, one that tells none, and one with a fault before any verdict.
VERDICT, TELLS, EMPTY = (2, 1), "".join(WHOLE).encode(), "".join(HEAD).encode()
CHANGED = TELLS.replace(b"probe 2 1\n", b"probe 3 1\n", 1)
NONE, CUT = b"no such verdict\n", b"not all files were looked at\n"
# Names that are no journal file's.
ODD_NAMES = [
    *(b"1-6-0.swim\n", b"\n", b"\n1-6-0.swim", b"\"'.swim", b"\xff\xfe.swim", b"1-6-\xff.swim", b"1-6-0.swim~"),
    *(b"1-06-0.swim", b"01-6-0.swim", b"0-6-0.swim", b"1--0.swim", b"-6-0.swim", b"1-6.swim", b"1-6-0-0.swim"),
    *(b"1-18446744073709551616-0.swim", b"4294967296-6-0.swim", b"1-6-" + b"0" * 240 + b".swim"),
    *(b"..swim", b"...swim", b"1-..-0.swim", b"1-6-0.swim ", b" 1-6-0.swim", b"1-6-0.SWIM", b"+1-6-0.swim"),
]
# Within this time a request is answered, whatever lies in the folder.
SOON = 5
# Of a folder so many files are looked at, the newest; a page has so many bytes at most.
MOST_FILES, MOST_PAGE = 1_024, 8_388_608
LARGE = 32 * 1_048_576


def put(folder, **files):
    """Writes journal files, each by its seconds in front of which an `at` stands: at5 is 1-5-0.swim."""
    os.makedirs(folder, exist_ok=True)
    for name, text in files.items():
        with open(f"{folder}/1-{name[2:]}-0.swim", "wb") as file:
            file.write(text)
    return folder


def served(machine, folder, **how):
    """The server of a folder, beside no daemon."""
    return WebServer(machine, f"{machine.folder}/nobody", "--journals", folder, **how)


def must_show(web, seconds, verdict=VERDICT):
    """The page is that of the file with these seconds, and comes soon."""
    began = time.monotonic()
    page, _ = asked(web, *verdict)
    must(page and f"/1-{seconds}-0.swim</code>" in page, f"the page is {page!r:.2000}")
    must(time.monotonic() - began < SOON, "the page came late")
    return page


def must_lack(web, body, verdict=VERDICT):
    """No file tells the verdict, and that is said of it, soon."""
    began = time.monotonic()
    reply = web.get("/verdicts/{}/{}".format(*verdict))
    must((reply.status, reply.body) == (404, body), f"it is answered {reply.status} {reply.body[-2000:]!r}")
    must(time.monotonic() - began < SOON, "the answer came late")


def line_on(machine, path):
    """The line that says what speaks against a file."""
    ran = subprocess.run([machine.simulator, "--verify", path], capture_output=True, timeout=20)
    must(ran.stderr.startswith(f"swimsim: {path}: ".encode()), f"{path} is verified as {ran.stderr!r}")
    return ran.stderr.removeprefix(b"swimsim: ")


def only_files_are_opened(machine):
    """A pipe, a socket, a folder, a device and a link with the name of a journal file aren't opened: nobody waits for
    whoever writes into the pipe, and the link leads to nothing."""
    folder = put(f"{machine.folder}/odd", at5=TELLS)
    elsewhere = put(f"{machine.folder}/elsewhere", at1=TELLS)
    os.mkfifo(f"{folder}/1-9-0.swim")
    os.mkdir(f"{folder}/1-8-0.swim")
    os.symlink(f"{elsewhere}/1-1-0.swim", f"{folder}/1-7-0.swim")
    os.symlink("/dev/zero", f"{folder}/1-6-1.swim")
    os.symlink(f"{folder}/1-9-0.swim", f"{folder}/1-6-2.swim")
    os.symlink(f"{folder}/1-6-3.swim", f"{folder}/1-6-3.swim")
    with contextlib.suppress(PermissionError):
        os.mknod(f"{folder}/1-6-4.swim", 0o020666, os.makedev(1, 5))
    with socket.socket(socket.AF_UNIX) as listener, served(machine, folder) as web:
        listener.bind(f"{folder}/1-6-0.swim")
        must_show(web, 5)
        os.remove(f"{folder}/1-5-0.swim")
        must_lack(web, NONE)
        must(web.get("/healthz").status == 503, "no other page is answered")


def odd_names(machine):
    """Names that are no journal file's are passed over, whatever stands in them, and so is what they lead to. The page
    has nothing of the folder's name but text."""
    folder = put(f"{machine.folder}/\"'&<script>alert(1)<b>", at5=TELLS)
    for name in ODD_NAMES:
        with open(os.fsencode(folder) + b"/" + name, "wb") as file:
            file.write(CHANGED)
    with served(machine, folder) as web:
        page = must_show(web, 5)
        must("<script" not in page and "&lt;script>alert(1)" in page, f"the page is {page:.2000}")
        must_lack(web, NONE, (3, 1))


def a_second_name(machine):
    """A file that has more names is read once, and what speaks against it is said once."""
    folder = put(f"{machine.folder}/names", at5=EMPTY + COMMENTS + b"tick\n= 0 else\n")
    os.mkdir(f"{folder}/judged")
    os.link(f"{folder}/1-5-0.swim", f"{folder}/1-4-0.swim")
    os.link(f"{folder}/1-5-0.swim", f"{folder}/judged/1-5-0.swim")
    line = line_on(machine, f"{folder}/1-5-0.swim")
    with served(machine, folder) as web:
        before = read_by(web)
        must_lack(web, NONE + line)
        count = read_by(web) - before
        must(len(COMMENTS) <= count < 2 * len(COMMENTS), f"of a file with three names {count} bytes are read")
        must_lack(web, NONE + line)
        os.remove(f"{folder}/1-5-0.swim")
        must_lack(web, NONE + line.replace(b"/1-5-0.swim", b"/1-4-0.swim"))
        os.remove(f"{folder}/1-4-0.swim")
        must_lack(web, NONE + line.replace(b"/1-5-0.swim", b"/judged/1-5-0.swim"))


def a_request_replays_so_much(machine):
    """Files of more than 256 MiB together are replayed for one request after the other, and each says if files are
    left. What was replayed isn't again."""
    folder = put(f"{machine.folder}/much", at7=EMPTY, at6=EMPTY, at5=TELLS)
    for seconds, size in ((7, MOST_BYTES - 1_000), (6, MOST_BYTES)):
        os.truncate(f"{folder}/1-{seconds}-0.swim", size)
    newer, older = (line_on(machine, f"{folder}/1-{it}-0.swim") for it in (7, 6))
    with served(machine, folder) as web:
        must_lack(web, NONE + newer + CUT)
        must_lack(web, NONE + newer + older + CUT)
        must_show(web, 5)
        must_lack(web, NONE + newer + older, (3, 1))
        os.truncate(f"{folder}/1-7-0.swim", MOST_BYTES + 1)
        must_lack(web, NONE + older + CUT, (3, 1))
        must(web.memory() < LARGE, f"the server has {web.memory()} bytes")


def while_it_is_read(machine, change):
    """What is answered of a large file that is changed while it is read: the reply, and how many bytes were read. It is
    tried until that comes in time."""
    for at in range(5, 15):
        folder = put(f"{machine.folder}/read-{at}", at5=TELLS + COMMENTS * (LARGE // len(COMMENTS)))
        path, replies = f"{folder}/1-5-0.swim", []
        size = os.path.getsize(path)
        with served(machine, folder) as web:
            before = read_by(web)
            asking = threading.Thread(target=lambda: replies.append(web.get("/verdicts/3/1")))
            asking.start()
            until(lambda: read_by(web) > before + 1_048_576, "the file is read")
            change(path)
            is_in_time = read_by(web) < before + size // 2
            asking.join()
            count = read_by(web) - before
            must(web.get("/").status == 200, "no page is answered any more")
        shutil.rmtree(folder)
        if is_in_time:
            return replies[0], count, size
    return None


def a_file_grows_while_it_is_read(machine):
    """A file is read as far as it went when it was opened, however it grows meanwhile."""

    def grow(path):
        with open(path, "ab") as file:
            file.write(COMMENTS * 40)

    found = while_it_is_read(machine, grow)
    if not found:
        return leave_out("this machine reads files too fast for one that grows while swimd web reads it")
    reply, count, size = found
    must((reply.status, reply.body) == (404, NONE), f"it is answered {reply}")
    must(count < size + LITTLE, f"{count} bytes are read of a file that had {size}")


def a_file_shrinks_while_it_is_read(machine):
    """A file that is cut while it is read ends there."""
    found = while_it_is_read(machine, lambda path: os.truncate(path, len(TELLS)))
    if not found:
        return leave_out("this machine reads files too fast for one that shrinks while swimd web reads it")
    reply, count, size = found
    must(reply.status == 404 and count < size, f"{count} bytes are read, and it is answered {reply}")


def many_files(machine):
    """Of ten thousand files the newest are looked at, each is replayed once, and it is said that there are others."""
    folder = f"{machine.folder}/many"
    put(folder, **{f"at{seconds}": EMPTY for seconds in range(10_000, 20_000)}, at20000=TELLS, at9=TELLS)
    with served(machine, folder) as web:
        must_lack(web, NONE + CUT, (3, 1))
        must_show(web, 20_000)
        found, count = asked(web, 3, 1)
        must(found is None and count < LITTLE, f"{count} bytes are read of files that were replayed")
        os.remove(f"{folder}/1-20000-0.swim")
        must_lack(web, NONE + CUT)
        for seconds in range(10_000 + MOST_FILES - 1, 20_000):
            os.remove(f"{folder}/1-{seconds}-0.swim")
        must_show(web, 9)


def a_folder_that_is_gone(machine):
    """Without its folder no verdict is found; it is looked for anew for each."""
    folder = put(f"{machine.folder}/gone", at5=TELLS)
    with served(machine, folder) as web:
        page = must_show(web, 5)
        os.rename(folder, f"{folder}-away")
        must_lack(web, NONE)
        with open(folder, "wb"):
            pass
        must_lack(web, NONE)
        os.remove(folder)
        os.rename(f"{folder}-away", folder)
        must_keep(web, VERDICT, page)


def a_closed_file(machine):
    """Of a file that this user may not read nothing is told but that it wasn't looked at."""
    if os.getuid() != 0:
        return leave_out("a journal file that swimd web may not read needs another user than this one")
    folder = put(f"{machine.folder}/closed", at6=TELLS, at5=TELLS)
    for path, mode in ((machine.folder, 0o755), (folder, 0o755), (f"{folder}/1-5-0.swim", 0o644)):
        os.chmod(path, mode)
    os.chmod(f"{folder}/1-6-0.swim", 0)
    with served(machine, folder, preexec_fn=lambda: os.setuid(NOBODY)) as web:
        must_show(web, 5)
        must_lack(web, NONE + CUT, (3, 1))


def played(machine, calls):
    """A journal file of these calls, which the simulator answers."""
    head = [HEAD[0], "open 1 1 1 3 0 1000000\n", *HEAD[2:]]
    path = f"{machine.folder}/script"
    with open(path, "w", encoding="ascii") as script:
        script.writelines([*head[1:], *calls])
    ran = subprocess.run([machine.simulator, path], capture_output=True, text=True, timeout=60)
    told = [it for it in ran.stdout.splitlines() if not it.startswith(">")]
    must(ran.returncode == 0 and len(told) == len(calls), f"the script is played as {ran.stderr!r:.2000}")
    lines = [f"{call}= {place} {it}\n" for place, (call, it) in enumerate(zip(calls, told))]
    return "".join([*head, *lines]).encode()


def a_long_page(machine):
    """A page of evidence that would have more than 8 MiB isn't shown, and a shorter one is, kept or not."""
    for seconds, count in ((5, 40_000), (6, 200_000)):
        text = played(machine, [*["tick\n"] * 4, *[ack(2, 1)] * count])
        put(f"{machine.folder}/long", **{f"at{seconds}": text})
    with served(machine, f"{machine.folder}/long") as web:
        reply = web.get("/verdicts/2/1")
        must((reply.status, reply.body) == (500, b""), f"a long page is answered {reply.status} {reply.body[:200]!r}")
        must(web.get("/").status == 200, "no page is answered any more")
        os.remove(f"{machine.folder}/long/1-6-0.swim")
        sizes = [len(must_show(web, 5)) for _ in range(2)]
        must(1_048_576 < sizes[0] == sizes[1] < MOST_PAGE, f"the pages have {sizes} bytes")


def a_lost_stream(machine):
    """A connection to an events' socket that ends, in the midst of a line too, or tells what is none, is lost: the
    next one is made half a second after the one before at the soonest. What was told is passed on, a line that was cut
    isn't, and each table but the first is told as another daemon's."""
    path, began = f"{machine.folder}/events", []
    with socket.socket(socket.AF_UNIX) as listener:
        listener.bind(path)
        listener.listen()
        listener.settimeout(SOON)
        with WebServer(machine, f"{machine.folder}/nobody", "--events", path) as web:
            for text in (b"up 2 10.0.0.2:7000\n.\nfailed 2 7\ngone", b"", b"x" * 10_000, b".\ngone 2\n"):
                stream, _ = listener.accept()
                began.append(time.monotonic())
                with stream, contextlib.suppress(OSError):
                    stream.sendall(text)
            until(lambda: len(events_of(web)) == 3, "three events are told")
            told = [event["event"] for _, event in events_of(web)]
    must(told == ["failed", "again", "gone"], f"{told} is told")
    pauses = [after - before for before, after in zip(began, began[1:])]
    must(min(pauses) > 0.4, f"connections were made behind {pauses} seconds")


def names_without_port_80(machine):
    """At port 80 a request calls the host as browsers do, without the port, by each of its names."""
    with socket.socket() as it:
        it.setsockopt(socket.SOL_SOCKET, socket.SO_REUSEADDR, 1)
        try:
            it.bind((HOST, 80))
        except OSError as fault:
            return leave_out(f"port 80 of {HOST} can't be bound ({fault.strerror}), where names need no port")
    names = ["--name", "swim.example:80", "--name", "other.example", "--name", "third.example:8080"]
    with WebServer(machine, f"{machine.folder}/nobody", *names, port=80) as web:
        ours = (HOST, f"{HOST}:80", "localhost", "localhost:80", "swim.example", "swim.example:80", "other.example",
                "third.example:8080")
        for name in ours:
            must(web.get("/", Host=name).status == 200, f"{name} is refused")
        for name in ("127.0.0.2", f"{HOST}:", f"{HOST}:8", "localhost:8", "swim.example:8080", "other.example:80",
                     "third.example", ":80", "80"):
            must(web.get("/", Host=name).status in (400, 421), f"{name} is let in")
    with WebServer(machine, f"{machine.folder}/nobody") as web:
        for name in (HOST, "localhost"):
            must(web.get("/", Host=name).status == 421, f"{name} is let in at port {web.port}")


FILES = [
    only_files_are_opened,
    odd_names,
    a_second_name,
    a_request_replays_so_much,
    a_file_grows_while_it_is_read,
    a_file_shrinks_while_it_is_read,
    many_files,
    a_folder_that_is_gone,
    a_closed_file,
    a_long_page,
    a_lost_stream,
    names_without_port_80,
]
