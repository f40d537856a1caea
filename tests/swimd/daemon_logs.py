"""The log of a daemon: a line for each verdict, join and removal, as its journal files have them, and nobody who waits
for it."""

import os
import re

from tests.support.configurations import HOST
from tests.support.daemons import must, until
from tests.support.journals import journals
from tests.support.journals import told as answers_in
from tests.support.sayings import but_for_warnings
from tests.support.watchers import told_by
from tests.swimd.daemon_groups import Answerer
from tests.swimd.daemon_starting import ends_of_a_pipe, told_lines

MINUTE = 60_000
CHANGES = re.compile(r"judged |joined |removed |\d+ changes more")
# A daemon reads its journal every 50 milliseconds, and looks at what there is to tell as often.
AT_ONCE = 2
# More changes than wait at a time.
MANY = 5_000


def changes_in(daemon, text):
    return [it for it in told_lines(daemon, text) if CHANGES.match(it)]


def journal_changes(daemon):
    """The lines of the log that the journal files of a daemon call for, without what is known of the last ack."""
    _, changes = told_by(journals(daemon.values["journal_dir"], daemon.id))
    lines = []
    for words in (it.split(" ") for it in changes):
        if words[0] == "up":
            lines.append(f"joined {words[1]} at {words[2]}")
        elif words[0] == "failed":
            lines.append(f"judged {words[1]} in period {words[2]}")
        elif words[0] == "gone":
            lines.append(f"removed {words[1]}")
    return lines


def must_tell(daemon, *lines):
    """These are all changes that it has told so far, soon."""
    until(lambda: len(changes_in(daemon, daemon.told_so_far())) >= len(lines), f"{lines} are told", AT_ONCE)
    found = changes_in(daemon, daemon.told_so_far())
    must(found == list(lines), f"it tells {found}, and not {lines}")


def each_change_is_told(machine):
    """A join, a join at another address, a removal: a line each, and none for what changes nothing."""
    daemon = machine.started(members=[(2, "10.0.0.2:7000")], tick_ms=MINUTE)
    must_tell(daemon)
    must(daemon.ask(b"join 4 10.0.0.4:7000\n").startswith(b"joined "), "a join is refused")
    must_tell(daemon, "joined 4 at 10.0.0.4:7000")
    daemon.ask(b"join 4 10.0.0.5:7000\nlist\ngap 4\nremove 9\nremove 2\n")
    must_tell(daemon, "joined 4 at 10.0.0.4:7000", "removed 2")
    must(daemon.stop().status == 0, "it ended otherwise")
    must(changes_in(daemon, daemon.told) == journal_changes(daemon), f"it tells {daemon.told!r}")


def a_verdict_is_told(machine):
    """Of a member that answered, with the last period in which it was heard; of one that never did, without."""
    peer, is_alive = machine.socket(), [True]
    heard = Answerer(peer, 2, lambda *_: is_alive[0])
    daemon = machine.started(members=[(2, heard.port), (3, machine.socket().getsockname()[1])])
    until(lambda: daemon.states()[3] == "failed" and len(heard.pings) > 3, "member 3 is judged")
    is_alive[0] = False
    until(lambda: daemon.states()[2] == "failed", "member 2 is judged")
    must(daemon.stop().status == 0, "it ended otherwise")
    told, wanted = changes_in(daemon, daemon.told), journal_changes(daemon)
    must([it.split(",")[0] for it in told] == wanted, f"it tells {told}, and not {wanted}")
    period = int(re.fullmatch(r"judged 2 in period (\d+)", wanted[1])[1])
    last = re.fullmatch(rf"judged 2 in period {period}, last heard in period (\d+)", told[1])
    # There is no other member left, so it is probed in each period.
    must(last and int(last[1]) == period - 1, f"it tells {told}")
    must(told[0] == wanted[0], f"of a member that never answered it tells {told[0]}")


def a_change_is_told_before_the_next_life(machine):
    """Also where it was the last call of its life."""
    were_last = []
    for limit in range(4, 9):
        values = {"k": 0, "rtt": 1, "period": 3, "journal": limit}
        daemon = machine.started(members=[(2, "127.0.0.1:9")], **values)
        until(lambda: daemon.states()[2] == "failed", "member 2 is judged")
        must(daemon.stop().status == 0, "it ended otherwise")
        files = journals(daemon.values["journal_dir"], daemon.id)
        file = next(it for it in files if b" started judged 2 " in it.text)
        were_last.append(answers_in(file.text)[-1].startswith("started judged 2 "))
        lines = told_lines(daemon, daemon.told)
        place = next(at for at, it in enumerate(lines) if it.startswith("judged 2 "))
        later = [it for it in lines[:place] if it == f"life {file.life + 1} begins"]
        must(not later, f"in life {file.life} of {limit} entries member 2 is judged, and {lines} is told")
    must(any(were_last), "no verdict was the last call of its life")


def a_quiet_daemon_tells_nothing(machine):
    daemon = machine.started(members=[(2, "10.0.0.2:7000")], k=0, how={"words": ["--quiet"]})
    must(daemon.ask(b"join 4 10.0.0.4:7000\n").startswith(b"joined "), "a join is refused")
    until(lambda: daemon.states()[2] == "failed", "member 2 is judged")
    must(daemon.stop().status == 0 and but_for_warnings(daemon.told) == b"", f"it tells {daemon.told!r}")


def changes_go_on_over_lives(machine):
    """Each change of ten lives is told once, in order."""
    daemon = machine.started(members=[(2, "10.0.0.2:7000"), (3, "10.0.0.3:7000")], k=0, rtt=1, period=3, tick_ms=1,
                             journal=40)
    for id in range(10, 40):
        answer = daemon.ask(f"join {id} 10.0.1.{id}:7000\nremove {id}\n".encode())
        must(b"refused" not in answer, f"it answers {answer!r}")
    until(lambda: daemon.lives_so_far() >= 10, "ten lives")
    must(daemon.stop().status == 0, "it ended otherwise")
    told, wanted = [it.split(",")[0] for it in changes_in(daemon, daemon.told)], journal_changes(daemon)
    must(told == wanted, f"it tells {told[:9]}.. of {len(told)}, and not {wanted[:9]}.. of {len(wanted)}")


def many_changes_at_once(machine):
    """As fast as a client can have them: each is told, or counted as one of those that aren't."""
    with open(f"{machine.folder}/errors", "wb") as file:
        daemon = machine.started(tick_ms=MINUTE, how={"stderr": file})
        lines = b"".join(b"join 5 10.0.0.5:7000\nremove 5\n" for _ in range(MANY // 2))
        must(daemon.ask(lines).count(b"removed\n") == MANY // 2, "not all are removed")
        must(daemon.ask(b"stop\n") == b"stopping\n", "it isn't stopped")
        daemon.child.wait()
    with open(f"{machine.folder}/errors", "rb") as file:
        told = changes_in(daemon, file.read())
    more = [int(it.split(" ")[0]) for it in told if it.endswith("too many at once to tell each")]
    must(len(told) - len(more) + sum(more) == MANY, f"{len(told)} lines, and {sum(more)} changes more")


def a_log_that_nobody_reads(machine):
    """A full pipe: events and journal files go on, and the daemon ends when it is told to."""
    writing, reading = ends_of_a_pipe(True)
    daemon = machine.started(members=[(2, "10.0.0.2:7000")], how={"stderr": writing})
    for id in range(10, 60):
        must(daemon.ask(f"join {id} {HOST}:{id}\n".encode()).startswith(b"joined "), "a join is refused")
    until(lambda: daemon.states()[2] == "failed", "member 2 is judged")
    must(daemon.ask(b"stop\n") == b"stopping\n", "it isn't stopped")
    daemon.child.communicate(timeout=10)
    must(daemon.child.returncode == 0, f"it ended {daemon.child.returncode}")
    os.close(writing)
    os.close(reading)


LOGS = [
    each_change_is_told,
    a_verdict_is_told,
    a_change_is_told_before_the_next_life,
    a_quiet_daemon_tells_nothing,
    changes_go_on_over_lives,
    many_changes_at_once,
    a_log_that_nobody_reads,
]
