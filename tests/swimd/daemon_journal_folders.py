"""Which journal files of daemons stay in their folder, and what else that lies there does."""

import os
import time

from tests.support.daemons import must, until
from tests.support.journals import in_one_folder, journals
from tests.support.parts import content
from tests.swimd.daemon_journals import MINUTE, filled


def lies_in(machine, name, make):
    path = f"{machine.journals}/{name}"
    make(path)
    return path


def a_file(path):
    with open(path, "w") as file:
        file.write("kept")


def the_newest_files_stay(machine):
    """As many as are to stay, those of earlier starts among them; older ones go as a life begins."""
    names = [f"{id}-{seconds}-{life}.swim"
             for id in (1, 2, 11) for seconds, life in ((5, 0), (5, 3), (40, 2), (40, 10))]
    others = ["1-5.swim", "1-5-0", "1-5-0.swim.old", "01-5-0.swim", "1-05-0.swim", "1-5-0.swimx", "x1-5-0.swim",
              "-1-5-0.swim"]
    others += ["1-5-0.swim\n", "\n1-5-0.swim", "\udcff-5-0.swim", "+1-5-0.swim", " 1-5-0.swim", "1-5-0.swim ",
               "0-5-0.swim", ".swim"]
    others += ["1-5-0-0.swim", "1--0.swim", "1-5-18446744073709551616.swim", "1-5-0.swim" + "x" * 200, "1" * 250]
    for keep, stay in ((1, []), (2, [(40, 10)]), (4, [(5, 3), (40, 2), (40, 10)]), (0, None), (None, None)):
        for it in (*names, *others):
            lies_in(machine, it, a_file)
        values = {} if keep is None else {"journal_keep": keep}
        daemon = machine.started(1, tick_ms=MINUTE, journal=9, **{"journal_keep": 16, **values})
        daemon.stop()
        found = [(it.seconds, it.life)
                 for it in journals(machine.journals, 1) if os.path.basename(it.path) not in others]
        old = [(5, 0), (5, 3), (40, 2), (40, 10)] if stay is None else stay
        must(found[:-1] == old and found[-1][0] > 40, f"with {keep} there stay {found}, and not {old} and a new one")
        kept = [it for it in (*names[4:], *others) if not os.path.exists(f"{machine.journals}/{it}")]
        must(not kept, f"with {keep} these are gone: {kept}")
        for it in os.listdir(machine.journals):
            os.remove(f"{machine.journals}/{it}")


def sixteen_stay_by_themselves(machine):
    """Where nothing is said of it. In each life there is its own file beside the newest that ended."""
    daemon, peer = machine.daemon(1, tick_ms=MINUTE, journal=2), machine.socket()
    del daemon.values["journal_keep"]
    daemon.write()
    daemon.start()
    filled(daemon, peer, 20)
    daemon.stop()
    lives = [it.life for it in journals(machine.journals)]
    must(lives == list(range(lives[-1] - 15, lives[-1] + 1)) and lives[-1] >= 20,
         f"there stay the files of the lives {lives}")


def what_is_no_file_stays(machine):
    """Folders, links, pipes and sockets of such names are no files of this member: they stay, and hinder nothing."""
    target = lies_in(machine, "target", a_file)
    odd = {"1-3-0.swim": os.mkdir, "1-3-1.swim": lambda it: os.symlink(target, it), "1-3-2.swim": os.mkfifo}
    odd["1-3-3.swim"] = lambda it: os.symlink(f"{machine.journals}/nowhere", it)
    for name, make in odd.items():
        lies_in(machine, name, make)
    for life in range(5):
        lies_in(machine, f"1-4-{life}.swim", a_file)
    daemon, peer = machine.started(tick_ms=MINUTE, journal=2, journal_keep=2), machine.socket()
    filled(daemon, peer, 4)
    daemon.stop()
    gone = [it for it in (*odd, "target") if not os.path.lexists(f"{machine.journals}/{it}")]
    must(not gone, f"these are gone: {gone}")
    files = [it for it in journals(machine.journals) if it.seconds > 3]
    must([it.life for it in files] == [4, 5] or [it.life for it in files] == [3, 4],
         f"there stay {[it[1:] for it in files]}")


NOBODY = [(2, "127.0.0.1:9")]
# A period takes a twentieth of a second, and at the end of its first who doesn't answer is judged.
SOON = {"k": 0, "rtt": 1, "period": 3, "tick_ms": 20}
# A daemon starts within so many.
MOST_SECONDS = 60


def names_in(folder):
    return sorted(os.listdir(folder)) if os.path.isdir(folder) else []


def judging(machine, keep):
    """A daemon in whose life a member was judged, and the name of its file, which is written by then."""
    daemon = machine.started(1, members=NOBODY, journal_keep=keep, **SOON)
    until(lambda: daemon.states() == {2: "failed"}, "a verdict")
    file = journals(machine.journals, 1)[-1]
    until(lambda: b" started judged 2 " in file.text, "the verdict is written")
    return daemon, os.path.basename(file.path)


def lives_with_verdicts_stay_longer(machine):
    """However many lives without one follow, those of killed daemons too: their files are the same ones under a second
    name. Of these the newest stay, as many as of all."""
    judged, kept = f"{machine.journals}/judged", []
    for _ in range(3):
        daemon, name = judging(machine, 2)
        kept = [*kept, name][-2:]
        until(lambda: names_in(judged) == kept, f"{kept} stay, and not {names_in(judged)}")
        must(os.path.samefile(f"{machine.journals}/{name}", f"{judged}/{name}"), f"{name} is another file there")
        daemon.kill()
    must(os.stat(judged).st_mode & 0o777 == 0o700, "the folder isn't its owner's alone")
    for _ in range(17):
        machine.started(1, members=NOBODY, journal_keep=2, tick_ms=MINUTE).kill()
    files = [os.path.basename(it.path) for it in journals(machine.journals, 1)]
    must(len(files) == 2, f"there stay {files}")
    must(names_in(judged) == kept, f"of lives with verdicts there stay {names_in(judged)}, and not {kept}")
    for name in kept:
        must(b" started judged 2 " in content(f"{judged}/{name}"), f"{name} has no verdict")


def a_verdict_that_came_last(machine):
    """It is found in what is written at the end of a life, too; where all files stay they have no second names."""
    judged = f"{machine.journals}/judged"
    daemon, _ = judging(machine, 0)
    daemon.stop()
    must(names_in(judged) == [], f"where all stay there are {names_in(judged)}")
    daemon, name = judging(machine, 1)
    daemon.stop()
    must(names_in(judged) == [name], f"there are {names_in(judged)}")


def a_second_name_is_taken(machine):
    """A file is named by no second that a second name has, so that it can have one."""
    judged, now = f"{machine.journals}/judged", int(time.time())
    os.mkdir(judged)
    for seconds in range(now - 1, now + MOST_SECONDS):
        a_file(f"{judged}/1-{seconds}-0.swim")
    daemon, name = judging(machine, 2 * MOST_SECONDS)
    wanted = f"1-{now + MOST_SECONDS}-0.swim"
    must(name == wanted, f"it is named {name}, and not {wanted}")
    until(lambda: name in names_in(judged), "its second name")
    daemon.stop()


def no_folder_for_verdicts(machine):
    """Where it can't be made, the daemon goes on, and the file lies where it lay."""
    judged = f"{machine.journals}/judged"
    lies_in(machine, "judged", a_file)
    daemon, name = judging(machine, 2)
    must(daemon.stop().status == 0, "it ended otherwise")
    must(content(judged) == b"kept" and name in names_in(machine.journals), "a file is gone")


JOURNAL_FOLDERS = [
    in_one_folder(it)
    for it in (
        the_newest_files_stay,
        sixteen_stay_by_themselves,
        what_is_no_file_stays,
        lives_with_verdicts_stay_longer,
        a_verdict_that_came_last,
        a_second_name_is_taken,
        no_folder_for_verdicts,
    )
]
