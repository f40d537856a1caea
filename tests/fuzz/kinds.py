"""What is mutated, and who judges what comes of it."""

import os
import random

from tests.generators.growing_scripts import ACK, PING, REQUEST, address, datagram
from tests.generators.journal_files import told
from tests.generators.mutations import mutated
from tests.generators.random_configs import random_config
from tests.generators.random_lines import random_life, without_end
from tests.generators.random_scripts import random_script
from tests.models.control_model import Model
from tests.models.datagram_model import fault_of
from tests.models.hearing_model import walked
from tests.support.daemons import Machine, talk
from tests.support.written import differences, run
from tests.swimd.compared_configs import compared_config

MINUTE = 60_000
MOST_ENTRIES = 1_000_000
DATAGRAMS = 200
SEEDS = 1_000_000
MEMBERS = [2, 3, 4]
HEAD = "".join(f"{it}\n" for it in ["open 1 2 1 3 0 1000000", *(f"row {id} {address(id)}" for id in MEMBERS), "tick"])


class Kind:
    """A kind of texts: it makes a case of random numbers, and says what isn't as it has to be. So many are judged at a
    time; where what a case does is seen by later ones, they go one by one."""

    lanes = os.cpu_count()
    is_one_course = False

    def __init__(self, programs):
        self.programs = programs

    def end(self):
        """Ends what was started for it."""


class Scripts(Kind):
    """Scripts of swimsim, journal files among them, judged by the reference."""

    def case(self, r):
        return mutated(r, self.script(r), self.script(r))

    def script(self, r):
        seed = r.randrange(SEEDS)
        return random_script(seed)[1] if r.random() < 0.7 else told(seed, self.played).script

    def played(self, script):
        written = run([self.programs.reference], script)
        return written.stdout, written.status == 0

    def said(self, script):
        return differences(
            ("swimsim", "the reference"), run([self.programs.swimsim], script), run([self.programs.reference], script)
        )


class Datagrams(Scripts):
    """Datagrams of both versions that member 1 of four hears, judged by models and by the reference."""

    def case(self, r):
        return [mutated(r, self.datagram(r), self.datagram(r)) for _ in range(DATAGRAMS)]

    def datagram(self, r):
        ids = [r.choice([*MEMBERS, 1, 77]) for _ in range(3)]
        kind, number, version = r.choice([PING, REQUEST, ACK]), r.choice([1, 1, 2, 2**64 - 1]), r.choice([1, 2])
        return bytes.fromhex(datagram(kind, *ids, number, version))

    def said(self, texts):
        # A line has room for 1,024 bytes at the most; an argument that is none has a fault of its own.
        heard = [it[:900] for it in texts if it]
        script = HEAD + "".join(f"hear {address(2)} {it.hex()}\n" for it in heard)
        written, right = (run([it], script.encode()) for it in (self.programs.swimsim, self.programs.reference))
        answers = [it for it in written.stdout.split(b"\n")[1:-1] if not it.startswith(b">")]
        wanted = [fault_of(it) for it in heard]
        found = [int(it[5:]) if it.startswith(b"wire ") else None for it in answers]
        unlike = [(it.hex(), one, two) for it, one, two in zip(heard, wanted, found) if one != two]
        said = [f"{len(heard)} datagrams have {len(found)} answers"] if len(heard) != len(found) else []
        said += [f"{text} is told as {two}, and its first fault is {one}" for text, one, two in unlike]
        said += walked(script.encode(), right.stdout, right.stderr.decode())[0]
        return said + differences(("swimsim", "the reference"), written, right)


class Configurations(Kind):
    """Configurations of a daemon, judged by the model."""

    def case(self, r):
        text, other = (random_config(r.randrange(SEEDS))[1] for _ in range(2))
        return mutated(r, text, other)

    def said(self, document):
        return compared_config(self.programs.swimd, document)[0]


class ControlLines(Kind):
    """What comes on control connections of one daemon, whose first tick is a minute away, judged by the model."""

    lanes, is_one_course = 1, True

    def __init__(self, programs):
        super().__init__(programs)
        life, self.machine = random_life(0), Machine(programs.swimd)
        values = {"members": life.members, "seed": life.chooser, "journal": MOST_ENTRIES, "tick_ms": MINUTE}
        self.daemon = self.machine.started(life.me, **values)
        self.model = Model(life.me, [(id, at.encode()) for id, at in life.members], life.chooser, MOST_ENTRIES)

    def case(self, r):
        text, other = (b"".join(r.choice(random_life(r.randrange(SEEDS)).sessions)) for _ in range(2))
        return without_end(mutated(r, text, other))

    def said(self, text):
        wanted = b"".join(b"%s\n" % it for it in self.model.served(text)[0])
        with self.daemon.connect() as connection:
            found = talk(connection, [text])
        return [] if found == wanted else [f"session: {text!r}", f"swimd: {found!r}", f"model: {wanted!r}"]

    def end(self):
        self.machine.__exit__()


KINDS = {"scripts": Scripts, "datagrams": Datagrams, "configurations": Configurations, "control-lines": ControlLines}


def numbers(seed, name, number):
    """The random numbers of a case."""
    return random.Random(f"{seed} {name} {number}")
