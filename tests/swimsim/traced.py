"""What `swimsim --trace` tells of members whose network is known: groups of five, whose datagrams a test loses, delays
or doubles (tests/support/networks.py)."""

import json
import os
import random
import subprocess
import tempfile

from tests.support.datagrams import ACK, PING, REQUEST, datagram
from tests.support.losses import LOSSES, name_of
from tests.support.networks import Group, Known
from tests.swimsim.cases import SECONDS, difference

MEMBERS, STEPS, SEEDS = 5, 60, 200
# A probe of the ninth period, when each member pinged each other one before.
NUMBER, LATE_STEPS = 9, 88


def traced(program, files, words=()):
    """A run of `--trace` over these files, which are given as their names and texts."""
    with tempfile.TemporaryDirectory() as folder:
        for name, text in files:
            with open(f"{folder}/{name}", "w", encoding="ascii") as file:
                file.write(text)
        names = [name for name, _ in files]
        words = [os.path.abspath(program), *words, "--trace", *names]
        return subprocess.run(words, cwd=folder, capture_output=True, timeout=SECONDS)


def told(ran):
    """What is told of each judgement, without the lines of the files."""
    return "".join(it for it in ran.stdout.decode().splitlines(True) if ": entries " not in it)


def at_once(*_):
    return [0]


def at_random(seed):
    """A network that loses a third of all datagrams, delays a tenth, and doubles a twentieth."""
    chance = random.Random(seed)

    def fate(*_):
        dice = chance.random()
        if dice < 0.35:
            return []
        if dice < 0.45:
            return [chance.randrange(1, 12)]
        return [0, 0] if dice < 0.5 else [0]

    return fate


def traced_by_random_losses(program):
    """Each datagram's fate is told as the network knows it, over 200 seeds."""
    said, count = [], 0
    for seed in range(1, SEEDS + 1):
        with Group(program, MEMBERS, at_random(seed), seed=seed) as group:
            group.run(STEPS)
        ran = traced(program, group.files())
        ordered = sorted(group.judgements, key=lambda it: (it.probe.initiator, it.judged))
        wanted = "".join(Known(group, it).text() for it in ordered)
        count += len(ordered)
        if ran.returncode != 0 or told(ran) != wanted:
            said.append(f"seed {seed}: status {ran.returncode}")
            said += difference("output", wanted.encode(), told(ran).encode())
    return said + ([] if count > 5 * SEEDS else [f"{count} judgements are few"])


class Losing:
    """A network that loses what a test names of the probe of one member in one period: `broken` has the names of the
    ways (tests/support/losses.py), with how many steps later it comes if it isn't lost."""

    def __init__(self, broken, initiator=1, number=NUMBER):
        self.broken, self.initiator, self.number, self.relays = broken, initiator, number, []

    def __call__(self, group, one):
        if (one.probe.initiator, one.probe.number) != (self.initiator, self.number):
            return [0]
        if one.leg.kind == REQUEST and one.leg.to not in self.relays:
            self.relays.append(one.leg.to)
        later = self.broken.get(name_of(one.leg, one.probe, self.relays), 0)
        return [] if later is None else [later]


def traced_by_chosen_losses(program):
    """What was lost is told, and nothing else, with the entries that sent and heard each datagram."""
    said = []
    for name, (broken, wanted) in LOSSES.items():
        fate = Losing(broken)
        with Group(program, MEMBERS, fate) as group:
            group.run(LATE_STEPS)
        said += [f"{name}: {it}" for it in as_chosen(program, group, fate, wanted)]
    return said


def as_chosen(program, group, fate, wanted):
    if len(group.judgements) != 1:
        return [f"{len(group.judgements)} judgements"]
    judgement = group.judgements[0]
    for letter, id in zip("TAB", [judgement.probe.target, *fate.relays]):
        wanted = wanted.replace(letter, str(id))
    ran = traced(program, group.files())
    said = [] if ran.returncode == 0 and not ran.stderr else [f"status {ran.returncode}: {ran.stderr!r}"]
    text = Known(group, judgement).text()
    said += difference("output", text.encode(), told(ran).encode())
    last = told(ran).splitlines()[-1]
    return said + ([] if last == f"  so {wanted}" else [f"it ends with {last!r}, and not {wanted!r}"])


def traced_one_that_stopped(program):
    """A member that stands still hears what came meanwhile when it goes on, and answers too late."""
    with Group(program, MEMBERS, at_once) as group:
        group.run(20)
        group.standing_still = {5}
        group.run(24)
        group.standing_still = set()
        group.run(16)
    wanted = ["  so 5 was alive but stood still: it answered "]
    return as_known(program, group, wanted, {5})


def traced_one_that_was_killed(program):
    """A member that ends answers nothing, and its journal has too few ticks."""
    with Group(program, MEMBERS, at_once) as group:
        group.run(20)
        group.dead = {5}
        group.run(40)
    return as_known(program, group, ["  so 5 had ended: no ping reached it on "], {5})


def traced_one_that_is_cut_off(program):
    """A member that hears nothing goes on, and judges others meanwhile, that answer it in vain."""

    def fate(group, one):
        return [] if one.leg.to == 5 and group.step > 20 else [0]

    with Group(program, MEMBERS, fate) as group:
        group.run(STEPS)
    heard = ["  so 5 was cut off: no ping reached it on ", " was alive: it answered "]
    return as_known(program, group, heard, {1, 2, 3, 4, 5})


def as_known(program, group, wanted, judged):
    """Each judgement is told as the network knows it, those who are judged are these, and each ends so."""
    ran = traced(program, group.files())
    ordered = sorted(group.judgements, key=lambda it: (it.probe.initiator, it.judged))
    said = difference("output", "".join(Known(group, it).text() for it in ordered).encode(), told(ran).encode())
    said += [] if ran.returncode == 0 else [f"status {ran.returncode}"]
    if {it.probe.target for it in ordered} != judged:
        said.append(f"judged are {[it.probe for it in ordered]}")
    ends = [it for it in told(ran).splitlines() if it.startswith("  so ")]
    return said + [f"it ends with {it!r}" for it in ends if not any(words in it for words in wanted)]


ONE_LOST = {("ping",): None, ("request", 0): None, ("request", 1): None}


def judged_once(program, fate, steps=LATE_STEPS):
    """A group in which a network loses what is named, as far as the first judgement."""
    with Group(program, MEMBERS, fate) as group:
        for _ in range(steps):
            group.run(1)
            if group.judgements:
                break
        group.run(3)
        return group


def traced_by_a_relay_that_is_down(program):
    """A relay that ended answers nothing, and the others are told as they are."""

    class Ending(Losing):
        def __call__(self, group, one):
            later = super().__call__(group, one)
            is_of_probe = one.probe[::2] == (self.initiator, self.number)
            if later and is_of_probe and name_of(one.leg, one.probe, self.relays) == ("request", 0):
                group.dead.add(one.leg.to)
            return later

    fate = Ending({("ack",): None, ("request", 1): None})
    group = judged_once(program, fate)
    lost = "lost ack T -> 1; lost ping-req 1 -> A; lost ping-req 1 -> B"
    return as_chosen(program, group, fate, f"T was alive: it answered 1 ping of this probe; {lost}")


def traced_a_forged_ack(program):
    """An ack that nobody sent is told as that."""
    with Group(program, MEMBERS, Losing(ONE_LOST)) as group:
        group.run(LATE_STEPS)
        (judgement,) = group.judgements
        target, number = judgement.probe.target, judgement.probe.number
        text = datagram(ACK, target, 1, target, number).hex()
        entry, _ = group.call(1, f"hear 10.0.0.{target}:7000 {text}")
    lines = told(traced(program, group.files())).splitlines()
    ack = f"  ack {target} -> 1: never sent by {target}; heard at entry {entry} of 1, dropped 6 stray, "
    ends = [ack + f"as the period ended at entry {judgement.judged}"]
    ends.append(f"  so the journals contradict each other: ack {target} -> 1 arrived, but {target} never sent it")
    return [f"it has no line {it!r}: {lines}" for it in ends if it not in lines]


def ends_with(program, files, last, status=0, stderr="", words=()):
    """What isn't as expected of a run that tells of one judgement, by its last line."""
    ran = traced(program, files, words)
    said = [] if ran.returncode == status else [f"status {ran.returncode}, and not {status}"]
    said += difference("standard error", stderr.encode(), ran.stderr)
    ends = [it for it in told(ran).splitlines() if it.startswith("  so ")]
    return said + ([] if ends == [f"  so {last}"] else [f"it ends with {ends}, and not {last!r}"])


def traced_unusual_files(program):
    """Files that are missing, of another group, given twice, cut, or refused."""
    group = judged_once(program, Losing({("ack",): None, ("request", 0): None, ("request", 1): None}))
    (judgement,) = group.judgements
    target, relays = judgement.probe.target, judgement.relays
    files = dict(group.files())
    lost = f"lost ack {target} -> 1; " + "; ".join(f"lost ping-req 1 -> {it}" for it in relays)
    whole = f"{target} was alive: it answered 1 ping of this probe; {lost}"
    said = ends_with(program, files.items(), whole)
    missing = [it for it in files.items() if it[0] != str(target)]
    nothing = f"no journal of {target} was given: it is unknown whether a ping reached it"
    said += [f"no target: {it}" for it in ends_with(program, missing, nothing)]
    alone = [it for it in files.items() if it[0] not in map(str, relays)]
    untold = f"{target} was alive: it answered 1 ping of this probe; lost ack {target} -> 1"
    said += [f"no relays: {it}" for it in ends_with(program, alone, untold)]
    with Group(program, MEMBERS, at_once, seed=2) as others:
        pass
    foreign = [*missing, ("foreign", others.members[target].file())]
    stderr = f"swimsim: foreign: left out of 1: no ping went between 1 and {target} there\n"
    said += [f"another group: {it}" for it in ends_with(program, foreign, nothing, stderr=stderr)]
    again = [*files.items(), ("again", files["1"])]
    stderr = "swimsim: again: left out, as 1 has the same life\n"
    said += [f"twice: {it}" for it in ends_with(program, again, whole, stderr=stderr)]
    lines = files[str(target)].splitlines(True)
    head = "".join(it for it in lines if it.split()[0] in ("journal", "open", "row", "seed")).replace(" 0\n", " 2\n")
    stderr = f"swimsim: later: life 1 of member {target}, before it, was not given\n"
    stderr += f"swimsim: later: left out of 1: no ping went between 1 and {target} there\n"
    said += [f"a missing life: {it}" for it in ends_with(program, [*files.items(), ("later", head)], whole, 0, stderr)]
    cut = [*missing, (str(target), files[str(target)] + "tic")]
    said += [f"cut: {it}" for it in ends_with(program, cut, whole)]
    line = files[str(target)].count("\n") + 2
    spoiled = [*missing, (str(target), files[str(target)] + "tick\n= 9 quiet\n")]
    entries = group.members[target].entries
    stderr = f"swimsim: {target}: line {line}: differs, behind entry {entries - 1}\n"
    said += [f"a fault: {it}" for it in ends_with(program, spoiled, whole, 1, stderr)]
    strange = [*files.items(), ("strange", "no journal\n")]
    stderr = "swimsim: strange: it is no journal file: its first line isn't `journal 1`\n"
    said += [f"no journal: {it}" for it in ends_with(program, strange, whole, 1, stderr)]
    number = judgement.probe.number
    for words, has in ((["--judged", str(target)], True), (["--judged", "9"], False), (["--period", str(number)], True),
                       (["--period", "1"], False), (["--judged", str(target), "--period", str(number)], True)):
        text = told(traced(program, files.items(), words))
        said += [] if (text != "") == has else [f"{words}: it tells {text!r}"]
    return said


def traced_two_with_one_id(program):
    """Two daemons with one id, which probed the same member in a period of the same number."""
    with Group(program, MEMBERS, at_once, seed=3) as group:
        group.dead = {5}
        group.run(STEPS)
    with Group(program, MEMBERS, at_once, seed=3) as other:
        other.call(1, "hear 10.0.0.9:7000 " + datagram(PING, 9, 9, 9, 1).hex())
        other.dead = {5}
        other.run(STEPS)
    files = [("one", group.members[1].file()), ("two", other.members[1].file())]
    lines = told(traced(program, files)).splitlines()
    ends = [it for it in lines if it.startswith("  so ")]
    number = next(it.probe.number for it in group.judgements if it.probe.initiator == 1)
    wanted = f"  so 1 probed 5 more than once in a period {number}: it is unknown which datagram belongs to which probe"
    return [] if ends == [wanted, wanted] else [f"it ends with {ends}, and not twice with {wanted!r}"]


def traced_as_json(program):
    """The same as JSON: an object for each file, and one for each judgement with the fates of its datagrams."""
    with Group(program, MEMBERS, at_random(7), seed=7) as group:
        group.run(STEPS)
    files = [(f'{name} "\\x', text) for name, text in group.files()]
    ran = traced(program, files, ["--json"])
    objects = [json.loads(line) for line in ran.stdout.decode().splitlines()]
    heads = [
        {"file": name, "member": id, "confirmed": group.members[id].entries, "sound": True}
        for id, (name, _) in enumerate(files, 1)
    ]
    said = [] if objects[: len(heads)] == heads else [f"the files are {objects[:len(heads)]}"]
    ordered = sorted(group.judgements, key=lambda it: (it.probe.initiator, it.judged))
    names = dict(enumerate((name for name, _ in files), 1))
    wanted = [Known(group, it).as_json(names) for it in ordered]
    said += [f"{got}, and not {it}" for got, it in zip(objects[len(heads) :], wanted) if got != it]
    return said + ([] if len(objects) == len(heads) + len(wanted) else [f"{len(objects)} objects"])


def traced_beside_other_words(program):
    """Words that don't go together, and numbers that can't be one, are refused before anything is read."""
    tries = [["--judged", "3"], ["--period", "3"], ["--json"], ["--trace"], ["--trace", "a", "--verify", "a"],
             ["--decode", "--trace", "a"], ["--trace", "a", "--explain"], ["--trace", "a", "--force"],
             ["--verify", "a", "--judged", "3"], ["--judged", "0", "--trace", "a"], ["--period", "0", "--trace", "a"],
             ["--judged", "4294967296", "--trace", "a"], ["--period", "18446744073709551616", "--trace", "a"]]
    said = []
    for words in tries:
        ran = subprocess.run([program, *words], input=b"", capture_output=True, timeout=SECONDS)
        if ran.returncode != 2 or ran.stdout or not ran.stderr.startswith(b"error: "):
            said.append(f"{words}: status {ran.returncode}, {ran.stdout[:100]!r}, {ran.stderr[:200]!r}")
    return said


TRACED = [
    traced_by_random_losses, traced_by_chosen_losses, traced_one_that_stopped, traced_one_that_was_killed,
    traced_one_that_is_cut_off, traced_by_a_relay_that_is_down, traced_a_forged_ack, traced_unusual_files,
    traced_two_with_one_id, traced_as_json, traced_beside_other_words
]
