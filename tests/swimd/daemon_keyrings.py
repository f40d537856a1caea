"""Groups of daemons with keys: who judges whom where keys differ, how keys are changed over, and relays and verdicts as
without keys."""

from tests.support.configurations import HOST
from tests.support.daemons import introduced, must, stop_all, until
from tests.support.tags import FIRST, SECOND, THIRD, key_texts, sealing
from tests.swimd.daemon_groups import Answerer, all_up, must_be_quiet, must_stay_up, was_probed
from tests.swimd.daemon_keys import journal_of, refusals_told
from tests.swimd.daemon_versions import must_all_judge

MINUTE = 60_000
PERIODS = 6
# Two daemons' keys. Each signs by its first one: so those hear each other of which each has the first key of the other.
APART = [([FIRST], [SECOND]), ([FIRST, THIRD], [SECOND, THIRD]), ([FIRST], [SECOND, FIRST])]
TOGETHER = [([FIRST], [FIRST, SECOND]), ([FIRST, THIRD], [FIRST, SECOND]), ([FIRST, SECOND], [SECOND, FIRST])]
# Keys are changed over in three steps: the new one is added everywhere, signs everywhere, and the old one is taken
# away.
STEPS = [[FIRST, SECOND], [SECOND, FIRST], [SECOND]]
# A daemon is started anew in less than `rtt`, a third of a period: so whoever pings it meanwhile has an ack through a
# relay in time. So many periods lie between two starts, in which that relay is asked, and behind the last one.
PATIENT = {"k": 1, "rtt": 1, "period": 3, "tick_ms": 1_000}
BETWEEN, BEHIND = 0.5, 1.5


def two_with(machine, rings):
    """Two daemons with these keys, that were told of each other; each with the other, and whether it has the key by
    which that signs."""
    daemons = introduced([machine.started(id, keys=key_texts(*ring)) for id, ring in enumerate(rings, 1)])
    return [(daemons[it], daemons[1 - it], rings[1 - it][0] in rings[it]) for it in (0, 1)]


def must_tell(daemon, other, hears):
    """A daemon that has ended told once of the other's datagrams, by its address, where it doesn't hear it; and else of
    nobody's."""
    found = [address for address, _ in refusals_told(daemon, daemon.told)]
    must(found == ([] if hears else [f"{HOST}:{other.port}"]), f"member {daemon.id} tells {daemon.told!r}")
    must(
        (b"\nhear " in journal_of(daemon).text) == hears,
        f"in the journal of member {daemon.id} the other stands, or doesn't",
    )


def different_keys(machine):
    """The commonest mistake: two daemons judge each other, and say so by the other's address. A key that both have
    doesn't help where it isn't the first."""
    for rings in APART:
        pairs = two_with(machine, rings)
        for it, other, _ in pairs:
            until(lambda: it.states() == {other.id: "failed"}, f"member {it.id} judges the other")
        for closing in stop_all([it for it, _, _ in pairs]):
            must_be_quiet(closing, 1)
        for pair in pairs:
            must_tell(*pair)


def a_key_in_common(machine):
    """Two daemons hear each other where each has the key by which the other signs, whatever others they have."""
    for rings in TOGETHER:
        pairs = two_with(machine, rings)
        must_stay_up([it for it, _, _ in pairs], PERIODS)
        for it, other, _ in pairs:
            until(lambda: was_probed(it, other.id), f"member {it.id} probes the other twice")
        for closing in stop_all([it for it, _, _ in pairs]):
            must_be_quiet(closing, 0)
        for pair in pairs:
            must_tell(*pair)


def one_without_keys(machine):
    """A daemon with keys and one without judge each other. The one tells so, the other counts what it doesn't know as
    `wire`."""
    first, second = introduced([machine.started(1, keys=key_texts(FIRST)), machine.started(2)])
    for it, other in ((first, second), (second, first)):
        until(lambda: it.states() == {other.id: "failed"}, f"member {it.id} judges the other")
    closing, closing_without = stop_all([first, second])
    must_be_quiet(closing, 1)
    must_tell(first, second, False)
    must(closing_without.wire > 0 and closing_without.judged == 1, f"the one without keys ended {closing_without}")
    must(refusals_told(second, second.told) == [], f"the one without keys tells {second.told!r}")


def must_judge_nobody(daemon, closing):
    """It ended so, and in its life judged nobody, and threw nothing away."""
    must_be_quiet(closing, 0)
    must(closing.judged == 0, f"member {daemon.id} judged somebody")
    must(refusals_told(daemon, daemon.told) == [], f"member {daemon.id} tells {daemon.told!r}")


def keys_are_changed_over(machine):
    """In three steps, in each of which one member after the other is started anew: nobody is judged, and nothing is
    thrown away."""
    daemons = machine.members(3, keys=key_texts(FIRST), **PATIENT)
    for it in daemons:
        it.launch()
    for it in daemons:
        it.ready()
    for ring in STEPS:
        for it in daemons:
            must_judge_nobody(it, it.stop())
            it.values["keys"] = key_texts(*ring)
            it.write()
            it.start()
            must_stay_up(daemons, BETWEEN)
    must_stay_up(daemons, BEHIND)
    for it, closing in zip(daemons, stop_all(daemons)):
        must_judge_nobody(it, closing)


def five_members_with_keys(machine):
    """One is killed: it is judged by all, and nobody else is."""
    daemons = machine.group(5, keys=key_texts(FIRST, SECOND), wire=2)
    for it in daemons:
        until(lambda: was_probed(it, 1 if it.id != 1 else 2), f"member {it.id} probes somebody twice")
    must(all_up(daemons), "not all are up before")
    killed, others = daemons[2], daemons[:2] + daemons[3:]
    killed.kill()
    must_all_judge(others, [killed])
    for it, closing in zip(others, stop_all(others)):
        must_be_quiet(closing, 1)
        must(refusals_told(it, it.told) == [], f"member {it.id} tells {it.told!r}")


def relays_with_keys(machine):
    """Member 3 answers relays alone. Who asks them in version 2 keeps it, though the relay lists nobody; who asks in
    version 1 judges it, and so does who has another key than the relay."""
    third = Answerer(machine.socket(), 3, lambda sender, _: sender == 2, sealing(FIRST))
    relay = machine.started(2, tick_ms=MINUTE, keys=key_texts(FIRST))
    known = [(2, relay.port), (3, third.port)]
    keeps, judges = (
        machine.started(id, members=known, wire=wire, keys=key_texts(FIRST)) for id, wire in ((1, 2), (4, 1))
    )
    apart = machine.started(5, members=known, wire=2, keys=key_texts(SECOND))
    until(lambda: third.pings.count((2, 1)) >= PERIODS, f"{PERIODS} pings through the relay")
    until(
        lambda: judges.states() == {2: "up", 3: "failed"},
        "member 4, which asks in version 1, judges a member that is cut off",
    )
    until(lambda: apart.states() == {2: "failed", 3: "failed"}, "member 5, which has another key, judges both")
    must(keeps.states() == {2: "up", 3: "up"}, f"member 1, which asks in version 2, lists {keeps.states()}")
    must((2, 4) not in third.pings and (2, 5) not in third.pings, f"the relay pings for {set(third.pings)}")
    for it, judged in ((keeps, 0), (judges, 1), (apart, 2), (relay, 0)):
        must_be_quiet(it.stop(), judged)
    must(
        [address for address, _ in refusals_told(relay, relay.told)] == [f"{HOST}:{apart.port}"],
        f"the relay tells {relay.told!r}",
    )


KEYRINGS = [
    different_keys,
    a_key_in_common,
    one_without_keys,
    keys_are_changed_over,
    five_members_with_keys,
    relays_with_keys,
]
