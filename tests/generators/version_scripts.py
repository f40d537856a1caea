"""Random scripts of both versions of a datagram: requests about members that a relay doesn't list, and lines that tell
a version. Each takes random numbers and gives a script or its lines."""

from tests.generators.broken_scripts import BAD_VERSIONS
from tests.generators.growing_scripts import ACK, ELSEWHERE, LARGEST_NUMBER, REQUEST, Script

STRANGERS = [160, 161, 162]
HEAD = ["open 1 1 1 3 0 100", "row 2 10.0.0.2:7000", "row 3 10.0.0.3:7000", "tick", "tick", "table"]
# Where the first event line of these stands.
EVENTS_AT = 3


def asking_about_anybody(r):
    """Requests of both versions about members that are listed, failed or unknown, and about this member. Some are asked
    again, in either version, and some are acked, now and then too late."""
    script = Script(r, rtt=1, period=r.choice([3, 3, 4, 6]), rows=r.choice([1, 2, 3, 5]))
    # Nobody answers so far: some are judged.
    script.tick(script.period * r.randint(0, 4) + 1)
    for _ in range(r.randint(5, 25)):
        initiator = r.choice([*script.members, *STRANGERS])
        target = r.choice([*script.members, *script.members, *STRANGERS, script.me])
        number = r.choice([1, 1, 2, LARGEST_NUMBER])
        for version in r.choice([[1], [2], [2], [1, 2], [2, 1], [2, 2], [2, 1, 2]]):
            source = r.choice([initiator, initiator, 163])
            script.hear(
                source, REQUEST, initiator, initiator, target, number, version=version, at=r.choice([None, ELSEWHERE])
            )
            script.tick(r.choice([0, 0, 0, 1, script.period]))
        for _ in range(r.choice([0, 1, 1, 2])):
            script.hear(r.choice([target, 164]), ACK, target, initiator, target, number)
        step = r.random()
        if step < 0.1:
            script.remove(target)
        elif step < 0.2:
            script.join(target)
    script.put("table")
    return script


def telling_versions(r):
    """A short script with one line or two that tell a version: such as are none, in front of the opening, and behind
    event lines."""
    lines, good = list(HEAD), r.choice(["wire 1", "wire 2"])
    if r.random() < 0.4:
        lines.insert(r.randint(1, EVENTS_AT), r.choice(["wire 1", "wire 2"]))
    other = r.choice([f"wire {r.choice(BAD_VERSIONS)}", "Wire 2", "wires 2", good + " ", good + " x"])
    places = r.choice([[0], *[range(1, EVENTS_AT + 1)] * 5, range(EVENTS_AT + 1, len(lines) + 1)])
    lines.insert(r.choice(places), r.choice([good, good, "wire", "wire 3", other]))
    return lines
