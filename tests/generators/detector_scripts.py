"""Random scripts of a detector, with no faults but those of openings. Each takes random numbers and gives a script."""

from tests.generators.growing_scripts import ACK, LARGEST_ID, LARGEST_NUMBER, PING, REQUEST
from tests.generators.growing_scripts import Script, address, any_event, datagram, scripted, show


def mixed(r):
    """A bit of everything."""
    script = Script(r)
    scripted(script)
    for _ in range(r.randint(10, 150)):
        any_event(script)
    return script


def churning(r):
    """Members that join, leave and come again around each start."""
    script = Script(r, period=r.choice([3, 3, 4]), rtt=1)
    scripted(script, places=r.randint(0, 30))
    for _ in range(r.randint(10, 60)):
        for _ in range(r.randint(0, 3)):
            r.choice([script.join, script.remove])()
        script.tick()
        if r.random() < 0.8:
            script.ack_all()
        if r.random() < 0.2 and script.members:
            again = r.choice(script.members)
            script.remove(again)
            script.join(again)
            script.ack(again)
        script.tick(script.period - 1)
        if r.random() < 0.3:
            show(script)
    for id in range(1, 12):
        script.put(f"gap {id}")
    script.put("table")
    return script


def planned(r):
    """Rounds in drawn orders, whose aim answers at once, late or never; asks with relays in drawn orders."""
    script = Script(r, rows=r.choice([1, 2, 3, 5, 9, 12, 40]))
    listed = list(script.members)
    while len(script.events) < 200 and listed:
        order = r.sample(listed, len(listed))
        script.chooser.append("order " + ",".join(map(str, order)))
        for aim in order:
            script.tick()
            answers = r.choice(["at once"] * 6 + ["late", "late", "never"])
            if answers == "at once":
                script.ack(aim)
            script.tick(script.rtt)
            if answers != "at once" and script.k and len(listed) > 1:
                relays = r.sample([id for id in listed if id != aim], len(listed) - 1)
                script.chooser.append("order " + ",".join(map(str, relays)))
            if answers == "late":
                script.ack(aim)
            script.tick(script.period - 1 - script.rtt)
            if answers == "never":
                # It is judged by the next start, which draws from those that are left.
                listed.remove(aim)
    for member in script.members[:12]:
        script.put(f"gap {member}")
    script.put("table")
    return script


def growing_from_nobody(r):
    """Periods with nobody to be probed or asked, in which nothing is drawn, and then rounds in drawn orders."""
    script = Script(r, rows=r.choice([0, 1]), k=r.choice([1, 2]))
    alone = list(script.members)
    for _ in range(r.randint(1, 3)):
        script.chooser += [f"order {id}" for id in alone]
        script.tick(1 + script.rtt)
        script.ack_all()
        script.tick(script.period - 1 - script.rtt)
    for id in r.sample(range(140, 150), 3):
        script.join(id)
    for _ in range(r.randint(8, 20)):
        if r.random() < 0.6:
            script.chooser.append("order " + ",".join(map(str, r.sample(script.members, len(script.members)))))
        script.tick()
        script.ack_all()
        script.tick(script.period - 1)
    return script


def relaying(r):
    """Requests whose acks come about when they are forgotten."""
    script = Script(r, rows=r.choice([2, 3, 5]))
    for _ in range(r.randint(2, 12)):
        initiator, target = script.member(), script.member()
        number = r.choice([1, 2, 9, LARGEST_NUMBER])
        for _ in range(r.choice([1, 1, 1, 2])):
            script.hear(r.choice([initiator, 160]), REQUEST, initiator, initiator, target, number)
            if r.random() < 0.3:
                script.tick(r.randint(1, script.period))
        if r.random() < 0.2:
            script.remove(target)
        script.tick(script.period + r.choice([-script.period, -1, -1, 0, 0, 1]))
        for _ in range(r.choice([1, 1, 2])):
            script.hear(target, ACK, target, initiator, target, r.choice([number] * 5 + [3]))
    return script


def flooding(r):
    """More requests than may wait, and room again as they are answered or forgotten."""
    script = Script(r, rows=r.choice([1, 2, 3]))
    target, initiator = script.members[0], r.choice([5, 9, LARGEST_ID - 1])
    numbers = list(range(1, r.choice([64, 65, 66, 90])))
    for number in numbers:
        script.hear(initiator, REQUEST, initiator, initiator, target, number)
        if r.random() < 0.03:
            script.tick()
    for _ in range(40):
        step = r.random()
        number = r.choice([*numbers, 200, 201])
        if step < 0.4:
            script.hear(initiator, REQUEST, initiator, initiator, target, number)
        elif step < 0.8:
            script.hear(target, ACK, target, initiator, target, number)
        else:
            script.tick()
    return script


def crowded(r):
    """About as many members as may be known."""
    script = Script(r, rows=r.choice([100, 126, 127, 128]), k=r.choice([0, 1, 8]))
    scripted(script, orders=r.randint(0, 3), places=r.randint(0, 10))
    for _ in range(r.randint(5, 60)):
        step = r.random()
        if step < 0.4:
            script.tick(script.period)
        elif step < 0.6:
            script.join(r.randint(1, 400))
        elif step < 0.7:
            script.remove()
        elif step < 0.75:
            script.ack_all()
        elif step < 0.8:
            show(script)
        else:
            any_event(script)
    return script


def near_the_last_number(r):
    """Period numbers up to the last, and ticks beyond."""
    script = Script(r, last=LARGEST_NUMBER - r.choice([0, 0, 1, 1, 2, 3]))
    scripted(script)
    for _ in range(r.randint(5, 60)):
        if r.random() < 0.5:
            script.tick(r.randint(1, script.period))
        else:
            any_event(script)
    return script


def with_a_small_journal(r):
    """Calls at a full journal, and what makes no entry."""
    script = Script(r, limit=r.choice([0, 1, 2, 3, 5, 10, 30]))
    scripted(script)
    for _ in range(r.randint(5, 50)):
        any_event(script)
        if r.random() < 0.1:
            script.put(f"hear 1.2.3.4:5 {r.choice(['', '53', '00' * 24, '00' * 30])}")
    return script


def seeded(r):
    """Rounds, relays and places that a seed draws."""
    script = Script(r, rows=r.choice([1, 2, 3, 5, 12, 13, 14, 30, 60, 128]))
    seed = "".join(r.choice("0123456789abcdefABCDEF") for _ in range(64))
    script.chooser.append("seed " + r.choice([seed, seed, "0" * 64, "f" * 64]))
    for _ in range(r.randint(20, 120)):
        any_event(script)
        if r.random() < 0.3:
            script.tick(script.period)
    script.put("table")
    return script


def spoiled(r, text):
    """A datagram with a byte, or its length, changed."""
    step, last = r.random(), len(text) // 2 - 1
    if step < 0.2:
        return text[: 2 * r.choice([24, r.randint(0, max(0, last))])]
    if step < 0.3:
        return text + "00" * r.choice([6, r.randint(1, 50)])
    if step < 0.5:
        place, digits = r.choice([(8, 8), (16, 8), (24, 8), (32, 16), (56, 4), (56, 4)])
        return text[:place] + "0" * len(text[place : place + digits]) + text[place + digits :]
    place = 2 * r.choice([0, 1, 2, 2, 3, 3, 3, r.randint(0, max(0, last))])
    return text[:place] + f"{r.choice([0, 1, 2, 3, 4, r.randint(0, 255)]):02x}" + text[place + 2 :]


def misread(r):
    """Bytes that are no datagram, or one byte off another."""
    script = Script(r)
    for _ in range(r.randint(10, 60)):
        any_event(script)
        sender, target = script.member(), script.member()
        kind, version = r.choice([PING, REQUEST, REQUEST, ACK]), r.choice([1, 2])
        text = datagram(kind, sender, r.choice([sender, script.me]), target, script.number(), version)
        for _ in range(r.choice([1, 1, 2])):
            text = spoiled(r, text)
        script.put(f"hear {address(sender)} {text}")
    return script


def openings(r):
    """Openings at their limits, and past one or two of them."""
    rtt = r.choice([1, 1, 2, 21_845])
    script = Script(r, k=r.randint(0, 8), rtt=rtt, period=3 * rtt, rows=r.choice([0, 1, 2, 3, 126, 127, 128]))
    for _ in range(r.choice([0, 1, 1, 1, 2, 3])):
        step = r.random()
        if step < 0.15:
            script.k = r.choice([8, 9, 10, LARGEST_ID])
        elif step < 0.25:
            script.rtt = r.choice([0, script.rtt + 1, 2**31, LARGEST_ID, LARGEST_ID // 3 + 1])
        elif step < 0.4:
            script.period = r.choice([0, script.period - 1, script.period + 1, 65_535, 65_536, LARGEST_ID])
        else:
            id = r.choice([script.me, r.randint(1, 500), r.choice([1, *script.members])])
            script.header.insert(r.randint(0, len(script.header)), f"row {id} {address(id)}")
    events = ["tick", "tick", "table", "gap 2", "join 3 1.2.3.4:5", "remove 2", "hear 1.2.3.4:5 ", "hear 1.2.3.4:5 5"]
    script.events = [r.choice(events)] * r.choice([0, 1, 1, 5])
    return script


# The kinds whose lines a detector answers, whatever it drew.
ANSWERED = [
    mixed,
    churning,
    planned,
    growing_from_nobody,
    relaying,
    flooding,
    crowded,
    near_the_last_number,
    with_a_small_journal,
    seeded,
    misread,
]
