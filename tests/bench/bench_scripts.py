"""The scripts of tests/bench/swimsim: parts, most of them endless, written into files up to a length, line by line."""

import itertools

ANY_LIMIT = 4_294_967_295
PING, REQUEST, ACK = 1, 2, 3
LONGEST_PERIOD = 65_535
WAITING = 64
PASSING_MEMBERS = 100_000


def datagram(kind, sender, initiator, target, number):
    return f"535701{kind:02x}{sender:08x}{initiator:08x}{target:08x}{number:016x}"


def hear(sender, *rest):
    return f"hear 10.0.0.{sender % 256}:7000 {datagram(*rest)}\n"


def acked(target, number):
    """The ack of the aim of that period."""
    return hear(target, ACK, target, 1, target, number)


def row(id):
    return f"row {id} 10.0.0.{id}:7000\n"


def opening(k, period, rows, rtt=1):
    return f"open 1 {k} {rtt} {period} 0 {ANY_LIMIT}\n" + "".join(row(id) for id in rows)


def group_of_six():
    """Periods of a group of six: acks in time, late and never, pings, requests and their acks, joins and removals."""
    yield opening(2, 5, range(2, 7))
    for number in itertools.count(1):
        acks = [acked(id, number) for id in range(2, 7)]
        yield "tick\n"
        yield from acks if number % 4 else []
        yield "tick\n"
        yield from acks if number % 4 == 0 and number % 16 else []
        yield hear(3, PING, 3, 3, 1, number)
        yield hear(4, REQUEST, 4, 4, 5, number)
        yield "tick\n"
        yield hear(5, ACK, 5, 4, 5, number)
        yield hear(5, REQUEST, 5, 5, 6, number)
        yield "tick\ntick\n"
        for id in range(2, 7) if number % 16 == 1 else []:
            yield f"join {id} 10.0.0.{id}:7000\n"
        if number % 16 == 8:
            yield "remove 6\n"


def mix():
    """The group of six. One of each 200 events is a `gap` line, and one a `table` line."""
    ids = itertools.cycle(range(2, 8))
    others = itertools.count()
    for line in lines_of(group_of_six()):
        yield line
        count = next(others) % 198 if is_event(line) else None
        if count == 98:
            yield f"gap {next(ids)}\n"
        elif count == 197:
            yield "table\n"


def pings():
    """Pings of this member, each answered with an ack."""
    yield opening(0, 3, [2])
    for number in itertools.count(1):
        yield hear(2, PING, 2, 2, 1, number)


def ticks():
    """Ticks while nobody is listed."""
    yield opening(0, 3, [])
    while True:
        yield "tick\n" * 100


def periods_of_28(tick):
    """Periods of 20 ticks, in each of which one of 28 members is probed, and answers in time."""
    yield opening(3, 20, range(2, 30), rtt=5)
    for number, aim in enumerate(itertools.cycle(range(2, 30)), 1):
        yield tick(aim) + acked(aim, number) + tick(aim) * 19


def ticks_of_28():
    """Ticks while 28 members are listed."""
    yield from periods_of_28(lambda aim: "tick\n")


def ticks_and_gaps():
    """The same with a `gap` line behind each tick."""
    yield from periods_of_28(lambda aim: f"tick\ngap {aim}\n")


def ticks_of_one(target):
    """The longest periods, in which member 2 answers. Other members ask for probes of the target, and again before the
    requests are forgotten."""
    yield opening(0, LONGEST_PERIOD, [2])
    requests = "".join(hear(3, REQUEST, 3, 3, target, number) for number in range(1, WAITING + 1))
    first = LONGEST_PERIOD // 2
    for number in itertools.count(1):
        yield requests + "tick\n" + acked(2, number) + "tick\n" * (first - 1)
        yield requests + "tick\n" * (LONGEST_PERIOD - first)


def ticks_none_waiting():
    """Ticks while no request waits, as those that come are dropped: their target isn't listed."""
    yield from ticks_of_one(9)


def ticks_64_waiting():
    """Ticks while as many requests wait as may."""
    yield from ticks_of_one(2)


def silent_members():
    """Periods in which nobody answers, eight relays are asked, and the member that is judged joins again."""
    yield opening(8, 3, range(2, 66))
    yield "tick\ntick\ntick\n"
    for id in itertools.cycle(range(2, 66)):
        yield f"tick\njoin {id} 10.0.0.{id}:7000\ntick\ntick\n"


def acks():
    """One long period, in which the ack of its aim comes again and again, and now and then a stray one."""
    yield opening(0, LONGEST_PERIOD, [2]) + "tick\n"
    while True:
        yield acked(2, 1) * 9 + hear(2, ACK, 2, 1, 2, 2)


def scattered(count):
    """The id of the member of that count: each another one, in no order. None of those that are needed is 1."""
    return count * 2_654_435_761 % 2**32


def passing_members():
    """100,000 different members, one after the other: each joins, is probed twice, and is removed, one in four after it
    was judged. One in ten, and some member that is long gone, are asked for their gaps."""
    yield opening(0, 3, [])
    numbers = itertools.count(1)
    for count in range(1, PASSING_MEMBERS + 1):
        id = scattered(count)
        yield f"join {id} 10.0.0.2:7000\ntick\n" + acked(id, next(numbers)) + "tick\ntick\ntick\n"
        next(numbers)
        if count % 4 == 0:
            next(numbers)
            yield "tick\ntick\ntick\n"
        yield f"tick\ntick\nremove {id}\n"
        if count % 10 == 0:
            yield f"gap {id}\ngap {scattered(count // 2)}\n"


def short_events():
    """Nine ticks and a ping, in turn: few bytes an event, so that a script holds a million."""
    yield opening(0, 3, [])
    while True:
        yield "tick\n" * 9 + hear(2, PING, 2, 2, 1, 1)


def gaps():
    """`gap` lines for the members of `ticks_of_28`, and for one that is none."""
    for id in itertools.cycle(range(2, 31)):
        yield f"gap {id}\n"


def is_event(line):
    return not line.startswith(("open", "row"))


def lines_of(part):
    for text in part:
        yield from text.splitlines(True)


def write(path, part, most_bytes=None, most_events=None, behind=None, behind_events=0):
    """Writes lines up to so many bytes or events, and then so many of the part `behind`. Says how many events they
    are."""
    written, events = 0, 0
    with open(path, "w") as file:
        for line in lines_of(part()):
            if (most_bytes and written + len(line) > most_bytes) or (events == most_events and is_event(line)):
                break
            file.write(line)
            written, events = written + len(line), events + is_event(line)
        file.writelines(itertools.islice(behind(), behind_events) if behind else [])
    return events + behind_events
