"""A script that grows line by line, with what is known of its detector; random lines that are no faults."""

LARGEST_ID = 2**32 - 1
LARGEST_NUMBER = 2**64 - 1
PING, REQUEST, ACK = 1, 2, 3
# Where nobody is that a row or a join of these scripts tells of.
ELSEWHERE = "192.168.7.9:65535"


def datagram(kind, sender, initiator, target, number, version=1, at=None):
    """Its digits. A ping-req of version 2 has an address behind it, where nothing else is said the one at which its
    target would be."""
    text = f"5357{version:02x}{kind:02x}{sender:08x}{initiator:08x}{target:08x}{number:016x}"
    return text + address_digits(at or address(target)) if (kind, version) == (REQUEST, 2) else text


def address(id):
    return f"10.{id >> 16 & 255}.{id >> 8 & 255}.{id & 255}:{7000 + id % 1000}"


def address_digits(at):
    ip, port = at.split(":")
    return bytes(map(int, ip.split("."))).hex() + f"{int(port):04x}"


class Script:
    """A script that grows, and what is known of its detector: its version, the number of its period, and who may be
    listed."""

    def __init__(self, r, k=None, rtt=None, period=None, last=None, limit=None, rows=None):
        self.r = r
        self.version = r.choice([1, 1, 2])
        self.me = r.choice([1, 1, 1, 7, LARGEST_ID])
        self.k = r.choice([0, 0, 0, 1, 1, 1, 2, 3, 4, 5, 6, 7, 8]) if k is None else k
        self.rtt = r.choice([1, 1, 1, 2, 3]) if rtt is None else rtt
        self.period = 3 * self.rtt + r.choice([0, 0, 0, 1, 2, 5]) if period is None else period
        self.last = r.choice([0, 0, 0, 1, 2**32 - 2, 2**63]) if last is None else last
        self.limit = 100_000 if limit is None else limit
        count = r.choice([0, 1, 2, 2, 3, 3, 4, 5, 8]) if rows is None else rows
        self.members = r.sample([id for id in range(1, 140) if id != self.me], count)
        self.header = [f"row {id} {address(id)}" for id in self.members]
        if self.version == 2 or r.random() < 0.2:
            self.header.insert(r.randint(0, len(self.header)), f"wire {self.version}")
        self.chooser = []
        self.events = []
        self.ticks = 0

    def lines(self):
        opening = f"open {self.me} {self.k} {self.rtt} {self.period} {self.last} {self.limit}"
        return [opening, *self.header, *self.chooser, *self.events]

    def number(self):
        """The number of the period that runs, as far as no tick was refused; before the first the last one."""
        periods = (self.ticks + self.period - 1) // self.period
        return max(1, min(self.last + periods, LARGEST_NUMBER))

    def phase(self):
        return self.ticks % self.period

    def put(self, line):
        self.events.append(line)

    def tick(self, count=1):
        self.ticks += count
        self.events += ["tick"] * count

    def hear(self, source, *message, version=None, at=None):
        """A message of any version, whatever this member's own is."""
        version = version or self.r.choice([1, 1, 2])
        text = datagram(*message, version, at or self.r.choice([None, None, None, ELSEWHERE]))
        self.put(f"hear {address(source)} {text.upper() if self.r.random() < 0.05 else text}")

    def member(self):
        """A member that may be listed, or now and then somebody else."""
        if self.members and self.r.random() < 0.8:
            return self.r.choice(self.members)
        return self.r.choice([self.me, self.r.randint(1, 140), LARGEST_ID])

    def ack(self, target, number=None):
        sender = target if self.r.random() < 0.8 else self.member()
        self.hear(sender, ACK, sender, self.me, target, self.number() if number is None else number)

    def ack_all(self):
        for member in self.members:
            self.ack(member)

    def join(self, id=None):
        id = id or self.r.choice([self.member(), self.r.randint(1, 140), self.r.randint(1, 140)])
        self.put(f"join {id} {address(id if self.r.random() < 0.8 else 200)}")
        if id != self.me and id not in self.members:
            self.members.append(id)

    def remove(self, id=None):
        id = id or self.member()
        self.put(f"remove {id}")
        if id in self.members and self.r.random() < 0.9:
            self.members.remove(id)


def scripted(script, orders=None, places=None):
    """Orders, some of them no permutations of anything, and places, some of them too high."""
    r = script.r
    for _ in range(r.randint(0, 12) if orders is None else orders):
        ids = r.sample(script.members, len(script.members))
        change = r.random()
        if change < 0.3 and len(ids) > 1:
            ids.pop()
        elif change < 0.4 and ids:
            ids[0] = ids[-1]
        elif change < 0.5 or not ids:
            ids.append(r.randint(1, 140))
        script.chooser.append("order " + ",".join(map(str, ids[:128])))
    for _ in range(r.randint(0, 6) if places is None else places):
        script.chooser.append(f"place {r.choice([0, 0, 1, 1, 2, 3, 5, 130, LARGEST_ID])}")
    r.shuffle(script.chooser)


def show(script):
    r = script.r
    script.put(r.choice(["table", f"gap {script.member()}", f"gap {script.member()}"]))


def listen(script):
    """Any message."""
    r = script.r
    number = r.choice([script.number()] * 4 + [1, 2, 9, max(1, script.number() - 1), LARGEST_NUMBER])
    kind = r.choice([PING, REQUEST, ACK, ACK])
    sender = script.member()
    initiator = r.choice([script.me, script.me, sender, sender, script.member()])
    target = r.choice([script.me, script.member(), script.member(), script.member()])
    script.hear(r.choice([sender, 150]), kind, sender, initiator, target, number)


def any_event(script):
    step = script.r.random()
    if step < 0.45:
        script.tick()
        if script.phase() == 1 and script.r.random() < 0.6:
            script.ack_all()
    elif step < 0.6:
        script.ack(script.member())
    elif step < 0.75:
        listen(script)
    elif step < 0.85:
        script.join()
    elif step < 0.93:
        script.remove()
    else:
        show(script)


def joined(lines):
    return "".join(f"{line}\n" for line in lines).encode("latin-1")
