"""What may be lost of a probe, and what `swimsim --trace` tells of it."""

from tests.support.datagrams import ACK, PING, REQUEST


def name_of(leg, probe, relays):
    """The name of a way of a probe's datagrams: `ping` or `ack` between the two, or of a relay by its place among those
    that are asked."""
    kind, sender, to = leg
    initiator, target, _ = probe
    if (kind, sender, to) in ((PING, initiator, target), (ACK, target, initiator)):
        return ("ping" if kind == PING else "ack",)
    relay = to if kind == REQUEST or sender == target else sender
    names = {(REQUEST, to): "request", (PING, target): "ping", (ACK, relay): "ack", (ACK, initiator): "forwarded"}
    return (names[(kind, to)], relays.index(relay))


# A period has so many ticks: one less, and the ack would be in time.
LATE = 8
# What is lost or late of a probe, and what the last line tells of it: T is the target, and A and B are the relays.
LOSSES = {
    "the ping, and both requests": (
        {("ping",): None, ("request", 0): None, ("request", 1): None},
        "T was cut off: no ping reached it on 3 paths; lost ping 1 -> T; lost ping-req 1 -> A; lost ping-req 1 -> B",
    ),
    "the ack, and both requests": (
        {("ack",): None, ("request", 0): None, ("request", 1): None},
        "T was alive: it answered 1 ping of this probe; lost ack T -> 1; lost ping-req 1 -> A; lost ping-req 1 -> B",
    ),
    "the ping, and the pings of both relays": (
        {("ping",): None, ("ping", 0): None, ("ping", 1): None},
        "T was cut off: no ping reached it on 3 paths; lost ping 1 -> T; lost ping A -> T; lost ping B -> T",
    ),
    "the ping, and the acks to both relays": (
        {("ping",): None, ("ack", 0): None, ("ack", 1): None},
        "T was alive: it answered 2 pings of this probe; lost ping 1 -> T; lost ack T -> A; lost ack T -> B",
    ),
    "the ping, and the acks that both relays send on": (
        {("ping",): None, ("forwarded", 0): None, ("forwarded", 1): None},
        "T was alive: it answered 2 pings of this probe; lost ping 1 -> T; lost ack A -> 1; lost ack B -> 1",
    ),
    "the ack, and one of each relay": (
        {("ack",): None, ("request", 0): None, ("forwarded", 1): None},
        "T was alive: it answered 2 pings of this probe; lost ack T -> 1; lost ping-req 1 -> A; lost ack B -> 1",
    ),
    "the ack comes late, and both requests are lost": (
        {("ack",): LATE, ("request", 0): None, ("request", 1): None},
        "T was alive: it answered 1 ping of this probe; late ack T -> 1; lost ping-req 1 -> A; lost ping-req 1 -> B",
    ),
    "an ack that is sent on comes late": (
        {("ack",): None, ("forwarded", 0): LATE, ("ping", 1): None},
        "T was alive: it answered 2 pings of this probe; lost ack T -> 1; late ack A -> 1; lost ping B -> T",
    ),
}
