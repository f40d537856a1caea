"""Datagrams of both versions, as tests send them to daemons on this machine."""

import socket

from tests.support.configurations import HOST

PING, REQUEST, ACK = 1, 2, 3


def datagram(kind, sender, initiator, target, number, version=1, port=None):
    """Its bytes. A ping-req of version 2 has that port of this machine behind it."""
    numbers = b"".join(it.to_bytes(4, "big") for it in (sender, initiator, target))
    at = b"" if port is None else socket.inet_aton(HOST) + port.to_bytes(2, "big")
    return b"SW" + bytes([version, kind]) + numbers + number.to_bytes(8, "big") + at


def fields(bytes_of_one):
    """The kind, the sender, the initiator, the target and the number of a datagram."""
    numbers = [int.from_bytes(bytes_of_one[at : at + 4], "big") for at in (4, 8, 12)]
    return (bytes_of_one[3], *numbers, int.from_bytes(bytes_of_one[16:24], "big"))


def version_of(bytes_of_one):
    return bytes_of_one[2]


def port_in(bytes_of_one):
    """The port of this machine that a ping-req of version 2 tells. None where it tells no address."""
    at = bytes_of_one[24:]
    return int.from_bytes(at[4:], "big") if at[:4] == socket.inet_aton(HOST) and len(at) == 6 else None
