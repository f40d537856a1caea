"""Bytes that are nearly a datagram: every beginning of some of them, each of these with bytes behind it, and some with
each of their bytes replaced by each of the 256 values."""

PING = bytes.fromhex("535701010000000100000001000000020000000000000001")
ACK = bytes.fromhex("53570103ffffffffffffffffffffffffffffffffffffffff")
# About member 2, and begun by another than the sender: whatever one byte of it is, member 2 pings nobody for it.
REQUEST = bytes.fromhex("53570202000000010000000300000002000000000000000901020304ffff")
MOST_BYTES = 64


def beginnings():
    """Without the empty one, for which a script has no word."""
    return [text[:length] for text in (PING, ACK, REQUEST) for length in range(1, len(text))]


def with_more_bytes():
    """Up to as many as the longest datagram has, and more than that."""
    lengths, fillings = (25, 30, 31, MOST_BYTES), (b"\x00", b"\x07")
    return [text.ljust(length, byte) for text in (PING, ACK, REQUEST) for length in lengths for byte in fillings]


def with_each_byte():
    places = [(text, place) for text in (PING, REQUEST) for place in range(len(text))]
    return [text[:place] + bytes([byte]) + text[place + 1 :] for text, place in places for byte in range(256)]


def forgeries():
    return [*beginnings(), *with_more_bytes(), *with_each_byte()]
