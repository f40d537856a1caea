"""Which bytes are a datagram, and what it says, worked out apart from the crates, after docs/FORMATS.md."""

BYTES, BYTES_WITH_ADDRESS = 24, 30
LENGTH, MAGIC, VERSION, UNKNOWN_KIND, ZERO_ID, ZERO_NUMBER, FORM, ZERO_PORT = range(1, 9)
NO_ID, NO_NUMBER, NO_PORT = bytes(4), bytes(8), bytes(2)
KINDS = {1: "ping", 2: "ping-req", 3: "ack"}
# The version and the kind of those that have an address.
WITH_ADDRESS = b"\x02\x02"


def fault_of(text):
    """The number of the first fault of bytes that are no datagram, or None."""
    faults = {
        LENGTH: len(text) not in (BYTES, BYTES_WITH_ADDRESS),
        MAGIC: text[:2] != b"SW",
        VERSION: text[2:3] not in (b"\x01", b"\x02"),
        UNKNOWN_KIND: text[3:4] not in (b"\x01", b"\x02", b"\x03"),
        FORM: (len(text) == BYTES_WITH_ADDRESS) != (text[2:4] == WITH_ADDRESS),
        ZERO_ID: NO_ID in (text[4:8], text[8:12], text[12:16]),
        ZERO_NUMBER: text[16:24] == NO_NUMBER,
        ZERO_PORT: text[28:30] == NO_PORT,
    }
    return next((fault for fault, applies in faults.items() if applies), None)


def in_words(text):
    """The words of a datagram, each read from the bytes where it stands."""
    sender, initiator, target = (int.from_bytes(text[place : place + 4], "big") for place in (4, 8, 12))
    number = int.from_bytes(text[16:24], "big")
    version = f", version {text[2]}" if text[2] != 1 else ""
    address = (
        f", at {'.'.join(map(str, text[24:28]))}:{int.from_bytes(text[28:30], 'big')}"
        if len(text) == BYTES_WITH_ADDRESS
        else ""
    )
    ids = f"sender {sender}, initiator {initiator}, target {target}"
    return f"  {KINDS[text[3]]}: {ids}, number {number}{version}{address}"
