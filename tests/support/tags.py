"""Keys of a group, and the tags of datagrams by them, by Python's own HMAC."""

import hashlib
import hmac

from tests.support.datagrams import ACK, datagram

TAG_BYTES = 16
# Three keys of a group, and one that nobody of it has.
FIRST, SECOND, THIRD, STRANGE = (hashlib.sha256(b"key %d" % number).digest() for number in range(4))


def key_texts(*keys):
    """The keys as a configuration has them. Its digits are of either case."""
    return [key.hex() if place % 2 == 0 else key.hex().upper() for place, key in enumerate(keys)]


def digest(key, text):
    return hmac.new(key, text, hashlib.sha256).digest()


def tag(key, text):
    return digest(key, text)[:TAG_BYTES]


def sealed(key, text):
    """The text with its tag behind it."""
    return text + tag(key, text)


def sealing(key):
    return lambda text: sealed(key, text)


def changed(bytes_of_one, place, by=1):
    """The bytes with another one at that place."""
    return bytes_of_one[:place] + bytes([bytes_of_one[place] ^ by]) + bytes_of_one[place + 1 :]


# What is sent for a text by whoever hasn't the key, or makes a tag otherwise.
FORGERS = {
    "no tag": bytes,
    "a tag of 15 bytes": lambda text: sealed(FIRST, text)[:-1],
    "a byte behind the tag": lambda text: sealed(FIRST, text) + b"\0",
    "another first byte of the tag": lambda text: changed(sealed(FIRST, text), len(text)),
    "another last bit of the tag": lambda text: changed(sealed(FIRST, text), len(text) + TAG_BYTES - 1),
    "a tag of zeros": lambda text: text + bytes(TAG_BYTES),
    "the tag of the empty text": lambda text: text + tag(FIRST, b""),
    "the tag of another text": lambda text: text + tag(FIRST, changed(text, 23)),
    "a key that is none of the group's": lambda text: sealed(STRANGE, text),
    "the digits as a key": lambda text: sealed(FIRST.hex().encode(), text),
    "the tag in front": lambda text: tag(FIRST, text) + text,
    "the whole HMAC": lambda text: text + digest(FIRST, text),
    "the second half of the HMAC": lambda text: text + digest(FIRST, text)[TAG_BYTES:],
    "a digest without a key": lambda text: text + hashlib.sha256(text).digest()[:TAG_BYTES],
    "a digest behind the key": lambda text: text + hashlib.sha256(FIRST + text).digest()[:TAG_BYTES],
    "the tag of an ack of member 9": lambda text: text + tag(FIRST, datagram(ACK, 9, 9, 9, 1)),
}


def forged(text):
    """Bytes of each kind that are no text with a tag: by those who forge, and with another byte at each place."""
    yield from (make(text) for make in FORGERS.values())
    whole = sealed(FIRST, text)
    yield from (changed(whole, place, 1 << place % 8) for place in range(len(whole)))
