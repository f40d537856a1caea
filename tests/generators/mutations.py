"""Mutations of valid texts: bytes, words and lines changed, left out, doubled, moved, or taken from another text."""

NUMBERS = [
    b"",
    b"0",
    b"1",
    b"2",
    b"3",
    b"8",
    b"9",
    b"01",
    b"-1",
    b"+1",
    b"127",
    b"128",
    b"129",
    b"255",
    b"256",
    b"1000000",
    b"1000001",
]
NUMBERS += [b"65535", b"65536", b"4294967295", b"4294967296", b"9223372036854775807", b"9223372036854775808"]
NUMBERS += [b"18446744073709551615", b"18446744073709551616"]
SIGNS = b" \t\r\n\x00\x7f\xff#.,:;-_=\"'[]{}\\0189afAFxg"


def part(r, text, longest=16):
    """Where a part of a text begins and ends."""
    begin = r.randint(0, len(text))
    return begin, min(len(text), begin + r.randint(0, longest))


def with_another_byte(r, text, _other):
    place = r.randint(0, len(text))
    return text[:place] + bytes([r.choice([r.choice(SIGNS), r.randint(0, 255)])]) + text[place + 1 :]


def with_another_bit(r, text, _other):
    place = r.randint(0, len(text))
    return text[:place] + bytes(it ^ 1 << r.randint(0, 7) for it in text[place : place + 1]) + text[place + 1 :]


def with_a_byte_more(r, text, _other):
    place = r.randint(0, len(text))
    return text[:place] + bytes([r.choice(SIGNS)]) * r.choice([1, 1, 1, 2, 200]) + text[place:]


def with_a_part_less(r, text, _other):
    begin, end = part(r, text)
    return text[:begin] + text[end:]


def with_a_part_twice(r, text, _other):
    begin, end = part(r, text, 200)
    return text[:end] + text[begin:]


def with_a_part_of_another(r, text, other):
    (begin, end), (first, last) = part(r, text), part(r, other, 200)
    return text[:begin] + other[first:last] + text[end:]


def cut(r, text, _other):
    return text[: r.randint(0, len(text))]


def with_another_number(r, text, _other):
    """One of its words is another number."""
    return with_another(r, text, b" ", lambda _: r.choice(NUMBERS))


def with_another_word(r, text, other):
    return with_another(r, text, b" ", lambda _: r.choice(other.split(b" ")))


def with_a_line_less(r, text, _other):
    lines = text.split(b"\n")
    del lines[r.randrange(len(lines))]
    return b"\n".join(lines)


def with_a_line_moved(r, text, _other):
    lines = text.split(b"\n")
    lines.insert(r.randint(0, len(lines)), lines.pop(r.randrange(len(lines))))
    return b"\n".join(lines)


def with_a_line_of_another(r, text, other):
    lines = text.split(b"\n")
    lines.insert(r.randint(0, len(lines)), r.choice(other.split(b"\n")))
    return b"\n".join(lines)


def with_another(r, text, sign, change):
    """The text with one of the parts between signs changed."""
    parts = text.split(sign)
    place = r.randrange(len(parts))
    return sign.join([*parts[:place], change(parts[place]), *parts[place + 1 :]])


MUTATIONS = [
    with_another_byte, with_another_bit, with_a_byte_more, with_a_part_less, with_a_part_twice, with_a_part_of_another
]
MUTATIONS += [cut, with_another_number, with_another_number, with_another_word, with_a_line_less, with_a_line_moved]
MUTATIONS += [with_a_line_of_another]


def mutated(r, text, other):
    """A text with some mutations, for which parts of another are taken."""
    for _ in range(r.choice([1, 1, 1, 2, 3, 8])):
        text = r.choice(MUTATIONS)(r, text, other)
    return text
