"""The table of the keys of a configuration, written apart from swimd, after docs/FORMATS.md."""

from typing import NamedTuple

LARGEST_ID = 2**32 - 1


class Key(NamedTuple):
    """What the table of keys says of one: its name where it stands, its kind, the range of a number, its default (None
    where it has to be given), and what it is for."""

    name: str
    kind: str
    range: tuple
    default: object
    about: str


# The keys in the order in which their faults are told, and those of a member.
TOP = [
    Key("id", "integer", (1, LARGEST_ID), None, "this member"),
    Key("listen", "peer", (), None, "where its datagrams come in"),
    Key("control", "path", (), None, "the path of the control socket"),
    Key("events", "path", (), "", "the path of the events' socket, not that of control"),
    Key("metrics", "path", (), "", "the path of the metrics' file, not that of a socket"),
    Key("control_mode", "mode", (), "0600", "the mode of the control socket"),
    Key("events_mode", "mode", (), "0600", "the mode of the events' socket"),
    Key("k", "integer", (0, LARGEST_ID), None, "how many relays are asked, at most 8"),
    Key("rtt", "integer", (0, LARGEST_ID), None, "ticks for which a direct ack is waited for, at least 1"),
    Key("period", "integer", (0, LARGEST_ID), None, "ticks of a period, from three times rtt to 65535"),
    Key("tick_ms", "integer", (1, 60_000), None, "milliseconds of a tick"),
    Key("seed", "seed", (), None, "what orders and places are drawn from"),
    Key("journal", "integer", (1, 1_000_000), None, "the most entries of the journal"),
    Key("last", "integer", (0, 2**63 - 1), 0, "the last period number that was used before"),
    Key("wire", "integer", (1, 2), 1, "the version of its own pings and ping-reqs"),
    Key("keys", "keys", (), (), "the keys of the group, of which the first signs"),
    Key("fence", "integer", (0, LARGEST_ID), 1000, "datagrams a second of an address, 0 for all"),
    Key("rejoin", "integer", (0, 65_535), 0, "periods between knocks at failed members, 0 for none"),
    Key("journal_dir", "path", (), "", "the folder of the journal files, not the path of another key"),
    Key("journal_keep", "integer", (0, LARGEST_ID), 16, "how many journal files stay, 0 for all"),
    Key("journal_ms", "integer", (0, 1), 0, "times in journal files: 0 in seconds, 1 with milliseconds"),
    Key("member", "members", (), [], "the other members, at most 128"),
]
MEMBER = [
    Key("id", "integer", (1, LARGEST_ID), None, "another member"),
    Key("at", "peer", (), None, "where another member listens"),
]
BY_TEXT = {**{key.name: key for key in TOP}, **{f"member.{key.name}": key for key in MEMBER}}
FORMS = {
    "peer": "a string IP:PORT, as 10.0.0.1:7000",
    "path": "a string of 1 to 100 characters of ASCII that print",
    "mode": "a string of a 0 and 3 octal digits, as 0660",
    "seed": "a string of 64 hexadecimal digits",
    "keys": "an array of 1 to 4 strings of 64 hexadecimal digits",
    "members": "an array of tables, each with id and at",
}
RULES = [
    "k of at most 8",
    "rtt of at least 1, and period from three times rtt to 65535",
    "at most 128 members",
    "members with other ids than this one",
    "each member once",
]


def rows():
    """The rows of the table of keys in docs/FORMATS.md."""
    for text, key in BY_TEXT.items():
        yield f"| `{text}` | {expected_form(key)} | {default_text(key)} | {key.about} |"


def default_text(key):
    """What the table says of a key that is left out."""
    if key.default == "":
        return {"events": "no socket", "metrics": "no file"}.get(key.name, "no files")
    if key.default == []:
        return "none of them"
    return {None: "none", (): "no keys"}.get(key.default, key.default)


def expected_of(key):
    return f"{expected_form(key)} ({key.about})"


def expected_form(key):
    return FORMS.get(key.kind) or "an integer from {} to {}".format(*key.range)
