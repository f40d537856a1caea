"""What `swimd check` has to write for a configuration, worked out apart from swimd: the text is read by Python's own
TOML reader, and the rest by the rules of docs/FORMATS.md."""

import hashlib
import math
import re
import tomllib
from fractions import Fraction

from tests.models.config_keys import BY_TEXT, LARGEST_ID, MEMBER, RULES, TOP, expected_of
from tests.swimd.worked_configs import BELOW

MOST_BYTES = 65_536
MOST_MEMBERS = 128
MOST_KEYS = 4
OCTET = "(0|[1-9][0-9]{0,2})"
PEER = re.compile(rf"{OCTET}\.{OCTET}\.{OCTET}\.{OCTET}:([1-9][0-9]{{0,4}})")
DAY_MS = 86_400_000
# The most entries of a flood that are counted: a thousandth of what 64 bits count, rounded up.
MOST_COUNTED = -(-(2**64 - 1) // 1_000)
# The most bytes of a line below a fault, without the spaces before it.
LINE_BYTES = 160
# What parts the words of a line, and from how many hexadecimal digits on one isn't shown.
MARKS = re.compile(rb"([\"'\[\]{},=#])")
HIDDEN_DIGITS = 32
# The digits in a row that aren't shown but as the value of a number, where such a value begins, and its most digits.
DIGITS_IN_A_ROW = re.compile(rb"[0-9A-Fa-f]{12,}")
VALUE_BEGINS = re.compile(rb"=[ +-]*$")
NUMBER_DIGITS = 19


# What a document may have since TOML 1.1, which Python's reader doesn't know: lines and a last comma within an inline
# table, two escapes, and times without seconds.
NEWER = re.compile(r",[^\S\n]*(#[^\n]*)?\s*}|{[^}\n]*\n|\\[ex]|(?<![.\d])\d\d:\d\d(?!:)")


class Fault(Exception):
    pass


class OtherVersion(Exception):
    """A text that one version of TOML may take, and another refuses."""


def checked(document):
    """Standard output, standard error as far as it is known, and status."""
    try:
        config = read_config(document)
    except Fault as fault:
        return b"", f"configuration {fault}\n{expected(str(fault))}".encode() + BELOW, 1
    return summary(config).encode(), "".join(f"warning: {it}\n" for it in warnings(config)).encode(), 0


def misquoted(document, found):
    """The lines below a fault that say they are a line of the document and aren't."""
    lines = document.split(b"\n")
    quotes = re.findall(rb"^  line ([0-9]+): (.*)$", found, re.MULTILINE)
    return [(number, text) for number, text in quotes if text != quoted(number, lines[int(number) - 1])]


def quoted(number, line):
    """A line of a document as it is quoted: as much of it as there is room for behind its number, without keys."""
    line = line[:-1] if line.endswith(b"\r") else line
    line = b"".join(b".." if has_many_digits(it) else it for it in MARKS.split(line))
    shown = bytes(it if 0x20 <= it < 0x7F else ord("?") for it in line)
    return DIGITS_IN_A_ROW.sub(shown_digits, shown)[: LINE_BYTES - len(b"line %s: " % number)]


def shown_digits(found):
    """What is shown of many hexadecimal digits in a row: the value of a number, and of others nothing."""
    is_value = found[0].isdigit() and len(found[0]) <= NUMBER_DIGITS
    return found[0] if is_value and VALUE_BEGINS.search(found.string[: found.start()]) else b".."


def has_many_digits(text):
    return len(re.findall(rb"[0-9a-fA-F]", text)) >= HIDDEN_DIGITS


def expected(fault):
    """The line that says what was expected, below the line of a fault."""
    number, _, key = fault.partition(" ")
    if number == "3":
        return ""
    texts = {"1": "at most 65536 bytes", "2": "a TOML document, in UTF-8"}
    if number == "9":
        texts["9"] = RULES[int(key) - 1]
    return f"  expected: {texts.get(number) or expected_of(BY_TEXT[key])}\n"


def read_config(document):
    """The values of all keys, defaults included."""
    if len(document) > MOST_BYTES:
        raise Fault("1")
    top = tables_of(document)
    config = values(top, TOP, "")
    # Where keys are set, a last number that isn't given is the clock's, which nobody knows yet.
    config["last"] = None if config["keys"] and "last" not in top else config["last"]
    config["is_fence_given"], config["is_rejoin_given"] = "fence" in top, "rejoin" in top
    config["modes_given"] = [key for key in ("control_mode", "events_mode") if key in top]
    if not isinstance(config["member"], list) or not all(isinstance(it, dict) for it in config["member"]):
        raise Fault("5 member")
    config["member"] = [member(it) for it in config["member"]]
    fault = opening_fault(config)
    if fault:
        raise Fault(f"9 {fault}")
    return config


def tables_of(document):
    try:
        text = document.decode("utf-8")
    except UnicodeDecodeError:
        raise Fault("2") from None
    try:
        top = tomllib.loads(text, parse_float=read_float)
    except tomllib.TOMLDecodeError:
        if NEWER.search(text):
            raise OtherVersion from None
        raise Fault("2") from None
    if any(not -(2**63) <= it < 2**63 for it in integers(top)):
        raise Fault("2")
    return top


def read_float(text):
    """A float. For the reader of swimd a document with one that is out of range is none."""
    if "inf" not in text and math.isinf(float(text)):
        raise Fault("2")
    return float(text)


def integers(it):
    """All integers that stand anywhere in a value."""
    if isinstance(it, dict):
        it = list(it.values())
    if isinstance(it, list):
        return [number for part in it for number in integers(part)]
    return [it] if is_integer(it) else []


def is_integer(it):
    return isinstance(it, int) and not isinstance(it, bool)


def values(table, keys, before):
    """The values of all keys of a table; faults call them by their names with that text before."""
    if not set(table) <= {key.name for key in keys}:
        raise Fault("3")
    found = {}
    for key in keys:
        found[key.name] = value(table, key, before + key.name)
        if key.name == "events" and found["events"] == found["control"]:
            raise Fault("6 events")
        if key.name == "metrics" and found["metrics"] in (found["control"], found["events"]) and found["metrics"]:
            raise Fault("6 metrics")
        others = [found.get(it) for it in ("control", "events", "metrics")]
        if key.name == "journal_dir" and found["journal_dir"] in others and found["journal_dir"]:
            raise Fault("6 journal_dir")
    return found


def value(table, key, name):
    """The value of a key, which a fault calls by that name."""
    if key.name not in table:
        if key.default is None:
            raise Fault(f"4 {name}")
        return key.default
    it = table[key.name]
    if key.kind == "integer":
        return in_range(it, key.range, name)
    if key.kind == "members":
        return it
    if key.kind == "keys":
        return group_keys(it, name)
    if not isinstance(it, str):
        raise Fault(f"5 {name}")
    if key.kind == "path" and not re.fullmatch(r"[ -~]{1,100}", it):
        raise Fault(f"6 {name}")
    if key.kind == "mode" and not re.fullmatch("0[0-7]{3}", it):
        raise Fault(f"6 {name}")
    if key.kind == "seed" and not re.fullmatch("[0-9a-fA-F]{64}", it):
        raise Fault(f"8 {name}")
    if key.kind == "peer" and not is_peer(it):
        raise Fault(f"7 {name}")
    return it


def in_range(it, range_of_key, name):
    if not is_integer(it):
        raise Fault(f"5 {name}")
    if not range_of_key[0] <= it <= range_of_key[1]:
        raise Fault(f"6 {name}")
    return it


def group_keys(it, name):
    if not isinstance(it, list) or not all(isinstance(key, str) for key in it):
        raise Fault(f"5 {name}")
    if not 1 <= len(it) <= MOST_KEYS or not all(re.fullmatch("[0-9a-fA-F]{64}", key) for key in it):
        raise Fault(f"6 {name}")
    return it


def is_peer(text):
    found = PEER.fullmatch(text)
    return bool(found) and all(int(it) <= 255 for it in found.groups()[:4]) and int(found[5]) <= 65_535


def member(table):
    made = values(table, MEMBER, "member.")
    return made["id"], made["at"]


def opening_fault(config):
    """The number of the first limit of an opening that is broken, or 0."""
    ids = [id for id, _ in config["member"]]
    broken = [
        config["k"] > 8,
        not (config["rtt"] >= 1 and 3 * config["rtt"] <= config["period"] <= 65_535),
        len(ids) > MOST_MEMBERS,
        config["id"] in ids,
        len(set(ids)) < len(ids),
    ]
    return broken.index(True) + 1 if any(broken) else 0


def summary(config):
    told = [key for key in ("k", "rtt", "period", "tick_ms", "last", "journal") if config[key] is not None]
    numbers = " ".join(f"{key} {config[key]}" for key in told)
    numbers += " wire 2" if config["wire"] == 2 else ""
    numbers += f" keys {len(config['keys'])}" if config["keys"] else ""
    numbers += f" fence {config['fence']}" if config["is_fence_given"] else ""
    numbers += f" rejoin {config['rejoin']}" if config["is_rejoin_given"] else ""
    files = config["journal_dir"] != ""
    paths = [key for key in ("events", "metrics") if config[key] != ""]
    paths += [*config["modes_given"], *["journal_dir"] * files]
    lines = [f"{key} {config[key]}" for key in ("id", "listen", "control", *paths)]
    times = " journal_ms 1" if config["journal_ms"] == 1 else ""
    lines += [numbers, *[f"journal_keep {config['journal_keep']}{times}"] * files]
    lines += [*(f"key {fingerprint(key)}" for key in config["keys"]), f"members {len(config['member'])}"]
    return "".join(f"{line}\n" for line in lines + [f"{id} {at}" for id, at in sorted(config["member"])])


def fingerprint(key):
    """By which people tell a key from others."""
    return hashlib.sha256(bytes.fromhex(key)).hexdigest()[:8]


def warnings(config):
    """What is allowed and can't work, in order."""
    members, period, k = config["member"], config["period"], config["k"]
    rounds = 3 * (len(members) * (period + 2) + 2 * len(members))
    if config["journal"] < rounds:
        yield f"journal {config['journal']} is shorter than three rounds, which take {rounds} entries"
    flood = math.ceil(Fraction(3 * len(members) * period * config["tick_ms"] * config["fence"], 1_000))
    if config["is_fence_given"] and config["journal"] < min(flood, MOST_COUNTED):
        flooded = f"a flood of {config['fence']} datagrams a second adds in three rounds"
        yield f"journal {config['journal']} is shorter than what {flooded}, {min(flood, MOST_COUNTED)} entries"
    for id, at in members:
        if at == config["listen"]:
            yield f"member {id} is at this member's own address, {at}"
    for place, (id, at) in enumerate(members):
        for other in [other for other, there in members[place + 1 :] if there == at][:1]:
            yield f"members {id} and {other} are at one address, {at}"
    if members and k > len(members) - 1:
        yield f"k {k} is greater than the members that could relay, {len(members) - 1}"
    if period * config["tick_ms"] > DAY_MS:
        yield f"a period has {period * config['tick_ms']} milliseconds, which is beyond a day"
    if config["rtt"] * config["tick_ms"] < 10:
        yield f"rtt has {config['rtt'] * config['tick_ms']} milliseconds, which is below 10"
    if config["rtt"] == 1 and config["tick_ms"] < 20:
        yield f"rtt is one tick of {config['tick_ms']} milliseconds, which is below 20"
    if k == 0 and len(members) > 2:
        yield f"k is 0, so that none of {len(members)} members is asked to relay"
    if config["wire"] == 1 and k != 0:
        yield "wire is 1, so that a relay that judged a member is no path to it"
    if config["rejoin"] == 0 and members:
        yield "rejoin is 0, so that only an operator's join brings a failed member back"
    if len(set(bytes.fromhex(config["seed"]))) == 1:
        yield "seed is one byte again and again, which anybody may guess"
    if any(len(set(bytes.fromhex(key))) == 1 for key in config["keys"]):
        yield "a key of the group is one byte again and again, which anybody may guess"
