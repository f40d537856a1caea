"""Random configurations of swimd, each the same for its seed.

`random_config(seed)` gives (kind, document). The kinds take turns, so that any stretch of seeds has them all. A
document is written without knowing what will be answered.
"""

import random

LARGEST_ID = 2**32 - 1
MOST_BYTES = 65_536
HEX = "0123456789abcdefABCDEF"
# One byte again and again, or nearly.
PLAIN = ["0" * 64, "a5" * 32, "aA" * 32, "1" * 63 + "2"]
PATHS = ["control", "events", "metrics", "journal_dir"]
MODES = ["control_mode", "events_mode"]
STRINGS = ["listen", "seed", "at", *PATHS, *MODES]
# Keys that may be left out, with values.
OPTIONAL = {"last": "0", "wire": "2", "keys": f"['{'0fA9' * 16}']", "journal_dir": "'files'", "journal_keep": "3"}
OPTIONAL.update(fence="7", rejoin="3", events="'events'", metrics="'metrics'", journal_ms="1")
OPTIONAL.update(control_mode="'0660'", events_mode='"0606"')
# A brace that isn't closed in its line could be one of a newer TOML where the text around it is changed.
PRINTABLE = "".join(map(chr, range(0x20, 0x7F))).replace("{", "")
NUMBERS = [-(2**63), -1_000, -2, -1, -1, -1, 0, 1, 2, 3, 8, 9, 1000, 60_000, 60_001, 65_535, 65_536, 10**6, 10**6 + 1]
NUMBERS += [LARGEST_ID, LARGEST_ID + 1, 2**63 - 1, 2**63, -(2**63) - 1]
BAD_MODES = ["", "660", "0o660", "00660", "0680", "1660", "rw-rw----", "0660 ", " 0660", "0660\n", "-660", "06\u0661"]
BAD_PEERS = ["", "1.2.3.4", "1.2.3:4", "1.2.3.4.5:6", "1.2.3.4:5:6", "1.2.3.4:0", "1.2.3.4:65536", "256.2.3.4:5"]
BAD_PEERS += ["1.2.3.4:05", "01.2.3.4:5", "1.2.3.4: 5", "1.2.3.4:+5", "localhost:5", "[::1]:5", "\u0661.2.3.4:5"]
BAD_PEERS += ["1.2.3.4:5\n"]
OTHER_KINDS = ["true", "false", "1.5", "-0.0", "inf", "nan", "1e3", "[]", "[1]", "{}", "{ a = 1 }", "'text'", "7"]
OTHER_KINDS += ["2020-02-29", "2020-02-29T01:02:03Z", "01:02:03", '""', "[[]]", '"""\ntext"""']
UNKNOWN = [
    "journal_dirs",
    "journal-keep",
    "journal.dir",
    "journal_mss",
    "name",
    "ID",
    "members",
    "K",
    '""',
    "'id '",
    "tick-ms",
    "wires",
    "fences",
    "rejoins",
    "event",
    "metric",
    "mode",
    "control-mode",
    "event_mode",
    "key",
    "keyz",
    "3",
    "more.id",
    '"\\u0000"',
]
NO_TOML = [
    "id", "= 1", "id = ", "[", "[[member]", "x = 'a", 'x = "\\q"', "x = 01", "x = 1__0", "x = [1,,2]", "x = +0x1"
]
NO_TOML += ["x = 1.", "x = 2020-13-01", "x = tru", "a.b = 1\na = 1", "[id]\n[id]", "x = {a = 1, a = 2}", "x = 'a' 'b'"]
NO_TOML += ["x = \x01", "x = '\x7f'", "x = 1 # \x00", 'x = "\\ud800"', "\ufeffx = 1\ufeff", "[member]\n[[member]]"]
NO_TOML += ["x = 99999999999999999999"]


def members(r, count, me):
    ids = r.sample([id for id in range(1, 300) if id != me], count)
    peer = lambda id: f"10.0.{r.randint(0, 255)}.{id % 256}:{r.randint(1, 65_535)}"
    return [[["id", number(r, id)], ["at", text(r, peer(id))]] for id in ids]


def number(r, value):
    """One of the spellings of an integer."""
    if value < 0 or r.random() < 0.6:
        spelt = str(value)
        return "+" + spelt if value >= 0 and r.random() < 0.1 else spelt
    if r.random() < 0.4 and value >= 10:
        spelt = str(value)
        cut = r.randint(1, len(spelt) - 1)
        return spelt[:cut] + "_" + spelt[cut:]
    return r.choice([hex, oct, bin])(value)


def text(r, value):
    """One of the spellings of a string."""
    is_plain = all(0x20 <= ord(it) < 0x7F for it in value)
    if is_plain and "'" not in value and r.random() < 0.3:
        return r.choice([f"'{value}'", f"'''{value}'''", f"'''\n{value}'''"])
    escaped = "".join(escape(r, it) for it in value)
    return r.choice([f'"{escaped}"'] * 5 + [f'"""{escaped}"""', f'"""\n{escaped}"""', f'"""\\\n   {escaped}"""'])


def escape(r, it):
    if it in '"\\':
        return "\\" + it
    if not 0x20 <= ord(it) < 0x7F or it == " " or r.random() < 0.02:
        return f"\\u{ord(it):04x}" if ord(it) < 0x10000 and r.random() < 0.8 else f"\\U{ord(it):08X}"
    return it


def seed_text(r, length=64):
    return "".join(r.choice(HEX) for _ in range(length))


def keys_text(r, keys):
    """One of the spellings of an array of keys."""
    return "[" + r.choice([", ", ",", ",\n  "]).join(text(r, it) for it in keys) + r.choice(
        ["]", "]", ",]"] if keys else ["]"]
    )


class Config:
    """The keys with the texts of their values, and the members in the same way."""

    def __init__(self, r, count=None):
        me = r.choice([1, 1, 2, r.randint(1, 300), LARGEST_ID])
        rtt = r.choice([1, 1, 2, 3, 100, 21_845])
        values = {"id": me, "k": r.randint(0, 8), "rtt": rtt, "period": r.randint(3 * rtt, min(65_535, 3 * rtt + 10))}
        values.update(tick_ms=r.choice([1, 10, 1_000, 60_000]), journal=r.choice([1, 1_000, 10**6]))
        if r.random() < 0.5:
            values["last"] = r.choice([0, 1, 2**32, 2**63 - 1, r.randint(0, 2**63 - 1)])
        if r.random() < 0.4:
            values["wire"] = r.choice([1, 2])
        if r.random() < 0.3:
            values["journal_keep"] = r.choice([0, 1, 16, 10**6, LARGEST_ID])
        if r.random() < 0.3:
            values["journal_ms"] = r.choice([0, 1])
        if r.random() < 0.6:
            values["fence"] = r.choice([0, 0, 1, 10, 1_000, 10**6, LARGEST_ID])
        if r.random() < 0.4:
            values["rejoin"] = r.choice([0, 0, 1, 10, 65_535])
        path = lambda: "".join(r.choice(PRINTABLE) for _ in range(r.choice([1, 5, 20, 99, 100])))
        texts = {
            "listen": f"127.0.0.{r.randint(0, 255)}:{r.randint(1, 65_535)}", "control": path(), "seed": seed_text(r)
        }
        if r.random() < 0.3:
            texts["events"] = texts["control"] if r.random() < 0.2 else path()
        if r.random() < 0.3:
            others = [texts["control"], texts.get("events", texts["control"])]
            texts["metrics"] = r.choice(others) if r.random() < 0.2 else path()
        if r.random() < 0.3:
            others = [texts[key] for key in ("control", "events", "metrics") if key in texts]
            texts["journal_dir"] = r.choice(others) if r.random() < 0.2 else path()
        for key in MODES:
            if r.random() < 0.2:
                texts[key] = r.choice(["0600", "0660", "0666", "0000", "0777", "0640", "0124"])
        self.r = r
        self.top = [[key, number(r, it)] for key, it in values.items()] + [
            [key, text(r, it)] for key, it in texts.items()
        ]
        if r.random() < 0.3:
            self.top.append(["keys", keys_text(r, [seed_text(r) for _ in range(r.choice([1, 1, 2, 3, 4]))])])
        r.shuffle(self.top)
        self.members = members(r, r.choice([0, 0, 1, 2, 3, 5]) if count is None else count, me)
        self.is_inline = r.random() < 0.2

    def pair(self):
        """A key with its value, at the top or of a member."""
        tables = [self.top] * 3 + [it for it in self.members if it]
        table = self.r.choice([it for it in tables if it])
        return table, self.r.randint(0, len(table) - 1)

    def document(self):
        r = self.r
        end = "\r\n" if r.random() < 0.1 else "\n"
        lines = [self.line(*it) for it in self.top]
        if self.members and self.is_inline:
            parts = ["{ " + ", ".join(f"{key} = {it}" for key, it in member) + " }" for member in self.members]
            if not any("\n" in it for it in parts):
                lines.append("member = [" + r.choice([", ", ",\n  "]).join(parts) + r.choice(["]", ",\n]"]))
                return self.joined(lines, end)
        for member in self.members:
            lines += [r.choice(["[[member]]", "[[ member ]]", '[["member"]]'])] + [self.line(*it) for it in member]
        return self.joined(lines, end)

    def joined(self, lines, end):
        if self.r.random() < 0.3:
            lines.insert(self.r.randint(0, len(lines)), self.r.choice(["", "# a comment", "\t# \u00e9", "#" * 200]))
        made = "\n".join(lines) + self.r.choice(["", "\n", "\n", "\n\n"])
        return made.replace("\n", end).encode("utf-8", "surrogatepass")

    def line(self, key, value):
        r = self.r
        spelt = r.choice([key] * 8 + [f'"{key}"', f"'{key}'"]) if key.replace("_", "").isalpha() else key
        return r.choice([f"{spelt} = {value}"] * 5 + [f"{spelt}={value}", f"  {spelt}\t=  {value} # it"])


def fine(r):
    return Config(r)


def broken(r, config=None):
    """A configuration of which a value or a key or two are others."""
    config = config or Config(r)
    for _ in range(r.choice([1, 1, 1, 1, 2, 2, 3])):
        table, place = config.pair()
        step = r.random()
        if step < 0.25:
            del table[place]
        elif step < 0.4:
            table[place][1] = r.choice(OTHER_KINDS)
        elif step < 0.5:
            table.insert(place, [r.choice(UNKNOWN), r.choice(["1", "'x'", "[]"])])
        elif step < 0.6:
            config.is_inline, config.members = True, config.members or members(r, 1, 0)
        else:
            table[place][1] = another(r, table[place][0])
        if not table:
            break
    return config


def another(r, key):
    """A value of the key that may be out of range."""
    if key in ("listen", "at"):
        return text(r, r.choice(BAD_PEERS))
    if key in PATHS:
        path = r.choice(["", "\t", "\x7f", "\u00e9", "x" * 100, "x" * 101, "a\nb", "\x00", "/tmp/\U0001f600"])
        return text(r, path)
    if key in MODES:
        return text(r, r.choice(BAD_MODES))
    if key == "seed":
        return text(r, bad_seed(r))
    if key == "keys":
        bad = r.choice([[], [seed_text(r)] * 5, [bad_seed(r)], [seed_text(r), bad_seed(r)]])
        return keys_text(r, bad)
    return number(r, -1 if key in OPTIONAL and r.random() < 0.5 else r.choice(NUMBERS))


def bad_seed(r):
    return r.choice([seed_text(r, 63), seed_text(r, 65), "", seed_text(r, 63) + "g", seed_text(r, 62) + "\u00e9"])


def of_one_fault(r):
    """A configuration that lacks one key, or has it of another kind or out of range."""
    config = Config(r, count=r.choice([1, 2, 3]))
    config.top = [it for it in config.top if it[0] not in OPTIONAL] + [list(it) for it in OPTIONAL.items()]
    table = r.choice([config.top, config.top, config.top, r.choice(config.members)])
    pair = r.choice(table)
    step = r.random()
    if step < 0.3 and pair[0] not in OPTIONAL:
        table.remove(pair)
    elif step < 0.65:
        pair[1] = r.choice(["true", "0.5", "[]", "{}", "2020-02-29", "1" if pair[0] in STRINGS else "'1'"])
    else:
        pair[1] = another(r, pair[0])
    return config


def of_other_members(r):
    """What stands in the place of the members is something else."""
    config = Config(r, count=0)
    value = r.choice(OTHER_KINDS + ["[1, {}]", "[{}, 1]", "[{}]", '[{ id = 1, at = "1.2.3.4:5" }, [], {}]'])
    config.top.append(["member", value])
    return broken(r, config) if r.random() < 0.3 else config


def of_an_opening(r):
    """An opening at or beyond its limits."""
    config = Config(r, count=r.choice([0, 1, 3, 3, 3, 127, 128, 129, 130]))
    for pair in config.top:
        if pair[0] in ("k", "rtt", "period") and r.random() < 0.3:
            limits = {"k": [8, 9, LARGEST_ID], "rtt": [0, 1, 21_845, 21_846], "period": [0, 2, 3, 65_535, 65_536]}
            pair[1] = number(r, r.choice(limits[pair[0]]))
    own = next(it for key, it in config.top if key == "id")
    for it in config.members:
        if r.random() < 1 / (1 + len(config.members)):
            it[0][1] = r.choice([own, config.members[-1][0][1]])
    return config


def doubtful(r):
    """A configuration that is allowed and may not work."""
    config = Config(r, count=r.choice([0, 1, 2, 3, 5, 9]))
    at = next(it for key, it in config.top if key == "listen")
    for member in config.members:
        if r.random() < 0.2:
            member[1][1] = r.choice([at, config.members[0][1][1]])
    limits = {"k": [0, 1, 2, 3, 8], "journal": [1, 20, 100, 1_000, 10**6], "tick_ms": [1, 1_000, 10_000, 60_000]}
    limits["period"] = [65_535, 8_640, 8_641, 1_440, 1_441]
    for pair in config.top:
        if pair[0] in limits and r.random() < 0.5:
            pair[1] = number(r, r.choice(limits[pair[0]]))
        if pair[0] == "rtt":
            pair[1] = number(r, r.choice([1, 2, 100]))
        if pair[0] == "seed" and r.random() < 0.5:
            pair[1] = text(r, r.choice(PLAIN))
        if pair[0] == "keys" and r.random() < 0.5:
            pair[1] = keys_text(r, [seed_text(r)] * r.randint(0, 2) + [r.choice(PLAIN)])
    return config


def no_toml(r):
    lines = fine(r).document().decode().split("\n")
    lines.insert(r.randint(0, len(lines)), r.choice(NO_TOML))
    return "\n".join(lines).encode("utf-8", "surrogatepass")


def noisy(r):
    """A configuration with some bytes changed, put in, or left out."""
    made = bytearray(r.choice([fine, broken])(r).document())
    bytes_put_in = b"0123456789 \n.:,-#abcdef\r\x00\xff=\"'[]{}\\_xtu"
    for _ in range(r.choice([1, 1, 2, 5])):
        place, step = r.randint(0, len(made) - 1), r.random()
        if step < 0.4:
            made[place] = r.choice(bytes_put_in)
        elif step < 0.7:
            made.insert(place, r.choice(bytes_put_in))
        else:
            del made[place]
    return bytes(made)


def about_as_large_as_may_be(r):
    made = r.choice([fine, broken])(r).document()
    if not made.endswith(b"\n"):
        made += b"\n"
    return made + b"#" * (MOST_BYTES + r.choice([-1, 0, 0, 1, 1, 2, 1_000]) - len(made))


KINDS = [fine, of_one_fault, broken, of_one_fault, of_one_fault, broken, of_one_fault, of_one_fault]
KINDS += [
    of_one_fault,
    of_one_fault,
    of_one_fault,
    of_other_members,
    of_an_opening,
    of_one_fault,
    of_an_opening,
    doubtful,
    of_one_fault,
    no_toml,
    noisy,
    noisy,
    about_as_large_as_may_be,
]


def random_config(seed):
    kind = KINDS[seed % len(KINDS)]
    made = kind(random.Random(seed))
    return kind.__name__, made if isinstance(made, bytes) else made.document()
