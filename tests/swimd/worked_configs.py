"""Configurations of swimd, and what `swimd check` has to write, all worked out by hand from docs/FORMATS.md.

`worked_configs()` gives (name, document, standard output, standard error, status). Where standard error ends with
BELOW, any lines may stand there that begin with two spaces; those of worked_causes.py are known.
"""

import hashlib
import re

# Where this ends what is expected on standard error, any lines may stand that begin with two spaces.
BELOW = b"  ..\n"
ZEROS = "0" * 64
SEED = "00112233445566778899aabbccddeeff" * 2
FULL = f"""\
id = 1
listen = "10.0.0.1:7000"
control = "/tmp/swimd.sock"
k = 1
rtt = 1
period = 3
tick_ms = 1000
seed = "{SEED}"
journal = 1000

[[member]]
id = 3
at = "10.0.0.3:7000"

[[member]]
id = 2
at = "10.0.0.2:7000"
"""
SUMMARY = """\
id 1
listen 10.0.0.1:7000
control /tmp/swimd.sock
k 1 rtt 1 period 3 tick_ms 1000 last 0 journal 1000
members 2
2 10.0.0.2:7000
3 10.0.0.3:7000
"""
ALONE = FULL.split("\n\n", 1)[0] + "\n"
SUMMARY_ALONE = SUMMARY.split("members", 1)[0] + "members 0\n"
WIRE = "wire is 1, so that a relay that judged a member is no path to it"
REJOIN = "rejoin is 0, so that only an operator's join brings a failed member back"
# What the configuration FULL is warned of.
WARNED = f"warning: {WIRE}\nwarning: {REJOIN}\n".encode()
# How the warnings end that stand behind these.
GUESSED = "which anybody may guess"
LINES = {line.split(" = ")[0]: line for line in ALONE.splitlines()}


def is_as(found, wanted):
    """Whether what stands on standard error is as expected."""
    if not wanted.endswith(BELOW):
        return found == wanted
    front = wanted[: -len(BELOW)]
    more = found[len(front) :].decode("latin-1")
    lines = more.split("\n")
    return found.startswith(front) and lines[-1] == "" and all(re.fullmatch("  [ -~]+", it) for it in lines[:-1])


def good(name, document, stdout, *warnings):
    lines = with_unsaid(stdout, warnings)
    return name, document.encode(), stdout.encode(), "".join(f"warning: {it}\n" for it in lines).encode(), 0


def with_unsaid(stdout, warnings):
    """These warnings, and in their place those of `wire` and `rejoin`, which most of these configurations leave out:
    what the summary has to tell of the two, of `k` and of the members says whether they apply."""
    unsaid = [WIRE] if "\nk 0 " not in stdout and " wire 2" not in stdout else []
    unsaid += [REJOIN] if not re.search(" rejoin [1-9]|\nmembers 0\n", stdout) else []
    guesses = [it for it in warnings if it.endswith(GUESSED)]
    return [*(it for it in warnings if it not in guesses), *unsaid, *guesses]


def bad(name, document, fault):
    text = document if isinstance(document, bytes) else document.encode()
    return name, text, b"", f"configuration {fault}\n".encode() + BELOW, 1


def replaced(line, other, document=FULL):
    """The document with another line in the place of one, or without it."""
    if document.count(f"{line}\n") != 1:
        raise ValueError(f"{line} doesn't stand there once")
    return document.replace(f"{line}\n", f"{other}\n" if other else "")


def with_value(key, value, document=FULL):
    return replaced(LINES[key], f"{key} = {value}", document)


def with_member(lines):
    return f"{ALONE}\n[[member]]\n{lines}\n"


def numbered_members(first, count):
    return "".join(f'\n[[member]]\nid = {id}\nat = "10.0.0.2:{id}"\n' for id in range(first, first + count))


def with_summary(old, new):
    return SUMMARY.replace(old, new)


def accepted():
    yield good("a group of three", FULL, SUMMARY)
    yield good("nobody else", ALONE, SUMMARY_ALONE)
    lines = FULL.split("\n")
    yield good("keys in another order", "\n".join(lines[8::-1] + lines[9:]), SUMMARY)
    yield good("carriage returns and comments", FULL.replace("\n", " # a comment\r\n"), SUMMARY)
    inline = ALONE + 'member = [{id = 3, at = "10.0.0.3:7000"}, {at = "10.0.0.2:7000", id = 2}]\n'
    yield good("members in one line", inline, SUMMARY)
    last_comma = ALONE + 'member = [{id = 3, at = "10.0.0.3:7000",},\n {at = "10.0.0.2:7000",\n id = 2},]\n'
    yield good("a last comma, and lines within braces", last_comma, SUMMARY)
    yield good("an escape of two digits", with_value("control", r'"\x2ftmp/swimd.sock"'), SUMMARY)
    yield good("an array of no members", ALONE + "member = []\n", SUMMARY_ALONE)
    yield good("other spellings of numbers", with_value("tick_ms", "1_000", with_value("journal", "0x3e8")), SUMMARY)
    yield good("a sign", with_value("k", "+1"), SUMMARY)
    yield good(
        "quoted keys, and other quotes", with_value("listen", "'10.0.0.1:7000'").replace("k =", '"k" ='), SUMMARY
    )
    yield good("escapes", with_value("control", r'"\u002ftmp/swimd.sock"'), SUMMARY)
    yield good("digits of either case", with_value("seed", f'"aAbBcCdDeEfF{ZEROS[12:]}"'), SUMMARY)
    yield good(
        "the last number used", "last = 9223372036854775807\n" + FULL, with_summary("last 0", f"last {2**63 - 1}")
    )
    most = with_value("id", "4294967295", with_value("journal", "1000000", with_value("tick_ms", "60000")))
    stdout = with_summary("id 1\n", "id 4294967295\n").replace("journal 1000", "journal 1000000")
    yield good("the largest numbers", most, stdout.replace("tick_ms 1000", "tick_ms 60000"))
    yield good("the longest path", with_value("control", f'"{"~" * 100}"'), with_summary("/tmp/swimd.sock", "~" * 100))
    signs = "".join(chr(it) for it in range(0x20, 0x7F) if not chr(it).isalnum())
    yield good("all signs", with_value("control", f"'''{signs}'''"), with_summary("/tmp/swimd.sock", signs))
    rows = "".join(f"{id} 10.0.0.2:{id}\n" for id in range(2, 130))
    stdout = SUMMARY_ALONE.replace("journal 1000\nmembers 0", "journal 10000\nmembers 128") + rows
    yield good("128 members", with_value("journal", "10000", ALONE) + numbered_members(2, 128), stdout)
    padding = "#" * (65_536 - len(FULL))
    yield good("as long as may be", FULL + padding, SUMMARY)


def with_keys(lines, document=FULL):
    """The document with these lines in front, where keys of the whole stand."""
    return f"{lines}\n{document}"


def files():
    """The two keys of journal files: their lines stand in the summary where there is a folder."""
    told = lambda dir, keep: with_summary("\nk 1 ", f"\njournal_dir {dir}\nk 1 ").replace(
        "\nmembers", f"\njournal_keep {keep}\nmembers"
    )
    yield good("a folder", with_keys('journal_dir = "/var/lib/swimd"'), told("/var/lib/swimd", 16))
    yield good("a folder, and how many", with_keys('journal_dir = "files"\njournal_keep = 3'), told("files", 3))
    yield good("a folder, and all", with_keys('journal_keep = 0\njournal_dir = "."'), told(".", 0))
    yield good(
        "a folder, and the most", with_keys('journal_dir = " "\njournal_keep = 4294967295'), told(" ", 2**32 - 1)
    )
    yield good("no folder, and how many", with_keys("journal_keep = 3"), SUMMARY)
    yield good("the longest folder", with_keys(f'journal_dir = "{"~" * 100}"'), told("~" * 100, 16))
    for text in ("1", "true", "[]", "{}", "2020-01-01"):
        yield bad(f"`journal_dir` is {text}", with_keys(f"journal_dir = {text}"), "5 journal_dir")
    for text in ('"3"', "3.0", "false", "[3]"):
        yield bad(f"`journal_keep` is {text}", with_keys(f"journal_keep = {text}"), "5 journal_keep")
    for text in ('""', f'"{"x" * 101}"', '"\\t"', '"\\u007f"', '"\u00e9"', '"a\\nb"', '"a\\u0000"'):
        yield bad(f"`journal_dir` is {text[:20]!r}", with_keys(f"journal_dir = {text}"), "6 journal_dir")
    for text in ("-1", "4294967296", "9223372036854775807"):
        yield bad(f"`journal_keep` is {text}", with_keys(f"journal_keep = {text}"), "6 journal_keep")
    yield bad("a folder before how many", with_keys('journal_keep = -1\njournal_dir = ""'), "6 journal_dir")
    yield bad("the range of `last` before a folder", with_keys('journal_dir = ""\nlast = -1'), "6 last")
    yield bad("how many before a member", with_keys("journal_keep = -1", with_member("id = 0")), "6 journal_keep")
    for name in ("journal_dirs", "journal_dir2", "journal-dir", "journal_keeps", "Journal_dir", "journals"):
        yield bad(f"`{name}`", with_keys(f'{name} = "x"'), "3")
    yield bad("a folder of a member", FULL + 'journal_dir = "x"\n', "3")


def times():
    """The key of times in journal files: where it is 1, the line of `journal_keep` ends with it."""
    told = lambda keep: with_summary("\nk 1 ", "\njournal_dir files\nk 1 ").replace(
        "\nmembers", f"\njournal_keep {keep}\nmembers"
    )
    folder = 'journal_dir = "files"\n'
    yield good("milliseconds", with_keys(folder + "journal_ms = 1"), told("16 journal_ms 1"))
    yield good("milliseconds, and how many", with_keys(f"journal_ms = 0x1\n{folder}journal_keep = 3"),
               told("3 journal_ms 1"))
    yield good("seconds", with_keys(folder + "journal_ms = 0"), told("16"))
    yield good("no folder, and milliseconds", with_keys("journal_ms = 1"), SUMMARY)
    for text in ('"1"', "1.0", "true", "[1]"):
        yield bad(f"`journal_ms` is {text}", with_keys(f"journal_ms = {text}"), "5 journal_ms")
    for text in ("-1", "2", "1000", "9223372036854775807"):
        yield bad(f"`journal_ms` is {text}", with_keys(f"journal_ms = {text}"), "6 journal_ms")
    yield bad("how many before milliseconds", with_keys("journal_ms = 2\njournal_keep = -1"), "6 journal_keep")
    yield bad("milliseconds before a member", with_keys("journal_ms = 2", with_member("id = 0")), "6 journal_ms")
    for name in ("journal-ms", "journal_Ms", "journal_mss", "journal_milliseconds", "ms"):
        yield bad(f"`{name}`", with_keys(f"{name} = 1"), "3")
    yield bad("milliseconds of a member", FULL + "journal_ms = 1\n", "3")


def versions():
    """Version 2 stands in the summary, at the end of the line of numbers; version 1, told or not, doesn't."""
    of_2 = with_summary("journal 1000\n", "journal 1000 wire 2\n")
    yield good("version 1", with_keys("wire = 1"), SUMMARY)
    yield good("version 2", with_keys("wire = 2"), of_2)
    for text in ("+2", "0x2", "0b10", "0o2"):
        yield good(f"version {text}", with_keys(f"wire = {text}"), of_2)
    yield good(
        "version 2, and nobody else",
        with_keys("wire = 2", ALONE),
        SUMMARY_ALONE.replace("journal 1000\n", "journal 1000 wire 2\n"),
    )
    files = of_2.replace("\nk 1 ", "\njournal_dir files\nk 1 ").replace("\nmembers", "\njournal_keep 16\nmembers")
    yield good("version 2, and a folder", with_keys('wire = 2\njournal_dir = "files"'), files)
    for text in ("0", "3", "-1", "-2", "256", "9223372036854775807"):
        yield bad(f"`wire` is {text}", with_keys(f"wire = {text}"), "6 wire")
    for text in ('"2"', "2.0", "true", "[2]", "[]", "{}", "{version = 2}", "2020-01-02"):
        yield bad(f"`wire` is {text}", with_keys(f"wire = {text}"), "5 wire")
    yield bad("`wire` is a table", FULL + "\n[wire]\n", "5 wire")
    yield bad("`wire` is an array of tables", FULL + "\n[[wire]]\nversion = 2\n", "5 wire")
    yield bad("`wire` twice", with_keys("wire = 1\nwire = 2"), "2")
    yield bad("the range of `last` before a version", with_keys("wire = 3\nlast = -1"), "6 last")
    yield bad("a version before a folder", with_keys('journal_dir = ""\nwire = 3'), "6 wire")
    yield bad("a version before a member", with_keys("wire = 3", with_member("id = 0")), "6 wire")
    yield bad("a version before the opening", with_keys("wire = 0", with_value("k", "9")), "6 wire")
    for name in ("wires", "wir", "Wire", "wire_", "wire2", "version", "wire-version"):
        yield bad(f"`{name}`", with_keys(f"{name} = 2"), "3")
    yield bad("a version of a member", FULL + "wire = 2\n", "3")


def key_lines(*keys):
    """The lines of the summary that tell these keys by their fingerprints."""
    return "".join(f"key {hashlib.sha256(bytes.fromhex(it)).hexdigest()[:8]}\n" for it in keys)


def group_keys():
    """How many keys there are stands behind the version, and their fingerprints before the members. Where the last
    number isn't given it is the clock's, and isn't told."""
    one, other = "0123456789abcdefABCDEF9876543210" * 2, "f" * 63 + "e"
    told = lambda numbers, *keys: with_summary(" last 0 journal 1000\n", f"{numbers}\n{key_lines(*keys)}")
    yield good("a key", with_keys(f'keys = ["{one}"]'), told(" journal 1000 keys 1", one))
    yield good(
        "two keys, and the last number",
        with_keys(f"keys = ['{one}', '{other}',]\nlast = 7"),
        told(" last 7 journal 1000 keys 2", one, other),
    )
    yield good(
        "a key, and the last number 0",
        with_keys(f'last = 0\nkeys = ["{one}"]'),
        told(" last 0 journal 1000 keys 1", one),
    )
    # by sha256sum
    known = with_summary(" last 0 journal 1000\n", " journal 1000 keys 2\nkey 8f0fcf6e\nkey c4032731\n")
    yield good("fingerprints that are known", with_keys(f"keys = ['{one}', '{other}']"), known)
    lines = f'keys = [ # signs\n  "{other}",\n  # the old ones\n  "{one}", "{one}", """{other}"""\n]\nwire = 2'
    four = told(" journal 1000 wire 2 keys 4", other, one, one, other)
    yield good("four keys, and version 2", with_keys(lines), four)
    files = told(" journal 1000 keys 1", one).replace("\nk 1 ", "\njournal_dir files\nk 1 ").replace(
        "\nkey ", "\njournal_keep 16\nkey "
    )
    yield good("a key, and a folder", with_keys(f'journal_dir = "files"\nkeys = ["{one}"]'), files)
    for text in ("1", "true", f'"{one}"', "{}", "[1]", f'["{one}", 1]', f'[["{one}"]]', "[1, 2, 3, 4, 5]", '["", 1]'):
        yield bad(f"`keys` is {text[:20]}", with_keys(f"keys = {text}"), "5 keys")
    for text in (
        "[]", "['']", f"['{one[1:]}']", f"['{one}0']", f"['{one[1:]}g']", f"['{one} ']", f"['{one}', '0x{other}']"
    ):
        yield bad(f"`keys` is {text[:20]}", with_keys(f"keys = {text}"), "6 keys")
    yield bad("five keys", with_keys("keys = [" + f"'{one}'," * 5 + "]"), "6 keys")
    yield bad("`keys` is a table", FULL + "\n[keys]\n", "5 keys")
    yield bad("`keys` is an array of tables", FULL + "\n[[keys]]\n", "5 keys")
    yield bad("`keys` twice", with_keys(f'keys = ["{one}"]\nkeys = ["{one}"]'), "2")
    yield bad("a version before keys", with_keys("keys = []\nwire = 3"), "6 wire")
    yield bad("keys before a folder", with_keys('journal_dir = ""\nkeys = []'), "6 keys")
    yield bad("keys before a member", with_keys("keys = []", with_member("id = 0")), "6 keys")
    for name in ("key", "Keys", "keyring", "keys_"):
        yield bad(f"`{name}`", with_keys(f'{name} = ["{one}"]'), "3")
    yield bad("keys of a member", FULL + f'keys = ["{one}"]\n', "3")


def fences():
    """How many datagrams a second are handed on stands behind how many keys there are, where it is given."""
    told = lambda fence: with_summary("journal 1000\n", f"journal 1000{fence}\n")
    added = lambda rate: f"a flood of {rate} datagrams a second adds in three rounds"
    flood = lambda rate, entries: f"journal 1000 is shorter than what {added(rate)}, {entries} entries"
    # three rounds of two periods of three seconds
    yield good("a fence", with_keys("fence = 500"), told(" fence 500"), flood(500, 9_000))
    yield good("no fence", with_keys("fence = 0"), told(" fence 0"))
    yield good(
        "the fence that goes without saying", with_keys("fence = 1000"), told(" fence 1000"), flood(1_000, 18_000)
    )
    yield good("a flood that just fits", with_keys("fence = 55"), told(" fence 55"))
    yield good("a flood that just doesn't fit", with_keys("fence = 56"), told(" fence 56"), flood(56, 1_008))
    for text in ("1_0", "0xa", "+10", "0b1010"):
        yield good(f"a fence of {text}", with_keys(f"fence = {text}"), told(" fence 10"))
    yield good(
        "the highest fence",
        with_keys("fence = 4294967295"),
        told(" fence 4294967295"),
        flood(4294967295, 77_309_411_310),
    )
    one = "0123456789abcdefABCDEF9876543210" * 2
    among = with_summary(" last 0 journal 1000\n", f" journal 1000 wire 2 keys 1 fence 7\n{key_lines(one)}")
    yield good("a fence, a key and version 2", with_keys(f'fence = 7\nkeys = ["{one}"]\nwire = 2'), among)
    files = told(" fence 7").replace("\nk 1 ", "\njournal_dir files\nk 1 ").replace(
        "\nmembers", "\njournal_keep 16\nmembers"
    )
    yield good("a fence, and a folder", with_keys('journal_dir = "files"\nfence = 7'), files)
    for text in ("-1", "4294967296", "9223372036854775807", "-9223372036854775808"):
        yield bad(f"`fence` is {text}", with_keys(f"fence = {text}"), "6 fence")
    for text in ('"1000"', "1000.0", "true", "[1000]", "[]", "{}", "{rate = 2}", "2020-01-02"):
        yield bad(f"`fence` is {text}", with_keys(f"fence = {text}"), "5 fence")
    yield bad("`fence` is a table", FULL + "\n[fence]\n", "5 fence")
    yield bad("`fence` is an array of tables", FULL + "\n[[fence]]\nrate = 2\n", "5 fence")
    yield bad("`fence` twice", with_keys("fence = 1\nfence = 1"), "2")
    yield bad("keys before a fence", with_keys("fence = -1\nkeys = []"), "6 keys")
    yield bad("a fence before a folder", with_keys('journal_dir = ""\nfence = -1'), "6 fence")
    yield bad("a fence before a member", with_keys("fence = -1", with_member("id = 0")), "6 fence")
    for name in ("fences", "fenc", "Fence", "fence_", "fense", "rate", "fence-rate"):
        yield bad(f"`{name}`", with_keys(f"{name} = 2"), "3")
    yield bad("a fence of a member", FULL + "fence = 2\n", "3")


def texts():
    yield bad("a byte too many", FULL + "#" * (65_537 - len(FULL)), "1")
    yield bad("a byte too many, and no TOML", "=" * 65_537, "1")
    yield bad("no TOML", "id\n", "2")
    yield bad("a key twice", FULL.replace("k = 1\n", "k = 1\nk = 1\n"), "2")
    yield bad("an integer of no 64 bits", "last = 9223372036854775808\n" + FULL, "2")
    yield bad("no UTF-8", FULL.encode().replace(b"/tmp", b"/\xff"), "2")
    yield bad("a NUL", FULL.encode() + b"\x00", "2")
    yield bad("no document at all", "", "4 id")
    yield bad("a comment alone", "# nothing\n", "4 id")


def keys():
    yield bad("an unknown key", "name = 1\n" + FULL, "3")
    yield bad("an unknown key, and a missing one", replaced(LINES["id"], "name = 1"), "3")
    yield bad("an unknown table", FULL + "\n[more]\n", "3")
    yield bad("a key of another case", replaced(LINES["k"], "K = 1"), "3")
    for key, line in LINES.items():
        yield bad(f"no `{key}`", replaced(line, ""), f"4 {key}")
        other = '"1"' if line[-1] != '"' else "1"
        yield bad(f"`{key}` of another kind", with_value(key, other), f"5 {key}")
    for key, text in {"rtt": "1.0", "k": "true", "id": "2020-01-01", "seed": "[]", "listen": "{}"}.items():
        yield bad(f"`{key}` is {text}", with_value(key, text), f"5 {key}")
    yield bad("`last` of another kind", "last = false\n" + FULL, "5 last")
    yield bad("two missing", replaced(LINES["rtt"], "", replaced(LINES["seed"], "")), "4 rtt")
    yield bad("a kind before what is missing", with_value("listen", "1", replaced(LINES["k"], "")), "5 listen")
    yield bad("what is missing before a kind", with_value("k", "''", replaced(LINES["listen"], "")), "4 listen")


def ranges():
    beyond = {
        "id": ["0", "-1", "4294967296"],
        "k": ["-1", "4294967296"],
        "rtt": ["-1", "4294967296"],
        "period": ["-1", "4294967296"],
        "tick_ms": ["0", "60001"],
        "journal": ["0", "1000001", "-9223372036854775808"],
        "control": ['""', f'"{"x" * 101}"', '"\\t"', '"\\u007f"', '"\u00e9"', '"a\\nb"'],
    }
    for key, texts_of_key in beyond.items():
        for text in texts_of_key:
            yield bad(f"`{key}` is {text[:20]!r}", with_value(key, text), f"6 {key}")
    yield bad("`last` below 0", "last = -1\n" + FULL, "6 last")
    for text in ("", "10.0.0.1", "10.0.0.01:7000", "256.0.0.1:1", "1.2.3.4:0", "1.2.3.4:65536", "1.2.3.4:05", "::1:5"):
        yield bad(f"`listen` is {text!r}", with_value("listen", f'"{text}"'), "7 listen")
    for text in ("", ZEROS[1:], ZEROS + "0", ZEROS[1:] + "g", ZEROS[2:] + "\\u0661"):
        yield bad(f"a seed of {len(text)} characters", with_value("seed", f'"{text}"'), "8 seed")
    yield bad("two out of range", with_value("journal", "0", with_value("tick_ms", "0")), "6 tick_ms")


def members():
    for text in ("1", '"x"', "{}", "[1]", '[{id = 2, at = "10.0.0.2:7000"}, 2]', "[[]]"):
        yield bad(f"`member` is {text}", f"{ALONE}member = {text}\n", "5 member")
    yield bad("`member` is a table", ALONE + '\n[member]\nid = 2\nat = "10.0.0.2:7000"\n', "5 member")
    yield bad("no address", with_member("id = 2"), "4 member.at")
    yield bad("no id", with_member('at = "10.0.0.2:7000"'), "4 member.id")
    yield bad("nothing of a member", with_member(""), "4 member.id")
    yield bad("an id of another kind", with_member('id = "2"\nat = "10.0.0.2:7000"'), "5 member.id")
    yield bad("an address of another kind", with_member("id = 2\nat = 10"), "5 member.at")
    yield bad("an id out of range", with_member('id = 0\nat = "10.0.0.2:7000"'), "6 member.id")
    yield bad("a refused address", with_member('id = 2\nat = "10.0.0.2"'), "7 member.at")
    yield bad("an unknown key of a member", with_member('id = 0\nat = "10.0.0.2:7000"\nport = 1'), "3")
    first, second = 'id = 2\nat = "x"', 'id = 3\nat = "10.0.0.3:7000"\nport = 1'
    yield bad(
        "the first member's fault, and the second's key", with_member(first + "\n[[member]]\n" + second), "7 member.at"
    )
    yield bad("a member's key before another's fault", with_member(second + "\n[[member]]\n" + first), "3")
    yield bad("a member, and the range of `last`", "last = -1\n" + with_member("id = 0"), "6 last")
    yield bad("a member that is none, and a seed", with_value("seed", '""', ALONE) + "member = 1\n", "8 seed")


def openings():
    yield bad("too many relays", with_value("k", "9"), "9 1")
    yield bad("no timeout", with_value("rtt", "0"), "9 2")
    yield bad("a short period", with_value("period", "2"), "9 2")
    yield bad("a long period", with_value("period", "65536"), "9 2")
    yield bad("relays before times", with_value("k", "9", with_value("rtt", "0")), "9 1")
    yield bad("129 members", ALONE + numbered_members(2, 129), "9 3")
    yield bad("this member", with_member('id = 1\nat = "10.0.0.2:7000"'), "9 4")
    yield bad("a member twice", ALONE + numbered_members(2, 3) + numbered_members(4, 1), "9 5")
    yield bad("this member, and another twice", ALONE + numbered_members(1, 2) + numbered_members(2, 1), "9 4")
    yield bad("the opening, and a member's fault", with_value("k", "9", with_member("id = 2")), "4 member.at")


def worked_configs():
    for part in (accepted, files, times, versions, group_keys, fences, texts, keys, ranges, members, openings):
        yield from part()
