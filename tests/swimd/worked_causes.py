"""What `swimd check` has to write on standard error of configurations, whole: below the line of a fault what was
expected and what stood there, and the warnings of what can't work. All is worked out by hand from docs/FORMATS.md.

`worked_causes()` gives (name, document, standard output, standard error, status), as `worked_configs()` does.
"""

from tests.swimd.worked_configs import ALONE, FULL, SEED, SUMMARY, SUMMARY_ALONE
from tests.swimd.worked_configs import LINES, REJOIN, WIRE, good, key_lines, numbered_members, replaced
from tests.swimd.worked_configs import with_keys, with_member, with_value


def caused(name, document, fault, *lines):
    text = document if isinstance(document, bytes) else document.encode()
    return name, text, b"", "".join(
        f"{it}\n" for it in [f"configuration {fault}", *(f"  {it}" for it in lines)]
    ).encode(), 1


def texts():
    yield caused("a byte too many", FULL + "#" * (65_537 - len(FULL)), "1", "expected: at most 65536 bytes")
    toml = "expected: a TOML document, in UTF-8"
    why = "line 4, column 5: invalid value, expected a string, number, boolean, date-time, array or inline table"
    yield caused("no value", replaced("k = 1", "k = tru"), "2", toml, why, "line 4: k = tru")
    latin = FULL.encode().replace(b"/tmp", b"/\xff\x1b")
    yield caused("no UTF-8", latin, "2", toml, "line 3, column 13: invalid UTF-8", 'line 3: control = "/??/swimd.sock"')


def keys():
    unknown = replaced(LINES["tick_ms"], "tick-ms = 1000")
    yield caused(
        "an unknown key", unknown, "3", "found: tick-ms; the nearest known key: tick_ms", "line 7: tick-ms = 1000"
    )
    table = FULL + "\n[[jurnal]]\nsize = 3\n"
    yield caused("an unknown table", table, "3", "found: jurnal; the nearest known key: journal", "line 19: [[jurnal]]")
    near = {"journal_dirs": "journal_dir", "journal-keep": "journal_keep", "journals": "journal"}
    near["journal_mss"] = "journal_ms"
    near.update(wires="wire", wir="wire", Wire="wire", wier="wire")
    near.update(
        fences="fence", fenc="fence", Fence="fence", fnece="fence", event="events", Events="events", evetns="events"
    )
    near.update(rejoins="rejoin", rejion="rejoin", Rejoin="rejoin")
    near.update(control_mod="control_mode", event_mode="events_mode", mode="id")
    for name, known in near.items():
        found = f"found: {name}; the nearest known key: {known}"
        yield caused(f"`{name}`", with_keys(f"{name} = 1"), "3", found, f"line 1: {name} = 1")
    quoted = replaced(LINES["k"], '"k\\u001b" = 1')
    yield caused(
        "an unknown key with a sign", quoted, "3", "found: k?; the nearest known key: k", 'line 4: "k\\u001b" = 1'
    )
    more = with_member('id = 2\nat = "10.0.0.2:7000"\nadress = 3')
    yield caused(
        "an unknown key of a member", more, "3", "found: adress; the nearest known key: id", "line 14: adress = 3"
    )
    for line in ("rejoin = 3", "journal_dir = '/tmp'", "k = 1", "member = []"):
        found = f"found: {line.split()[0]}; it stands below [[member]]: move it up"
        yield caused(f"`{line}` of a member", f"{FULL}{line}\n", "3", found, f"line 18: {line}")
    inline = ALONE + "member = [{id = 3, rejoin = 3}]\n"
    found = "found: rejoin; it stands below [[member]]: move it up"
    yield caused("`rejoin` of a member in a line", inline, "3", found, "line 10: member = [{id = 3, rejoin = 3}]")


def values():
    port = "expected: a string IP:PORT, as 10.0.0.1:7000 (where its datagrams come in)"
    yield caused("no `listen`", replaced(LINES["listen"], ""), "4 listen", port, "found: no such key")
    yield caused(
        "a name", with_value("listen", '"localhost:7000"'), "7 listen", port, 'line 2: listen = "localhost:7000"'
    )
    tick = "expected: an integer from 1 to 60000 (milliseconds of a tick)"
    yield caused("no tick", with_value("tick_ms", "0 # none"), "6 tick_ms", tick, "line 7: tick_ms = 0 # none")
    yield caused("a tick in quotes", with_value("tick_ms", '"1000"'), "5 tick_ms", tick, 'line 7: tick_ms = "1000"')
    path = "expected: a string of 1 to 100 characters of ASCII that print (the path of the control socket)"
    yield caused("no path", with_value("control", '""'), "6 control", path, 'line 3: control = ""')
    seed = "expected: a string of 64 hexadecimal digits (what orders and places are drawn from)"
    yield caused("a short seed", with_value("seed", '"12"'), "8 seed", seed, 'line 8: seed = "12"')
    relays = "expected: an integer from 0 to 4294967295 (how many relays are asked, at most 8)"
    yield caused("fewer than no relays", with_value("k", "-1"), "6 k", relays, "line 4: k = -1")
    rtt = "expected: an integer from 0 to 4294967295 (ticks for which a direct ack is waited for, at least 1)"
    yield caused("no integer", with_value("rtt", "1.5"), "5 rtt", rtt, "line 5: rtt = 1.5")
    period = "expected: an integer from 0 to 4294967295 (ticks of a period, from three times rtt to 65535)"
    yield caused("no `period`", replaced(LINES["period"], ""), "4 period", period, "found: no such key")
    me = "expected: an integer from 1 to 4294967295 (this member)"
    yield caused("member 0", with_value("id", "0"), "6 id", me, "line 1: id = 0")
    journal = "expected: an integer from 1 to 1000000 (the most entries of the journal)"
    yield caused(
        "a long journal", with_value("journal", "1_000_001"), "6 journal", journal, "line 9: journal = 1_000_001"
    )
    last = "expected: an integer from 0 to 9223372036854775807 (the last period number that was used before)"
    yield caused("`last` below 0", "\n last= -1\n" + FULL, "6 last", last, "line 2:  last= -1")
    version = "expected: an integer from 1 to 2 (the version of its own pings and ping-reqs)"
    yield caused("version 3", with_keys("wire = 3"), "6 wire", version, "line 1: wire = 3")
    yield caused("version 0", with_keys("\nwire = 0 # none"), "6 wire", version, "line 2: wire = 0 # none")
    yield caused("a version in quotes", with_keys('wire = "2"'), "5 wire", version, 'line 1: wire = "2"')
    yield caused("a version that is a table", FULL + "\n[wire]\n", "5 wire", version, "line 19: [wire]")
    fence = "expected: an integer from 0 to 4294967295 (datagrams a second of an address, 0 for all)"
    yield caused("less than no fence", with_keys("fence = -1"), "6 fence", fence, "line 1: fence = -1")
    yield caused(
        "a fence in quotes", with_keys('\nfence = "7" # a second'), "5 fence", fence, 'line 2: fence = "7" # a second'
    )
    rejoin = "expected: an integer from 0 to 65535 (periods between knocks at failed members, 0 for none)"
    yield caused("less than no knocks", with_keys("rejoin = -1"), "6 rejoin", rejoin, "line 1: rejoin = -1")
    yield caused("too few knocks", with_keys("\nrejoin = 65_536"), "6 rejoin", rejoin, "line 2: rejoin = 65_536")
    yield caused("knocks in quotes", with_keys('rejoin = "3"'), "5 rejoin", rejoin, 'line 1: rejoin = "3"')
    path = "expected: a string of 1 to 100 characters of ASCII that print"
    path += " (the path of the events' socket, not that of control)"
    yield caused("no path of events", with_keys('events = ""'), "6 events", path, 'line 1: events = ""')
    yield caused("many paths of events", with_keys("events = [\n]"), "5 events", path, "line 1: events = [")
    both = FULL.replace("k = 1\n", "k = 1\nevents = '/tmp/swimd.sock'\n")
    yield caused("events on the control socket", both, "6 events", path, "line 5: events = '/tmp/swimd.sock'")
    form = "expected: a string of a 0 and 3 octal digits, as 0660"
    for key, socket in (("control_mode", "the control socket"), ("events_mode", "the events' socket")):
        mode = f"{form} (the mode of {socket})"
        yield caused(f"no 0 of `{key}`", with_keys(f'{key} = "660"'), f"6 {key}", mode, f'line 1: {key} = "660"')
        number = with_keys(f"\n{key} = 0o660 # a number")
        yield caused(f"a number as `{key}`", number, f"5 {key}", mode, f"line 2: {key} = 0o660 # a number")
        found = f"found: {key}; it stands below [[member]]: move it up"
        below = f"{FULL}{key} = '0660'\n"
        yield caused(f"`{key}` of a member", below, "3", found, f"line 18: {key} = '0660'")
    folder = "expected: a string of 1 to 100 characters of ASCII that print"
    folder += " (the folder of the journal files, not the path of another key)"
    yield caused("no folder", with_keys('journal_dir = ""'), "6 journal_dir", folder, 'line 1: journal_dir = ""')
    yield caused(
        "a folder in two lines",
        with_keys('journal_dir = "a\\nb"'),
        "6 journal_dir",
        folder,
        'line 1: journal_dir = "a\\nb"',
    )
    yield caused("many folders", with_keys("journal_dir = [\n]"), "5 journal_dir", folder, "line 1: journal_dir = [")
    keep = "expected: an integer from 0 to 4294967295 (how many journal files stay, 0 for all)"
    yield caused(
        "fewer than none", with_keys("\njournal_keep = -1"), "6 journal_keep", keep, "line 2: journal_keep = -1"
    )
    yield caused(
        "files in quotes", with_keys('journal_keep = "1"'), "5 journal_keep", keep, 'line 1: journal_keep = "1"'
    )
    times = "expected: an integer from 0 to 1 (times in journal files: 0 in seconds, 1 with milliseconds)"
    yield caused("a unit too many", with_keys("\njournal_ms = 2"), "6 journal_ms", times, "line 2: journal_ms = 2")
    yield caused("a unit in words", with_keys("journal_ms = 'ms'"), "5 journal_ms", times, "line 1: journal_ms = 'ms'")
    text = with_value("control", '"""\\\nlisten = 1"""', replaced(LINES["listen"], "")) + ""
    hidden = text.replace("k = 1\n", "listen = 2 # \u00e9\nk = 1\n")
    yield caused("a key within a text", hidden, "5 listen", port, "line 4: listen = 2 # ??")


def other_paths():
    """A folder that is the path of another key, byte for byte, is a fault; it comes in its turn."""
    folder = "expected: a string of 1 to 100 characters of ASCII that print"
    folder += " (the folder of the journal files, not the path of another key)"
    at = lambda path, lines="": with_keys(f"{lines}journal_dir = '{path}'")
    dir = lambda path, line=1: (folder, f"line {line}: journal_dir = '{path}'")
    yield caused("a folder at control", at("/tmp/swimd.sock"), "6 journal_dir", *dir("/tmp/swimd.sock"))
    yield caused("a folder at events", at("/e", "events = '/e'\n"), "6 journal_dir", *dir("/e", 2))
    yield caused("a folder at metrics", at("/m", "metrics = '/m'\n"), "6 journal_dir", *dir("/m", 2))
    both = at("/m", "events = '/e'\nmetrics = '/m'\n")
    yield caused("a folder at metrics, beside events", both, "6 journal_dir", *dir("/m", 3))
    rejoin = "expected: an integer from 0 to 65535 (periods between knocks at failed members, 0 for none)"
    before = at("/e", "rejoin = -1\nevents = '/e'\n")
    yield caused("`rejoin` before it", before, "6 rejoin", rejoin, "line 1: rejoin = -1")
    keep = at("/e", "journal_keep = -1\nevents = '/e'\n")
    yield caused("`journal_keep` behind it", keep, "6 journal_dir", *dir("/e", 3))


def hidden_keys():
    """No digit of a key is shown, whatever the fault is; nor that of another value in such a document."""
    key, form = "00112233445566778899aabbccddeeff" * 2, "expected: an array of 1 to 4 strings of 64 hexadecimal digits"
    form += " (the keys of the group, of which the first signs)"
    one = f'keys = ["{key}"]'
    yield caused("keys that are none", with_keys("keys = 7"), "5 keys", form, "line 1: keys = 7")
    yield caused("a key without brackets", with_keys(f'keys = "{key}"'), "5 keys", form, 'line 1: keys = ".."')
    yield caused("a number among keys", with_keys(f"keys = ['{key}',7]"), "5 keys", form, "line 1: keys = ['..',7]")
    yield caused("no keys", with_keys("\nkeys = [] # none"), "6 keys", form, "line 2: keys = [] # none")
    yield caused("a short key", with_keys(f'keys = ["{key[1:]}"]'), "6 keys", form, 'line 1: keys = [".."]')
    yield caused(
        "an O in a key", with_keys(f'keys = ["{key[:32]}O{key[33:]}"]'), "6 keys", form, 'line 1: keys = [".."]'
    )
    yield caused("a key with colons", with_keys(f'keys = ["{":".join(key)}"]'), "6 keys", form, 'line 1: keys = [".."]')
    yield caused("keys in lines", with_keys(f'keys = [\n"{key}",\n"{key}0",\n]'), "6 keys", form, "line 1: keys = [")
    near = lambda name, known: f"found: {name}; the nearest known key: {known}"
    yield caused("`key`", with_keys(f'key = ["{key}"]'), "3", near("key", "keys"), 'line 1: key = [".."]')
    yield caused("`kesy`", with_keys(f'kesy = ["{key}"]'), "3", near("kesy", "keys"), 'line 1: kesy = [".."]')
    of_member = FULL + f"keys = ['{key}']\n"
    above = "found: keys; it stands below [[member]]: move it up"
    yield caused("keys of a member", of_member, "3", above, "line 18: keys = ['..']")
    seed = "expected: a string of 64 hexadecimal digits (what orders and places are drawn from)"
    short = with_value("seed", f'"{SEED[1:]}"')
    yield caused("a seed beside keys", with_keys(one, short), "8 seed", seed, 'line 9: seed = ".."')
    yield caused("a seed without keys", with_keys("# none", short), "8 seed", seed, 'line 9: seed = ".."')
    tick = "expected: an integer from 1 to 60000 (milliseconds of a tick)"
    remark = with_keys(one, with_value("tick_ms", f"0 # key {key}"))
    yield caused("a key in a comment", remark, "6 tick_ms", tick, "line 8: tick_ms = 0 #..")
    toml = "expected: a TOML document, in UTF-8"
    why = "invalid value, expected a string, number, boolean, date-time, array or inline table"
    bare = with_keys(f"keys = [\n  x{key}\n]")
    yield caused("a key without quotes", bare, "2", toml, f"line 2, column 3: {why}", "line 2: ..")


def hidden_digits():
    """Nor is one where nothing is called a key. 12 hexadecimal digits in a row are shown as the value of a number
    alone."""
    key = "00112233445566778899AABBCCDDEEFF" * 2
    near = lambda name, known: f"found: {name}; the nearest known key: {known}"
    for name, known in {"secret": "seed", "psk": "k", "password": "period", "token": "listen", "ksy": "k"}.items():
        yield caused(f"`{name}`", with_keys(f'{name} = "{key}"'), "3", near(name, known), f'line 1: {name} = ".."')
    me = "expected: an integer from 1 to 4294967295 (this member)"
    yield caused("a key as an id", with_value("id", f"'{key}'"), "5 id", me, "line 1: id = '..'")
    yield caused("twelve digits as an id", with_value("id", '"123456789012"'), "5 id", me, 'line 1: id = ".."')
    yield caused("eleven", with_value("id", '"12345678901"'), "5 id", me, 'line 1: id = "12345678901"')
    yield caused("twelve of either case", with_value("id", '"0aAbBcCdDeE9"'), "5 id", me, 'line 1: id = ".."')
    yield caused("twelve and more", with_value("id", '"x0123456789abcz-0"'), "5 id", me, 'line 1: id = "x..z-0"')
    twice = '"12345678901 12345678901"'
    yield caused("eleven twice", with_value("id", twice), "5 id", me, f"line 1: id = {twice}")
    # the value of a number
    yield caused("a long id", with_value("id", "123456789012"), "6 id", me, "line 1: id = 123456789012")
    yield caused("the least id", with_value("id", f"-{2**63}"), "6 id", me, "line 1: id = -9223372036854775808")
    more = with_value("id", "  1234567890123 # 1234567890123")
    yield caused("a long id, and a remark", more, "6 id", me, "line 1: id =   1234567890123 # ..")
    yield caused("a long id of base 16", with_value("id", "0x123456789abc"), "6 id", me, "line 1: id = 0x..")
    remark = "# of 2026-11-28, "
    yield caused(
        "a remark", with_value("id", f"0 {remark}0123456789abcdef"), "6 id", me, f"line 1: id = 0 {remark}.."
    )
    toml = "expected: a TOML document, in UTF-8"
    latin = f'psk = "{key}\xe9"\n{FULL}'.encode("latin-1")
    why = "line 1, column 72: invalid UTF-8"
    yield caused("a Latin-1 byte behind a key", latin, "2", toml, why, 'line 1: psk = ".."')
    alone = f'psk = "\xe9{key[:30]}"\n{FULL}'.encode("latin-1")
    yield caused("and one before it", alone, "2", toml, "line 1, column 8: invalid UTF-8", 'line 1: psk = "?.."')
    # of the 152 characters for which there is room these are 147
    front = "-" * 141
    last = lambda digits: with_value("id", f'"{front}{digits}"')
    yield caused("twelve at the end", last("0123456789ab"), "5 id", me, f'line 1: id = "{front}.."')
    yield caused("eleven at the end", last("0123456789a"), "5 id", me, f'line 1: id = "{front}01234')


def members():
    all_of_them = "expected: an array of tables, each with id and at (the other members, at most 128)"
    yield caused("`member` is a number", ALONE + "member = 1\n", "5 member", all_of_them, "line 10: member = 1")
    table = ALONE + '\n[member]\nid = 2\nat = "10.0.0.2:7000"\n'
    yield caused("`member` is a table", table, "5 member", all_of_them, "line 11: [member]")
    at = "expected: a string IP:PORT, as 10.0.0.1:7000 (where another member listens)"
    second = FULL.replace('at = "10.0.0.2:7000"\n', "")
    yield caused("the second has no address", second, "4 member.at", at, "found: no such key", "line 15: [[member]]")
    other = FULL.replace('"10.0.0.2:7000"', '"10.0.0.2"')
    yield caused("the second's address", other, "7 member.at", at, 'line 17: at = "10.0.0.2"')
    id = "expected: an integer from 1 to 4294967295 (another member)"
    yield caused("the first's id", FULL.replace("id = 3", "id = 0"), "6 member.id", id, "line 12: id = 0")
    inline = ALONE + 'member = [{id = 0, at = "10.0.0.2:7000"}]\n'
    yield caused("members in one line", inline, "6 member.id", id, 'line 10: member = [{id = 0, at = "10.0.0.2:7000"}]')


def openings():
    yield caused("too many relays", with_value("k", "9"), "9 1", "expected: k of at most 8", "line 4: k = 9")
    times = "expected: rtt of at least 1, and period from three times rtt to 65535"
    yield caused("a short period", with_value("period", "2"), "9 2", times, "line 5: rtt = 1", "line 6: period = 2")
    many = ALONE + numbered_members(2, 129)
    yield caused("129 members", many, "9 3", "expected: at most 128 members", "line 523: [[member]]")
    own = with_member('id = 1\nat = "10.0.0.2:7000"')
    same = "expected: members with other ids than this one"
    yield caused("this member", own, "9 4", same, "line 1: id = 1", "line 12: id = 1")
    twice = ALONE + numbered_members(2, 3) + numbered_members(3, 1)
    yield caused("a member twice", twice, "9 5", "expected: each member once", "line 16: id = 3", "line 24: id = 3")


def warnings():
    # a round of two members: 2 periods of 3 + 2 entries, and 2 entries for each
    short = "journal 41 is shorter than three rounds, which take 42 entries"
    yield good("a short journal", with_value("journal", "41"), SUMMARY.replace("journal 1000", "journal 41"), short)
    yield good(
        "a journal of three rounds", with_value("journal", "42"), SUMMARY.replace("journal 1000", "journal 42")
    )
    told = lambda journal, fence: SUMMARY.replace("journal 1000", f"journal {journal} fence {fence}")
    fenced = lambda journal, fence, document=FULL: with_keys(
        f"fence = {fence}", with_value("journal", journal, document)
    )
    # three rounds of two members last six periods of 3 seconds
    flood = "journal {} is shorter than what a flood of {} datagrams a second adds in three rounds, {} entries"
    yield good("a journal of 18 seconds", fenced("18000", "1000"), told("18000", "1000"))
    yield good("an entry less", fenced("17999", "1000"), told("17999", "1000"), flood.format(17_999, 1_000, 18_000))
    unsaid = SUMMARY.replace("journal 1000", "journal 17999")
    yield good("the same unsaid", with_value("journal", "17999"), unsaid)
    yield good("a fence of one", fenced("18", "1"), told("18", "1"), short.replace("41", "18"))
    both = [short.replace("41", "17"), flood.format(17, 1, 18)]
    yield good("a fence of one, and an entry less", fenced("17", "1"), told("17", "1"), *both)
    # 6 periods of 3 ticks of 7 milliseconds, so 126 milliseconds, in which 15 datagrams a second are 1.89
    quick = lambda journal: fenced(journal, "15", with_value("tick_ms", "7"))
    quickly = lambda journal: told(journal, "15").replace("tick_ms 1000", "tick_ms 7")
    waits = ["rtt has 7 milliseconds, which is below 10", "rtt is one tick of 7 milliseconds, which is below 20"]
    few = [short.replace("41", "1"), flood.format(1, 15, 2)]
    yield good("a part of an entry", quick("1"), quickly("1"), *few, *waits)
    yield good("no part of an entry", quick("2"), quickly("2"), short.replace("41", "2"), *waits)
    alone = with_keys("fence = 4294967295", with_value("journal", "1", ALONE))
    yield good(
        "a fence, and nobody is listed", alone, SUMMARY_ALONE.replace("journal 1000", "journal 1 fence 4294967295")
    )
    own = FULL.replace("10.0.0.3:7000", "10.0.0.1:7000")
    wanted = SUMMARY.replace("10.0.0.3:7000", "10.0.0.1:7000")
    yield good("its own address", own, wanted, "member 3 is at this member's own address, 10.0.0.1:7000")
    one = FULL.replace("10.0.0.3:7000", "10.0.0.2:7000")
    wanted = SUMMARY.replace("10.0.0.3:7000", "10.0.0.2:7000")
    yield good("one address", one, wanted, "members 3 and 2 are at one address, 10.0.0.2:7000")
    other_port = FULL.replace("10.0.0.3:7000", "10.0.0.2:7001")
    yield good("one IP, and two ports", other_port, SUMMARY.replace("10.0.0.3:7000", "10.0.0.2:7001"))
    few = "k 2 is greater than the members that could relay, 1"
    yield good("few relays", with_value("k", "2"), SUMMARY.replace("k 1 ", "k 2 "), few)
    yield good("nobody is listed", with_value("k", "8", ALONE), SUMMARY_ALONE.replace("k 1 ", "k 8 "))
    long = with_value("period", "1441", with_value("tick_ms", "60000", with_value("journal", "100000")))
    wanted = SUMMARY.replace(
        "period 3 tick_ms 1000 last 0 journal 1000", "period 1441 tick_ms 60000 last 0 journal 100000"
    )
    yield good("more than a day", long, wanted, "a period has 86460000 milliseconds, which is beyond a day")
    yield good("a day", long.replace("1441", "1440"), wanted.replace("1441", "1440"))
    ticks = lambda rtt, tick_ms: with_value("rtt", rtt, with_value("period", "9", with_value("tick_ms", tick_ms)))
    numbers = lambda rtt, tick_ms: SUMMARY.replace(
        "rtt 1 period 3 tick_ms 1000", f"rtt {rtt} period 9 tick_ms {tick_ms}"
    )
    waits = "rtt has {} milliseconds, which is below 10"
    yield good("an rtt of nine milliseconds", ticks("3", "3"), numbers(3, 3), waits.format(9))
    yield good("an rtt of ten in two ticks", ticks("2", "5"), numbers(2, 5))
    one = "rtt is one tick of {} milliseconds, which is below 20"
    yield good("one tick of 19", ticks("1", "19"), numbers(1, 19), one.format(19))
    yield good("one tick of 20", ticks("1", "20"), numbers(1, 20))
    yield good("one tick of nine", ticks("1", "9"), numbers(1, 9), waits.format(9), one.format(9))
    three = with_value("k", "0", ALONE) + numbered_members(2, 3)
    told_of = lambda count: SUMMARY_ALONE.replace("k 1 ", "k 0 ").replace("members 0", f"members {count}") + "".join(
        f"{id} 10.0.0.2:{id}\n" for id in range(2, 2 + count)
    )
    nobody = "k is 0, so that none of 3 members is asked to relay"
    yield good("three members and no relay", three, told_of(3), nobody)
    yield good("two", with_value("k", "0", ALONE) + numbered_members(2, 2), told_of(2))
    yield from verdicts()
    plain = with_value("seed", '"' + "a5" * 32 + '"')
    yield good("one byte", plain, SUMMARY, "seed is one byte again and again, which anybody may guess")
    yield good("one digit but the last", with_value("seed", '"' + "1" * 63 + '2"'), SUMMARY)
    told = lambda *keys: SUMMARY.replace(
        " last 0 journal 1000\n", f" journal 1000 keys {len(keys)}\n{key_lines(*keys)}"
    )
    plain_key = "a key of the group is one byte again and again, which anybody may guess"
    yield good("a key of zeros", with_keys(f"keys = ['{'0' * 64}']"), told("0" * 64), plain_key)
    yield good("the second key", with_keys(f"keys = ['{SEED}', '{'aA' * 32}']"), told(SEED, "aa" * 32), plain_key)
    two = with_keys(f"keys = ['{'00' * 32}', '{'11' * 32}']")
    yield good("two such keys", two, told("00" * 32, "11" * 32), plain_key)
    yield good("a key of 16 bytes again", with_keys(f"keys = ['{'5c' * 16}{'5d' * 16}']"), told("5c" * 16 + "5d" * 16))
    yield good("one byte but the last", with_keys(f"keys = ['{'5c' * 31}5d']"), told("5c" * 31 + "5d"))
    both = with_keys(f"keys = ['{'0' * 64}']", plain)
    plain_seed = "seed is one byte again and again, which anybody may guess"
    yield good("a seed and a key", both, told("0" * 64), plain_seed, plain_key)
    folder = SUMMARY.replace("\nk 1 ", "\njournal_dir /tmp/swimd.sock/\nk 1 ")
    folder = folder.replace("\nmembers", "\njournal_keep 16\nmembers")
    yield good("a folder that is spelt otherwise", with_keys("journal_dir = '/tmp/swimd.sock/'"), folder)


def verdicts():
    """All warnings of a few configurations, word for word."""
    said = lambda *lines: "".join(f"warning: {it}\n" for it in lines).encode()
    told = lambda more, k="k 1 ", whole=SUMMARY: whole.replace("k 1 ", k).replace(
        "journal 1000\n", f"journal 1000{more}\n"
    ).encode()
    for name, lines, numbers, wanted in (
        ("neither", "# none", "", [WIRE, REJOIN]),
        ("version 1 and no knocks", "wire = 1\nrejoin = 0", " rejoin 0", [WIRE, REJOIN]),
        ("version 2", "wire = 2", " wire 2", [REJOIN]),
        ("knocks", "rejoin = 1", " rejoin 1", [WIRE]),
        ("both", "wire = 2\nrejoin = 3", " wire 2 rejoin 3", []),
    ):
        yield f"`wire` and `rejoin`: {name}", with_keys(lines).encode(), told(numbers), said(*wanted), 0
    no_relays = with_value("k", "0")
    yield "version 1 and no relays", no_relays.encode(), told("", "k 0 "), said(REJOIN), 0
    yield "nobody to bring back", ALONE.encode(), told("", whole=SUMMARY_ALONE), said(WIRE), 0


def worked_causes():
    for part in (texts, keys, values, other_paths, hidden_keys, hidden_digits, members, openings, warnings):
        yield from part()
