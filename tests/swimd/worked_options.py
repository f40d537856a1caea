"""Configurations with keys that may be left out: how often failed members are knocked at, the paths of the events'
socket and of the metrics' file, and the modes of the sockets. What is taken, where it stands in a summary, and faults,
all worked out by hand."""

from tests.swimd.worked_configs import FULL, bad, good, key_lines
from tests.swimd.worked_configs import with_keys, with_member, with_summary, with_value


def rejoins():
    """How often failed members are knocked at stands behind how many datagrams a second are handed on, where it is
    given."""
    told = lambda rejoin: with_summary("journal 1000\n", f"journal 1000{rejoin}\n")
    yield good("knocks", with_keys("rejoin = 3"), told(" rejoin 3"))
    yield good("no knocks", with_keys("rejoin = 0"), told(" rejoin 0"))
    yield good("the rarest knocks", with_keys("rejoin = 65535"), told(" rejoin 65535"))
    for text in ("1_0", "0xa", "+10", "0b1010"):
        yield good(f"`rejoin` is {text}", with_keys(f"rejoin = {text}"), told(" rejoin 10"))
    one = "0123456789abcdefABCDEF9876543210" * 2
    among = with_summary(" last 0 journal 1000\n", f" journal 1000 wire 2 keys 1 fence 7 rejoin 3\n{key_lines(one)}")
    document = with_keys(f'rejoin = 3\nfence = 7\nkeys = ["{one}"]\nwire = 2')
    yield good("knocks, a fence, a key and version 2", document, among)
    files = told(" rejoin 3").replace("\nk 1 ", "\njournal_dir files\nk 1 ").replace(
        "\nmembers", "\njournal_keep 16\nmembers"
    )
    yield good("knocks, and a folder", with_keys('journal_dir = "files"\nrejoin = 3'), files)
    for text in ("-1", "65536", "4294967296", "-9223372036854775808"):
        yield bad(f"`rejoin` is {text}", with_keys(f"rejoin = {text}"), "6 rejoin")
    for text in ('"3"', "3.0", "true", "[3]", "[]", "{}", "{every = 3}", "2020-01-02"):
        yield bad(f"`rejoin` is {text}", with_keys(f"rejoin = {text}"), "5 rejoin")
    yield bad("`rejoin` is a table", FULL + "\n[rejoin]\n", "5 rejoin")
    yield bad("`rejoin` twice", with_keys("rejoin = 1\nrejoin = 1"), "2")
    yield bad("a fence before knocks", with_keys("rejoin = -1\nfence = -1"), "6 fence")
    yield bad("knocks before a folder", with_keys('journal_dir = ""\nrejoin = -1'), "6 rejoin")
    yield bad("knocks before a member", with_keys("rejoin = -1", with_member("id = 0")), "6 rejoin")
    for name in ("rejoins", "Rejoin", "re_join", "knock", "rejoin-every"):
        yield bad(f"`{name}`", with_keys(f"{name} = 2"), "3")
    yield bad("knocks of a member", FULL + "rejoin = 2\n", "3")


def events():
    """The path of the events' socket stands behind that of the control socket, which is another one."""
    told = lambda path: with_summary("\nk 1 ", f"\nevents {path}\nk 1 ")
    yield good("events", with_keys('events = "/run/swimd.events"'), told("/run/swimd.events"))
    yield good("events beside control", with_keys('events = "/tmp/swimd.sock "'), told("/tmp/swimd.sock "))
    yield good("the same file by another text", with_keys('events = "/tmp//swimd.sock"'), told("/tmp//swimd.sock"))
    yield good("the longest path of events", with_keys(f'events = "{"~" * 100}"'), told("~" * 100))
    yield good("the shortest path of events", with_keys("events = 'e'"), told("e"))
    files = told("e").replace("\nk 1 ", "\njournal_dir files\nk 1 ").replace("\nmembers", "\njournal_keep 16\nmembers")
    yield good("events, and a folder", with_keys('journal_dir = "files"\nevents = "e"'), files)
    yield bad("events in the folder's name", with_keys('journal_dir = "e"\nevents = "e"'), "6 journal_dir")
    for text in ("1", "true", "[]", "{}", "2020-01-01", '["e"]'):
        yield bad(f"`events` is {text}", with_keys(f"events = {text}"), "5 events")
    for text in ('""', f'"{"x" * 101}"', '"\\t"', '"\\u007f"', '"\u00e9"', '"a\\nb"', '"a\\u0000"'):
        yield bad(f"`events` is {text[:20]!r}", with_keys(f"events = {text}"), "6 events")
    yield bad("events on the control socket", with_keys('events = "/tmp/swimd.sock"'), "6 events")
    yield bad("the same by an escape", with_keys('events = "\\u002ftmp/swimd.sock"'), "6 events")
    yield bad("`events` is a table", FULL + "\n[events]\n", "5 events")
    yield bad("`events` twice", with_keys('events = "a"\nevents = "b"'), "2")
    yield bad("control before events", with_keys('events = ""', with_value("control", '""')), "6 control")
    yield bad("events before k", with_keys('events = ""', with_value("k", "-1")), "6 events")
    same = with_keys('events = "/tmp/swimd.sock"', with_value("k", "-1"))
    yield bad("events on the control socket before k", same, "6 events")
    yield bad("a listener before events", with_keys('events = ""', with_value("listen", '""')), "7 listen")
    for name in ("event", "Events", "events_", "events-path", "evens", "watch"):
        yield bad(f"`{name}`", with_keys(f'{name} = "e"'), "3")
    yield bad("events of a member", FULL + 'events = "e"\n', "3")


def metrics():
    """The path of the metrics' file stands behind that of the events' socket, and is neither that nor the control
    socket's."""
    told = lambda path: with_summary("\nk 1 ", f"\nmetrics {path}\nk 1 ")
    yield good("metrics", with_keys('metrics = "/run/swimd.prom"'), told("/run/swimd.prom"))
    yield good("the longest path of metrics", with_keys(f'metrics = "{"~" * 100}"'), told("~" * 100))
    both = with_summary("\nk 1 ", "\nevents e\nmetrics m\njournal_dir files\nk 1 ")
    files = both.replace("\nmembers", "\njournal_keep 16\nmembers")
    yield good("metrics, events and a folder", with_keys('journal_dir = "files"\nmetrics = "m"\nevents = "e"'), files)
    for text in ("1", "true", "[]", "{}", "2020-01-01", '["m"]'):
        yield bad(f"`metrics` is {text}", with_keys(f"metrics = {text}"), "5 metrics")
    for text in ('""', f'"{"x" * 101}"', '"\\t"', '"a\\nb"'):
        yield bad(f"`metrics` is {text[:20]!r}", with_keys(f"metrics = {text}"), "6 metrics")
    yield bad("metrics on the control socket", with_keys('metrics = "/tmp/swimd.sock"'), "6 metrics")
    yield bad("metrics on the events' socket", with_keys('metrics = "e"\nevents = "e"'), "6 metrics")
    yield bad("metrics and events on the control socket",
              with_keys('metrics = "/tmp/swimd.sock"\nevents = "/tmp/swimd.sock"'), "6 events")
    yield bad("`metrics` twice", with_keys('metrics = "a"\nmetrics = "b"'), "2")
    yield bad("events before metrics", with_keys('metrics = ""\nevents = ""'), "6 events")
    yield bad("metrics before k", with_keys('metrics = ""', with_value("k", "-1")), "6 metrics")
    for name in ("metric", "Metrics", "metrics_", "metrics-path", "prometheus"):
        yield bad(f"`{name}`", with_keys(f'{name} = "m"'), "3")
    yield bad("metrics of a member", FULL + 'metrics = "m"\n', "3")


def modes():
    """The modes of the sockets stand behind the paths of events and metrics, where they are given."""
    told = lambda lines: with_summary("\nk 1 ", f"\n{lines}\nk 1 ")
    for key in ("control_mode", "events_mode"):
        for mode in ("0600", "0660", "0666", "0000", "0777", "0712"):
            yield good(f"`{key}` is {mode}", with_keys(f'{key} = "{mode}"'), told(f"{key} {mode}"))
        yield good(f"`{key}` by an escape", with_keys(f'{key} = "06\\u00340"'), told(f"{key} 0640"))
        for text in ("660", "0660", "0o660", "true", "[]", "{}", "2020-01-01", '["0660"]'):
            fault = "2" if text == "0660" else f"5 {key}"
            yield bad(f"`{key}` is {text}", with_keys(f"{key} = {text}"), fault)
        texts = ["", "660", "00660", "1660", "0680", "0668"]
        texts += ["0o660", "rw-rw----", "0660 ", " 660", "066\\n", "066\u0660"]
        for text in texts:
            yield bad(f"`{key}` is {text!r} in quotes", with_keys(f'{key} = "{text}"'), f"6 {key}")
        yield bad(f"`{key}` is a table", FULL + f"\n[{key}]\n", f"5 {key}")
        yield bad(f"`{key}` twice", with_keys(f'{key} = "0600"\n{key} = "0600"'), "2")
        yield bad(f"metrics before `{key}`", with_keys(f'{key} = ""\nmetrics = ""'), "6 metrics")
        yield bad(f"`{key}` before k", with_keys(f'{key} = ""', with_value("k", "-1")), f"6 {key}")
        yield bad(f"`{key}` of a member", FULL + f'{key} = "0600"\n', "3")
    first = with_keys('events_mode = 1\ncontrol_mode = ""')
    yield bad("the mode of control before that of events", first, "6 control_mode")
    both = told("control_mode 0640\nevents_mode 0606")
    yield good("both modes", with_keys('events_mode = "0606"\ncontrol_mode = "0640"'), both)
    paths = told("events e\nmetrics m\ncontrol_mode 0640\nevents_mode 0606\njournal_dir files")
    paths = paths.replace("\nmembers", "\njournal_keep 16\nmembers")
    lines = "journal_dir = 'files'\nevents_mode = '0606'\nmetrics = 'm'\ncontrol_mode = '0640'\nevents = 'e'"
    yield good("both modes, and all paths", with_keys(lines), paths)
    for name in ("mode", "control-mode", "Control_mode", "event_mode", "metrics_mode", "control_modes"):
        yield bad(f"`{name}`", with_keys(f'{name} = "0600"'), "3")


def worked_options():
    for part in (rejoins, events, metrics, modes):
        yield from part()
