"""`swimd web`: its pages, beside what the daemon answers itself, and how long it waits for one."""

import base64
import datetime
import hashlib
import json
import os
import re
import shutil
import subprocess
import time

from tests.support.daemons import must, until
from tests.support.journals import journals
from tests.support.parts import content, leave_out
from tests.support.web_servers import WebServer
from tests.swimd.daemon_metrics import FILES_NAMES, NAMES, OF_MEMBERS, parsed
from tests.swimd.daemon_watchers import MINUTE, watched

MEMBERS = [(2, "10.0.0.2:7000"), (30, "10.0.0.3:7000")]
SAFE = {"x-content-type-options": "nosniff", "cross-origin-resource-policy": "same-origin",
        "cache-control": "no-store", "allow": "GET, HEAD"}
# The time that an answer of a daemon may take, and for which one that owes an answer isn't asked, with some room.
LIMIT = 1.5
NAMES_WITHOUT_FILES = {name: it for name, it in NAMES.items() if name not in FILES_NAMES}
PROBED = re.compile(r": probed at entry \d+ \((\d+)\)")
EVENT = re.compile(r"id: (\d+)\ndata: ([^\n]*)\n\n")


def must_be_safe(reply):
    for name, value in SAFE.items():
        must(reply.fields.get(name) == value, f"{name} is {reply.fields.get(name)!r}")
    policy = reply.fields.get("content-security-policy", "")
    must(policy.startswith("default-src 'none'; "), f"the policy is {policy!r}")


def must_answer(web, path, status, body=None, kind=None):
    reply = web.get(path)
    must(reply.status == status, f"{path} is answered {reply.status}, and not {status}")
    must(body is None or reply.body == body, f"{path} is answered {reply.body[:200]!r}")
    must(kind is None or reply.fields["content-type"] == kind, f"{path} is {reply.fields['content-type']}")
    must_be_safe(reply)
    return reply


def members_of(daemon):
    """The member table of a daemon, as the page has it."""
    rows = [(id, row.peer, *row.state.split(" ")) for id, row in sorted(daemon.table().items())]
    names = ("id", "peer", "state", "period")
    return {"members": [dict(zip(names, (*it[:3], *map(int, it[3:])))) for it in rows]}


def each_page(machine):
    """The table and the counts are the daemon's, and each answer has safe fields."""
    daemon = machine.started(members=MEMBERS, tick_ms=MINUTE)
    with WebServer(machine, daemon.control) as web:
        must_answer(web, "/healthz", 200, b"ok\n", "text/plain; charset=utf-8")
        members = must_answer(web, "/members.json", 200, kind="application/json")
        must(json.loads(members.body) == members_of(daemon), f"the members are {members.body!r}")
        until(lambda: daemon.ask(b"stats\n") != b".\n", "something is counted")
        metrics = must_answer(web, "/metrics", 200, kind="text/plain; version=0.0.4; charset=utf-8")
        families = NAMES if "journal_dir" in daemon.values else NAMES_WITHOUT_FILES
        parsed(metrics.body.decode(), families, OF_MEMBERS)
        names = lambda text: [line.split(b" ")[0] for line in text.split(b"\n") if not line.startswith(b"#")]
        must(names(metrics.body + b".\n") == names(daemon.ask(b"stats\n")), f"the metrics are {metrics.body!r}")
        must_answer(web, "/events", 200, b"retry: 2000\n\n", "text/event-stream")
        must_answer(web, "/verdicts.json", 200, b'{"explained":false,"changes":[]}\n', "application/json")
        must_answer(web, "/?at=1", 200, kind="text/html; charset=utf-8")
        must_answer(web, "/other", 404, b"no such page\n")
        for path in ("/", "/healthz", "/metrics", "/members.json", "/verdicts.json", "/events", "/other"):
            whole, head = web.get(path), web.get(path, "HEAD")
            must(head.status == whole.status and head.body == b"", f"HEAD {path} is answered {head}")
            same = lambda name: head.fields.get(name) == whole.fields.get(name)
            must(all(map(same, ("content-type", "content-security-policy"))), f"HEAD {path} has other fields")
            must_be_safe(head)
    must(daemon.stop().status == 0, "the daemon ended otherwise")


def must_be_allowed(reply, tag, name, count):
    """The page has so many texts in such tags, and its policy allows them by their hashes, and nothing else."""
    text, policy = reply.body.decode(), reply.fields["content-security-policy"]
    found = re.findall(f"<{tag}>(.*?)</{tag}>", text, re.S)
    must(len(found) == text.count(f"<{tag}") == count, f"{len(found)} texts in <{tag}>")
    digests = [base64.b64encode(hashlib.sha256(it.encode()).digest()).decode() for it in found]
    wanted = " ".join([f"; {name}", *(f"'sha256-{it}'" for it in digests)]) + ";"
    must(not found or wanted in policy, f"{wanted} isn't in {policy}")
    must(found or f"{name} " not in policy, f"{name} is in {policy}")


def must_need_nothing_else(reply):
    """A page has no outside resource, and no style or script in an attribute, which its policy would forbid."""
    text, policy = reply.body.decode(), reply.fields["content-security-policy"]
    outside = [it for it in re.findall(r"(?:https?:)?//[\w.]+", text) if it != "http://www.w3.org"]
    must(not outside, f"the page names {outside}")
    must(not re.search(r"[\s\"'](?:style|on\w+)=", text), "the page has a style or a script in an attribute")
    must("unsafe" not in policy, f"the policy is {policy}")


def the_page_and_its_policy(machine):
    """Neither the front page nor that of a verdict has an outside resource, and the policy of each has the hashes of
    its script and its styles."""
    daemon, file, number = judged_and_ended(machine)
    with WebServer(machine, daemon.control, "--journals", os.path.dirname(file.path)) as web:
        for path, scripts, styles in (("/", 1, 1), (f"/verdicts/2/{number}", 0, 2)):
            reply = must_answer(web, path, 200, kind="text/html; charset=utf-8")
            must_be_allowed(reply, "script", "script-src", scripts)
            must_be_allowed(reply, "style", "style-src", styles)
            must_need_nothing_else(reply)


def promtool_agrees_with_the_page(machine):
    """`promtool check metrics` has nothing to say of `/metrics`."""
    promtool = shutil.which("promtool")
    if not promtool:
        return leave_out("promtool isn't installed, so that says nothing of the metrics of swimd web")
    daemon = machine.started(members=MEMBERS, tick_ms=MINUTE)
    with WebServer(machine, daemon.control) as web:
        until(lambda: b"\nswimd_member_up{" in daemon.ask(b"stats\n"), "the members are counted")
        body = must_answer(web, "/metrics", 200).body
    ran = subprocess.run([promtool, "check", "metrics"], input=body, capture_output=True)
    must((ran.returncode, ran.stderr) == (0, b""), f"promtool says {ran!r}")
    must(daemon.stop().status == 0, "the daemon ended otherwise")


def a_verdict_is_shown(machine):
    """A member that was judged is told as failed, with the number of the period."""
    daemon = machine.started(members=[(2, "127.0.0.1:9")], k=0, rtt=1, period=3, tick_ms=20)
    with WebServer(machine, daemon.control) as web:
        failed = lambda: [it for it in json.loads(web.get("/members.json").body)["members"] if it["state"] == "failed"]
        found = until(failed, "the verdict is told")
        must(found == members_of(daemon)["members"], f"{found} is told")
    must(daemon.stop().status == 0, "the daemon ended otherwise")


def judged_and_ended(machine, **more):
    """A daemon that judged member 2 and ended, its journal file, and the number of the period."""
    daemon = machine.started(members=[(2, "127.0.0.1:9")], k=0, rtt=1, period=3, tick_ms=20, **more)
    found = until(lambda: [it for it in daemon.table().values() if it.state.startswith("failed")], "it judges")
    must(daemon.stop().status == 0, "the daemon ended otherwise")
    (file,) = journals(daemon.values["journal_dir"], 1)
    return daemon, file, int(found[0].state.split(" ")[1])


def lines_on(machine, path, number):
    """The lines of `swimsim --verify` on the verdict of a period."""
    ran = subprocess.run([machine.simulator, "--verify", path], capture_output=True, timeout=20)
    found = [it for it in ran.stdout.decode().splitlines() if it.startswith(f"judged 2 in period {number}: ")]
    must(len(found) == 1, f"{path} is verified as {ran.stdout!r}")
    return found[0], ran.stderr.decode()


def must_be_drawn(machine, text, number, path):
    """The page of a verdict on member 2 names the command that draws its picture."""
    command = f"--timeline run.svg --around 2 --period {number} {path}"
    must(f"\nswimsim {command}\n</pre>" in text, f"the page has another command: {text[-500:]}")
    subprocess.run([machine.simulator, *command.split(" ")], cwd=machine.folder, capture_output=True, timeout=20)
    must_have_picture(machine, text)


def must_have_picture(machine, text):
    """The picture on the page of a verdict is the one that was drawn by its command."""
    drawn = content(f"{machine.folder}/run.svg").decode()
    must(f" tabindex=\"0\">\n{drawn}</div>\n" in text, f"the page has another picture: {text[:2_000]}")


def a_member_is_judged_twice(machine):
    """The page of each verdict has the picture of its own period, as the command on it draws it."""
    daemon = machine.started(members=[(2, "127.0.0.1:9")], k=0, rtt=1, period=3, tick_ms=20)
    judged = lambda: [int(it.state.split(" ")[1]) for it in daemon.table().values() if it.state.startswith("failed")]
    (first,) = until(judged, "it judges")
    must(daemon.ask(b"join 2 127.0.0.1:9\n").startswith(b"joined"), "it joins no more")
    (second,) = until(judged, "it judges again")
    must(daemon.stop().status == 0 and first < second, "the daemon ended otherwise")
    (file,) = journals(daemon.values["journal_dir"], 1)
    with WebServer(machine, daemon.control, "--journals", os.path.dirname(file.path)) as web:
        for number in (first, second):
            text = must_answer(web, f"/verdicts/2/{number}", 200).body.decode()
            must_be_drawn(machine, text, number, file.path)


def a_verdict_is_explained(machine):
    """A page says of a verdict what `swimsim --verify` does, and where the file isn't verified, that. No other path
    shows a verdict."""
    daemon, file, number = judged_and_ended(machine)
    folder = os.path.dirname(file.path)
    with WebServer(machine, daemon.control, "--journals", folder) as web:
        page = must_answer(web, f"/verdicts/2/{number}", 200, kind="text/html; charset=utf-8")
        must_be_safe(page)
        text, (line, _) = page.body.decode(), lines_on(machine, file.path, number)
        for part in (f"<pre>{line}\n", f"<code>{file.path}</code>", "The file is verified, and whole.", "<svg "):
            must(part in text, f"{part} isn't in the page {text[:2_000]}")
        must_be_drawn(machine, text, number, file.path)
        must("<script" not in text, "the page has a script")
        head = web.get(f"/verdicts/2/{number}", "HEAD")
        must((head.status, head.body, head.fields) == (200, b"", page.fields), f"HEAD of it is answered {head}")
        began = datetime.datetime.fromtimestamp(int(PROBED.search(line).group(1)), datetime.timezone.utc)
        must(f", {began:%Y-%m-%dT%H:%M:%SZ}</td>" in text, f"the probe's time isn't in {text[:2_000]}")
        must(b'{"explained":true,' in web.get("/verdicts.json").body, "verdicts are told as having no pages")
        for other in (f"/verdicts/2/{number + 1}", f"/verdicts/3/{number}"):
            must_answer(web, other, 404, b"no such verdict\n")
        for other in (f"/verdicts/02/{number}", f"/verdicts/2/{number}/", "/verdicts/2", "/verdicts/2/x"):
            must_answer(web, other, 404, b"no such page\n")
    with WebServer(machine, daemon.control) as web:
        must_answer(web, f"/verdicts/2/{number}", 404, b"no such verdict\n")


def a_verdict_tells_milliseconds(machine):
    """With `journal_ms = 1` the page has the probe's time with milliseconds, in both places."""
    daemon, file, number = judged_and_ended(machine, journal_ms=1)
    with WebServer(machine, daemon.control, "--journals", os.path.dirname(file.path)) as web:
        text = must_answer(web, f"/verdicts/2/{number}", 200).body.decode()
    line, _ = lines_on(machine, file.path, number)
    must(f"<pre>{line}\n" in text, f"{line} isn't in the page {text[:2_000]}")
    seconds, milliseconds = re.search(r" \((\d+)\.(\d{3})\)", line).groups()
    began = datetime.datetime.fromtimestamp(int(seconds), datetime.timezone.utc)
    must(f", {began:%Y-%m-%dT%H:%M:%S}.{milliseconds}Z</td>" in text, f"the probe's time isn't in {text[:2_000]}")


def a_verdict_in_other_folders(machine):
    """The newest file is shown; one with a fault is shown as that, and one in the folder of verdicts if there is no
    other."""
    daemon, file, number = judged_and_ended(machine)
    folder, judged = f"{machine.folder}/<&>", f"{machine.folder}/<&>/judged"
    os.makedirs(judged)
    shutil.copy(file.path, f"{judged}/1-5-0.swim")
    with WebServer(machine, daemon.control, "--journals", folder) as web:
        page = must_answer(web, f"/verdicts/2/{number}", 200)
        must(b"/&lt;&amp;>/judged/1-5-0.swim</code>" in page.body, f"the page is {page.body[:2_000]!r}")
        shutil.copy(file.path, f"{folder}/1-9-9.swim")
        with open(f"{folder}/1-10-0.swim", "wb") as changed:
            changed.write(file.text + b"tick\n= 1 else\n")
        page = must_answer(web, f"/verdicts/2/{number}", 200)
        _, said = lines_on(machine, f"{folder}/1-10-0.swim", number)
        what = said.removeprefix(f"swimsim: {folder}/1-10-0.swim: ").removesuffix("\n")
        must(f"This file is not verified: {what}." in page.body.decode(), f"{what} isn't in {page.body[:2_000]!r}")


def events_of(web, **fields):
    reply = web.get("/events", **fields)
    must(reply.body.startswith(b"retry: 2000\n\n"), f"the stream is {reply.body[:100]!r}")
    return [(int(number), json.loads(text)) for number, text in EVENT.findall(reply.body.decode())]


def but_for_time(events):
    return [(number, {name: it for name, it in event.items() if name != "time"}) for number, event in events]


def events_are_passed_on(machine):
    """Each change once, with its number and its time; those that were seen aren't told again."""
    daemon, path = watched(machine, members=MEMBERS, tick_ms=MINUTE)
    with WebServer(machine, daemon.control, "--events", path) as web:
        stats = lambda: b'\nswimd_watchers{member="1"} 1\n' in web.get("/metrics").body
        until(stats, "it watches")
        must(events_of(web) == [], f"{events_of(web)} is told of the table")
        must(daemon.ask(b"remove 2\njoin 4 10.0.0.4:7000\n").endswith(b"\n"), "no answer")
        until(lambda: len(events_of(web)) == 2, "two events are told")
        gone, up = {"event": "gone", "id": 2}, {"event": "up", "id": 4, "peer": "10.0.0.4:7000"}
        must(but_for_time(events_of(web)) == [(1, gone), (2, up)], f"{events_of(web)} is told")
        must(all(it["time"].endswith("Z") for _, it in events_of(web)), f"{events_of(web)} has no time")
        kept = json.loads(web.get("/verdicts.json").body)
        must(kept == {"explained": False, "changes": [it for _, it in events_of(web)]}, f"{kept} is kept")
        must(but_for_time(events_of(web, Last_Event_ID="1")) == [(2, up)], "what was seen is told again")
        must(events_of(web, Last_Event_ID="2") == [], "what was seen is told again")
        for other in ("3", "-1", "x", "18446744073709551616"):
            must(len(events_of(web, Last_Event_ID=other)) == 2, f"{other} counts as seen")
        must(daemon.stop().status == 0, "the daemon ended otherwise")
        until(lambda: [it for _, it in events_of(web) if it["event"] == "ended"], "the end is told")
        daemon.start()
        until(lambda: [it for _, it in events_of(web) if it["event"] == "again"], "the next daemon is told")
    must(daemon.stop().status == 0, "the daemon ended otherwise")


def a_daemon_that_stands_still(machine):
    """Its answer is waited for within a second, and then isn't asked for within another."""
    daemon = machine.started(members=MEMBERS, tick_ms=MINUTE)
    with WebServer(machine, daemon.control) as web:
        must_answer(web, "/healthz", 200)
        daemon.stand_still()
        try:
            for least, most in ((0.5, LIMIT), (0, 0.5), (0, 0.5)):
                began = time.monotonic()
                must_answer(web, "/members.json", 503, b"no answer\n")
                took = time.monotonic() - began
                must(least <= took <= most, f"an answer took {took:.2f} s")
        finally:
            daemon.go_on()
        until(lambda: web.get("/healthz").status == 200, "the daemon is found again", LIMIT + 1)
    must(daemon.stop().status == 0, "the daemon ended otherwise")


PAGES = [
    each_page,
    promtool_agrees_with_the_page,
    the_page_and_its_policy,
    a_verdict_is_shown,
    a_verdict_is_explained,
    a_member_is_judged_twice,
    a_verdict_tells_milliseconds,
    a_verdict_in_other_folders,
    events_are_passed_on,
    a_daemon_that_stands_still,
]
