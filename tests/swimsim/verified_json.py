"""What `swimsim --verify --json` writes, as the lines that it writes without `--json`."""

import json

OF_FILE = ("file", "entries", "confirmed", "periods", "judged", "sound", "cut", "new_start")
OF_JUDGEMENT = ("judged", "period", "probed", "time", "relays", "asked", "until")
OF_ACK = ("ack", "period", "at", "why")


class BadObject(Exception):
    """An object that has another key, or stands in another place, than it may."""


def objects_in(text):
    """The objects of a text, one in each of its lines, in which a number stays as it is written."""
    return [json.loads(line, parse_float=str) for line in text.split("\n")[:-1]]


def lines_of(text):
    """The lines that say what these objects do."""
    lines, file = [], None
    for it in objects_in(text):
        if "file" in it:
            lines += end_of(file) + lines_of_file(it)
            file = it
        elif file is None:
            raise BadObject(f"no object of a file stands before {it}")
        else:
            lines.append(line_of_finding(file["file"], it))
    return "".join(f"{line}\n" for line in lines + end_of(file))


def must_have(it, names):
    """An object has some of these keys, in their order, and no others."""
    if list(it) != [name for name in names if name in it]:
        raise BadObject(f"{it} has other keys than {names}")


def lines_of_file(it):
    if list(it) != list(OF_FILE) or any(it[name] not in (True, False) for name in OF_FILE[-3:]):
        raise BadObject(f"{it} has other keys than {OF_FILE}")
    counts = " ".join(f"{name} {it[name]}" for name in OF_FILE[1:5])
    return [f"{it['file']}: a new start"] * it["new_start"] + [f"{it['file']}: {counts}"]


def end_of(file):
    """The last line of a file, if it is cut."""
    if file is None or not file["cut"]:
        return []
    return [f"cut behind entry {file['confirmed'] - 1}" if file["confirmed"] else "cut before entry 0"]


def entry_in(path, it, name):
    """The entry that an object names, which is one of the file with this path."""
    if list(it[name]) != ["file", "entry"] or it[name]["file"] != path:
        raise BadObject(f"{name} of {it} is no entry of {path}")
    return f"entry {it[name]['entry']}"


def line_of_finding(path, it):
    entry = lambda name: entry_in(path, it, name)
    if "ack" in it:
        must_have(it, OF_ACK)
        return f"ack of {it['ack']} for period {it['period']} at {entry('at')}: {it['why']}"
    must_have(it, OF_JUDGEMENT)
    line = f"judged {it['judged']} in period {it['period']}: probed at {entry('probed')}"
    line += f" ({it['time']})" if "time" in it else ""
    if "relays" in it:
        relays = "relays " + ", ".join(map(str, it["relays"])) if it["relays"] else "no relays"
        line += f", {relays} asked at {entry('asked')}"
    return f"{line}, no ack of period {it['period']} until {entry('until')}"
