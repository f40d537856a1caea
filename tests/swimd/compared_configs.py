"""What `swimd check` writes on a configuration, beside what the model says that it has to; and that it shows no part
of a secret."""

import re
import subprocess
from collections import Counter

from tests.generators.leaky_configs import leaky_config
from tests.models.config_model import OtherVersion, checked, misquoted
from tests.swimd.worked_configs import BELOW, is_as

SECONDS = 60
OTHER_VERSION = "another version of TOML"
# So many digits of a secret, one behind the other, aren't shown; and what is met where some are hidden.
HIDDEN_DIGITS = 12
QUOTED, HIDDEN = "a line that is quoted", "a line with something hidden"


def compared_config(program, document, wanted=None):
    """What isn't as the model says, and what was met."""
    try:
        right = checked(document)
    except OtherVersion:
        return [], Counter([OTHER_VERSION])
    said = [] if not wanted or agrees(right, wanted) else [f"the model says {right!r}"]
    ran = subprocess.run([program, "check"], input=document, capture_output=True, timeout=SECONDS)
    found = (ran.stdout, ran.stderr, ran.returncode)
    same = found[::2] == right[::2] and is_as(found[1], right[1]) and not misquoted(document, found[1])
    said += [] if same else [f"swimd: {found!r}", f"model: {right!r}", f"document: {document[:3_000]!r}"]
    met = right[1].decode().split("\n")
    return said, Counter(met[:1] if right[2] else ["summary", *(warning_of(it) for it in met[:-1])])


def compared_secrets(program, seed):
    """Which parts of its secrets a configuration's fault shows, and what was met."""
    document, secrets = leaky_config(seed)
    ran = subprocess.run([program, "check"], input=document, capture_output=True, timeout=SECONDS)
    shown = shown_digits(secrets, ran.stderr)
    quotes = re.findall(rb"^  line [0-9]+: .*$", ran.stderr, re.MULTILINE)
    met = Counter([QUOTED] * len(quotes) + [HIDDEN] * sum(b".." in it for it in quotes))
    return [f"shown: {it}" for it in shown] + [f"swimd: {ran.stderr!r}"] * bool(shown), met


def shown_digits(secrets, text):
    """The parts of the secrets of 12 digits that stand in a text."""
    parts = {it[at : at + HIDDEN_DIGITS] for it in secrets for at in range(len(it) - HIDDEN_DIGITS + 1)}
    return sorted(it for it in parts if it.encode() in text)


def agrees(right, wanted):
    """Whether the model says what was worked out by hand. Of the lines below a fault each may leave some open."""
    told = right[1][: -len(BELOW)] if right[1].endswith(BELOW) else right[1]
    return right[::2] == wanted[::2] and (is_as(told, wanted[1]) or is_as(wanted[1], right[1]))


def warning_of(line):
    """A warning with its numbers and addresses left out."""
    return re.sub("[0-9][0-9.:]*", "N", line)
