"""Random configurations that have secrets, also where none belongs, each the same for its seed; and mutations of them.

`leaky_config(seed)` gives (document, secrets).
"""

import random
import re

from tests.generators.mutations import mutated
from tests.generators.random_configs import HEX, Config

# What a secret is called: the keys' own name, what people take for it, and other keys.
NAMES = ["keys", "keys", "key", "ksy", "Keys", "secret", "psk", "password", "token", "group.key", "id", "k", "last"]
NAMES += ["journal", "fence", "rejoin", "wire", "listen", "name"]
SPELLINGS = ['["{}"]', "['{}']", '"{}"', "'{}'", '["{}", 7]', '[["{}"]]', "{}", "[{}]", '"{}', '"{}\u00e9"', "7 # {}"]
MOST_DECIMALS = 11


def secret(r):
    """64 hexadecimal digits, of which no 12 in a row are a number's."""
    while True:
        made = "".join(r.choice(HEX) for _ in range(64))
        if not re.search(rf"[0-9]{{{MOST_DECIMALS + 1}}}", made):
            return made


def leaky_config(seed):
    r = random.Random(f"secrets {seed}")
    secrets = [secret(r) for _ in range(3)]
    text, other = (with_secrets(r, secrets) for _ in range(2))
    return mutated(r, text, other), secrets


def with_secrets(r, secrets):
    """A configuration whose seed is the first one, and in which the others stand somewhere at the top or in a
    member."""
    lines = Config(r).document().decode("utf-8", "surrogatepass").split("\n")
    lines = [re.sub(r"""^(\s*['"]?seed['"]?\s*=\s*).*""", rf'\g<1>"{secrets[0]}"', it) for it in lines]
    for it in secrets[1:]:
        line = f"{r.choice(NAMES)} = {r.choice(SPELLINGS).format(it)}"
        lines.insert(r.choice([0, 0, r.randint(0, len(lines))]), line)
    return "\n".join(lines).encode("latin-1" if r.random() < 0.1 else "utf-8", "replace")
