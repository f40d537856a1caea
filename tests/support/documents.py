"""The code and the examples that stand in documents."""

import re

from tests.support.parts import TOP, content

CODE = re.compile(r"^```python\n(.*?)^```$", re.MULTILINE | re.DOTALL)
ROWS = {"key": 7, "text": 6, "HMAC": 6, "datagram": 2}
TAGGED = re.compile("\n".join(rf"^    {name} {{{spaces}}}([0-9a-f]+)$" for name, spaces in ROWS.items()), re.MULTILINE)
TABLES = re.compile(r"^    (swimd ask .* --toml)$", re.MULTILINE)
NAMES = re.compile(r"^\| `(fault|refused|joined) [FWP]` \| (.*) \|$", re.MULTILINE)
TAGGING = re.compile(r"^    (printf [^\n]*\|\n {8}openssl [^\n]*)$", re.MULTILINE)


def code_in(document):
    """The one program in Python of a document of docs/."""
    (code,) = CODE.findall(content(f"{TOP}/docs/{document}").decode())
    return code


def tables_of_members():
    """The command of docs/OPERATING.md that writes the member table as tables of a configuration."""
    (command,) = TABLES.findall(content(f"{TOP}/docs/OPERATING.md").decode())
    return command


def names_of_answers(heading="Words of swimd"):
    """The names of what answers tell by a number, by their word and that number, as docs/FORMATS.md has them below a
    heading."""
    text = content(f"{TOP}/docs/FORMATS.md").decode().split(f"\n## {heading}\n")[1].split("\n## ")[0]
    return {word: dict(it.split(" ", 1) for it in names.split(", ")) for word, names in NAMES.findall(text)}


def tagged_example():
    """Of the datagram with a tag in docs/FORMATS.md: the key, the text, its HMAC, and the bytes that are sent; and the
    command for a shell by which a reader finds that HMAC."""
    text = content(f"{TOP}/docs/FORMATS.md").decode()
    ((*rows,),) = TAGGED.findall(text)
    (command,) = TAGGING.findall(text)
    return [bytes.fromhex(it) for it in rows], command
