"""What the sources of a crate say of its calls: their names, the first sentences of their comments, and their clauses.

It reads the layout that `rt fmt` writes, line by line: what stands in an impl or a trait is set in by four spaces, and
a body begins with a brace under its function."""

import re
from pathlib import Path
from typing import NamedTuple

HOLDER = re.compile(r"(?P<public>pub )?(?:unsafe )?(?P<kind>impl|trait|struct|enum|mod)\b(?P<rest>.*)")
FUNCTION = re.compile(r"(?P<indent>(?:    )?)(?P<public>pub )?(?:const )?(?:unsafe )?fn (?P<name>\w+)")
CLAUSE = re.compile(r"^\s+(requires|ensures)\*?(?: (\w+))? \{", re.MULTILINE)
CITED = re.compile(r"ghost use Rattle\.swim\w*\.specs\.(?!declared)[\w.]+\.\{([^}]*)\};")
EXPORT = re.compile(r"^pub use (\w+)::(?:\{([^}]*)\}|(\w+));", re.MULTILINE)
MODULE = re.compile(r"^(pub )?mod (\w+);", re.MULTILINE)
INVARIANT = re.compile(r"ghost invariant = \{(.*?)\};", re.DOTALL)
SENTENCE = re.compile(r"(.+?[.!?])(?: (?=[A-Z0-9`\"(])|$)")
BINDER = re.compile(r"\([^():]* : [^()]*(?:\([^()]*\)[^()]*)*\)")


class Clause(NamedTuple):
    """What a caller has to bring ("requires") or a call delivers ("ensures"), with the definitions that it cites."""

    kind: str
    name: str
    text: str
    cites: list


class Call(NamedTuple):
    """A function. `of` is the type or trait that it belongs to, and `trait` the one that it implements, if any."""

    name: str
    of: str
    trait: str
    is_public: bool
    says: str
    clauses: list


class Type(NamedTuple):
    """A struct, an enum or a trait."""

    name: str
    is_public: bool
    says: str


class File(NamedTuple):
    """A file of sources. `always` has the invariants of types, as clauses."""

    path: Path
    says: str
    types: list
    calls: list
    always: dict


def first_sentence(lines):
    """The first sentence of a comment, without its marks."""
    text = " ".join(line.strip().lstrip("/!").strip() for line in lines)
    found = SENTENCE.match(re.split(r"\s{2,}", text)[0])
    return re.sub(r"\[(`[^`]*`)\]", r"\1", found[1] if found else text)


def depth(text):
    """How many brackets are open behind a text."""
    return sum(text.count(it) for it in "([{") - sum(text.count(it) for it in ")]}")


def head(lines, at):
    """The lines of a function up to its body, or to the semicolon of a trait's call; without comments."""
    indent, found = FUNCTION.match(lines[at])["indent"], []
    for line in lines[at:]:
        line = line.split("//")[0].rstrip()
        if found and line.startswith(indent + "{"):
            break
        found.append(line)
        text = "\n".join(found)
        if not CLAUSE.search(text) and line.endswith(("{", "}")) or line.endswith(";") and depth(text) == 0:
            break
    return "\n".join(found)


def clauses_of(text, names):
    """The clauses of a function's head. Of the definitions only those are cited that the file imports."""
    found = []
    for it in CLAUSE.finditer(text):
        end = it.end()
        while depth(text[it.end() - 1 : end]) > 0:
            end += 1
        inner = " ".join(text[it.end() : end - 1].split())
        found.append(Clause(it[1], it[2] or "", inner, cited(inner, names)))
    return found


def cited(text, names):
    """The definitions that a text cites, in order. Of a variable's type nothing is cited."""
    text = BINDER.sub("", text)
    words = re.findall(r"[^\W\d]\w*", text)
    return list(dict.fromkeys(names[it] for it in words if it in names))


def imports(text):
    """The definitions of specs/ that a file imports, by the name that they have there."""
    pairs = [it.split(" as ") for found in CITED.findall(text) for it in re.split(r",\s*", " ".join(found.split()))]
    return {it[-1].strip(): it[0].strip() for it in pairs if "◌" not in it[0]}


def comment_above(lines, at):
    """The lines of the comment that documents an item. Attributes, and other comments, may stand between the two."""
    found, open_brackets = [], 0
    for line in reversed(lines[:at]):
        open_brackets -= depth(line) if open_brackets or line.strip().endswith("]") else 0
        if line.strip().startswith("///"):
            found.insert(0, line)
        elif line.strip().startswith("#["):
            open_brackets = 0
        elif not open_brackets and not line.strip().startswith("//"):
            break
    return found


def without_parameters(text):
    """A type's text without what stands in angle brackets."""
    while re.search(r"<[^<>]*>", text):
        text = re.sub(r"<[^<>]*>", "", text.replace("->", ""))
    return text


def owner(header):
    """Of the header of an impl or a trait the type, and the trait, if one is implemented."""
    text = without_parameters(" ".join(header.split())).rstrip("{ ").split(" where ")[0]
    parts = re.sub(r"^(pub )?(unsafe )?(impl|trait)\b", "", text).split(":")[0].split(" for ")
    words = [re.sub(r"^&?('\w+ )?(mut )?", "", it.strip()) for it in parts]
    return (words[1], words[0]) if len(words) == 2 else (words[0], "")


def read(path):
    """What a file of sources says."""
    text = path.read_text(encoding="utf-8")
    lines, names = text.split("\n"), imports(text)
    file = File(path, first_sentence([it for it in lines if it.startswith("//!")]), [], [], {})
    of, trait, is_open = "", "", False
    for at, line in enumerate(lines):
        holder, function = HOLDER.match(line), FUNCTION.match(line)
        if holder and holder["kind"] in ("impl", "trait"):
            header = text_until(lines, at, "{")
            (of, trait), is_open = owner(header), bool(holder["public"])
        if holder and holder["kind"] in ("struct", "enum", "trait"):
            name = re.match(r"\s*(\w+)", holder["rest"])[1]
            file.types.append(Type(name, bool(holder["public"]), first_sentence(comment_above(lines, at))))
        if line == "}":
            of, trait, is_open = "", "", False
        if "ghost invariant = {" in line:
            inner = " ".join(INVARIANT.search("\n".join(lines[at:]))[1].split())
            file.always[of] = Clause("always", "", inner, cited(inner, names))
        if function and bool(function["indent"]) == bool(of):
            is_public = bool(function["public"]) or is_open
            says = first_sentence(comment_above(lines, at))
            file.calls.append(Call(function["name"], of, trait, is_public, says, clauses_of(head(lines, at), names)))
    return file


def text_until(lines, at, end):
    """The lines from one on, up to the first that ends so."""
    for to in range(at, len(lines)):
        if lines[to].rstrip().endswith((end, "}")):
            return "\n".join(lines[at : to + 1])
    return "\n".join(lines[at:])


class Crate:
    """The sources of a crate."""

    def __init__(self, folder):
        self.folder = Path(folder)
        self.is_program = (self.folder / "src/main.rt").exists()
        self.root = self.folder / ("src/main.rt" if self.is_program else "src/lib.rt")
        text = self.root.read_text(encoding="utf-8")
        self.says = " ".join(it.lstrip("/!").strip() for it in text.split("\n") if it.startswith("//!"))
        self.files = [read(it) for it in sorted(self.folder.glob("src/**/*.rt"))]
        self.open_modules = {name for public, name in MODULE.findall(text) if public}
        pairs = [(module, many or one) for module, many, one in EXPORT.findall(text)]
        self.exported = {it for _, names in pairs for it in re.split(r"[,\s]+", names) if it}

    def is_seen(self, file, call):
        """Whether a call can be made from outside. In a program, and in a trait's impl, it also has to have clauses."""
        is_open = call.is_public or bool(call.trait)
        says_enough = bool(call.clauses) or not (self.is_program or call.trait)
        return is_open and says_enough and self.is_known(file, call.of or call.name)

    def is_known(self, file, name):
        return self.is_program or name in self.exported or file.path.stem in self.open_modules
