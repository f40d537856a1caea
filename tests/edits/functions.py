"""Where the functions of a Rattle file stand, and by which path the prover names them.

It reads the layout that `rt fmt` gives: an item's head begins a line, and the brace that ends it stands alone at the
head's indent. What isn't laid out so has no function here, and an edit of it is tried alone.

The prover takes a function whose proof is a hole at the word of its contract, as it does at any call, whatever its body
is. So a check with holes wherever no edit is proves what was edited and nothing else, and says the same of that as a
check of the whole crate.
"""

import os
import re

# The head of an `impl`, which may have several lines, or the end of an item.
IMPL = re.compile(r"^(?:unsafe )?impl\b([^{]*)|^\}$", re.MULTILINE)
REFERENCE = re.compile(r"&(?:'\w+ )?")
TYPE = re.compile(r"^(?:pub(?:\([^)]*\))? )?(?:struct|enum) (\w+)", re.MULTILINE)
# The brace before a body ends the first line of the head or that of the last parameters, or it stands alone.
FUNCTION = re.compile(
    r"""^(?P<indent>\ *)(?:pub(?:\([^)]*\))?\ )?(?:const\ |unsafe\ |extern\ "C"\ )*fn\ (?P<name>\w+)
        (?:.*\ \{\n|.*\n(?:(?:(?P=indent)[\ )>].*|\ *)\n)*?(?P=indent)(?:\).*\ )?\{\n)
        (?P<body>(?:.*\n)*?)(?P=indent)\}$""", re.MULTILINE | re.VERBOSE)

HOLE = (
    "use {above}.{name}.Statement as stated\n\npub {name}_spec : {{M : Type 1}} → stated.statement M\n{name}_spec = ?\n"
)


def module_of(file):
    """The path of the module that a file of src/ is."""
    parts = os.path.splitext(file)[0].split("/")[1:]
    return [] if parts in (["lib"], ["main"]) else [it for it in parts if it != "mod"]


def home_of(name, file, texts):
    """The module of the type of that name, under which its functions are named: that of the one file of src/ where it
    stands, and else that of the file with the `impl`."""
    homes = [it for it in texts if it.startswith("src/") and name in TYPE.findall(texts[it])]
    return module_of(homes[0] if len(homes) == 1 else file)


def without_arguments(text):
    """A type or a trait without what stands between its angle brackets."""
    kept, depth = "", 0
    for sign in text.replace("->", ""):
        depth += (sign == "<") - (sign == ">")
        kept += sign if depth == 0 and sign != ">" else ""
    return kept


def arguments_of(text):
    """What stands between the angle brackets of a trait."""
    return text.partition("<")[2].rpartition(">")[0]


def parts_of(head):
    """The head of an `impl` behind that word: the names of its parameters, its trait, if there is one, and its type."""
    text, parameters = head.replace("->", "").split("{")[0].split(" where ")[0].strip(), []
    if text.startswith("<"):
        end = next(at for at in range(1, len(text) + 1) if text.count("<", 0, at) == text.count(">", 0, at))
        parameters, text = re.findall(r"(?:^|,) *(?:const )?(\w+)", without_arguments(text[1:end - 1])), text[end:]
    trait, _, of = text.rpartition(" for ")
    return parameters, trait.strip(), of.strip()


def owner_of(head, file, texts):
    """The path under which the functions of an `impl` stand. Those of a type stand where the type does. Those of a trait
    stand in the file's own module, under the type's name, the trait's, and those of the trait's arguments that are no
    parameters; what is dropped stands with the type."""
    parameters, trait, of = parts_of(head)
    # A reference to a type is named behind a word.
    reference = REFERENCE.match(of)
    name = without_arguments(of[reference.end():] if reference else of).split("::")[-1]
    if not trait or trait == "Drop":
        return [*home_of(name, file, texts), name]
    told = without_arguments(trait).split("::")[-1]
    arguments = [it for it in re.findall(r"(?<!')\b[A-Z]\w*", arguments_of(trait)) if it not in parameters]
    return [*module_of(file), "".join(["Ref" * bool(reference), name, told, *arguments])]


def matches_in(file, texts):
    """The functions of a file of src/: the path of each, the head of the `impl` that it stands in, if it stands in one,
    and its match. None in another file."""
    text = texts[file] if file.startswith("src/") else ""
    for found in FUNCTION.finditer(text):
        heads = [it[1] and " ".join(it[1].split()) for it in IMPL.finditer(text, 0, found.start())]
        head = heads[-1] if found["indent"] and heads else None
        above = owner_of(head, file, texts) if head else module_of(file)
        yield "::".join([*above, found["name"]]), head, found


def functions_in(file, texts):
    """The functions of a file of src/: the path of each, and where its body begins and ends."""
    for path, _, found in matches_in(file, texts):
        yield path, found.start("body"), found.end("body")


def function_around(part, file, texts):
    """The path of the function in whose body a part of a file stands, or None."""
    start = texts[file].find(part)
    inside = (path for path, begin, end in functions_in(file, texts) if begin <= start and start + len(part) <= end)
    return next(inside, None)


def with_holes(crate, texts, kept):
    """The texts of a crate with a hole for each function, but for those that are kept and those that call
    themselves."""
    made = dict(texts)
    for file in (it for it in texts if it.startswith("src/")):
        for path, begin, end in reversed(list(functions_in(file, texts))):
            *above, name = path.split("::")
            home, cycle = ("/".join(["proofs", *above, it]) for it in (name, f"+{name}"))
            if path not in kept and not any(os.path.dirname(it) == cycle for it in texts):
                made[file] = f"{made[file][:begin]}unreachable!()\n{made[file][end:]}"
                made = {it: text for it, text in made.items() if os.path.dirname(it) != home}
                made[f"{home}/Proof.antt"] = HOLE.format(above=".".join(["Rattle", crate, "proofs", *above]), name=name)
    return made
