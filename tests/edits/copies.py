"""Edited functions beside others: copies under names of their own, so that one check tells of several edits of a
function.

A function is proved against the contracts of what it calls, and nobody calls a copy. So the prover says of a copy what
it would say of the function with that body. Where the function's proof has files of its own, whose lines name it, that
is tried: beside them stands a copy without an edit. Any other function is proved from its text alone. A method of a
trait has no copy, since an `impl` of a trait has its methods and no others; nor has a function that calls itself, or
stands neither at the margin nor in an `impl`.
"""

import os

from tests.edits.functions import matches_in, without_arguments


def with_copies(crate, made, texts, edits):
    """What is made of the texts of a crate, and beside it copies of the functions that these edits change: one with
    each edit, and one as it is of each whose proof has files. The path of each edit's copy, and of each function's."""
    made, of_edits, of_functions = dict(made), {}, {}
    for number, edit in enumerate(it for it in edits if is_copyable(it, texts)):
        if edit.function not in of_functions and proof_files(edit, texts):
            of_functions[edit.function] = with_copy(crate, made, texts, edit, "as_it_is")
        of_edits[edit] = with_copy(crate, made, edit.planted(texts), edit, f"edit_{number}")
    return made, of_edits, of_functions


def file_of(edit):
    return edit.pairs[0][0]


def found_in(edit, texts):
    """The head of the `impl` that an edit's function stands in, if it stands in one, and the function's match."""
    return next((head, found) for path, head, found in matches_in(file_of(edit), texts) if path == edit.function)


def home_of_proof(path):
    """The folder of the files of a function's proof."""
    return f"proofs/{path.replace('::', '/')}/"


def proof_files(edit, texts):
    """The paths of the files that the proof of an edit's function has."""
    return [it for it in texts if it.startswith(home_of_proof(edit.function))]


def is_copyable(edit, texts):
    head, found = found_in(edit, texts)
    *above, name = edit.function.split("::")
    calls_itself = any(os.path.dirname(it) == "/".join(["proofs", *above, f"+{name}"]) for it in texts)
    is_of_trait = head is not None and " for " in without_arguments(head).split("{")[0]
    return not calls_itself and not is_of_trait and (head is not None or not found["indent"])


def with_copy(crate, made, texts, edit, word):
    """Puts an edit's function as it stands in these texts behind the function of those that are made, under its name
    and a word, and its proof beside the function's. Answers its path."""
    *above, name = edit.function.split("::")
    copied = f"{name}_{word}"
    _, found = found_in(edit, made)
    text, end = made[file_of(edit)], found.end()
    made[file_of(edit)] = f"{text[:end]}\n\n{item(edit, texts, name, copied)}{text[end:]}"
    beside = "::".join([*above, copied])
    said, says = (".".join(["Rattle", crate, "proofs", *above, it, ""]) for it in (name, copied))
    for path in proof_files(edit, texts):
        made[path.replace(home_of_proof(edit.function), home_of_proof(beside), 1)] = texts[path].replace(said, says)
    return beside


def item(edit, texts, name, copied):
    """An edit's function as it stands in these texts, with its attributes, under another name."""
    _, found = found_in(edit, texts)
    above, attributes = texts[file_of(edit)][:found.start()].split("\n")[:-1], []
    while above and above[-1].strip().startswith(("#[", "//")):
        attributes.insert(0, above.pop())
    head = found[0].replace(f"fn {name}", f"fn {copied}", 1)
    return "\n".join([*(it for it in attributes if it.strip().startswith("#[")), head])
