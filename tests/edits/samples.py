"""Edits by which the driver itself is tested, each with what has to be told of it."""

import os

from tests.edits.checks import BAD_EDIT, NOT_REFUSED, REFUSED

SAMPLES = f"{os.path.dirname(os.path.abspath(__file__))}/samples"
# The crate that they are edits of: a small one.
SAMPLES_OF = "swim_relays"
# What came of an edit, and words that stand in the reason.
WANTED = {
    "changes_nothing.edit": (NOT_REFUSED, "still proved"),
    "changes_the_same_function.edit": (REFUSED, "returns"),
    "does_not_parse.edit": (BAD_EDIT, "did not reach the prover"),
    "has_a_line_that_is_not_read.edit": (BAD_EDIT, "begins with none of"),
    "is_refused_by_no_contract.edit": (BAD_EDIT, "not by a contract"),
    "is_refused_for_names_alone.edit": (BAD_EDIT, "names what the edit took away"),
    "lacks_its_text.edit": (BAD_EDIT, "0 times"),
    "names_another_file.edit": (BAD_EDIT, "there is no file"),
}


def told_otherwise(tried):
    """What isn't as wanted of a sample that was tried."""
    ending, words = WANTED[tried.name]
    return [] if tried.ending == ending and words in tried.why else [
        f"{tried.ending}: {tried.why}, and not {ending}: .. {words} .."
    ]
