"""What tests/tools/quotes finds that isn't what the sources say."""

from pathlib import Path

from tests.support.quotes import misquoted, requoted, section_of
from tests.tools.copies import unlike

DEFINITIONS = """\
-- a thing of that size
pub record IsThing (size : ℕ) : Type 0 where
  -- how long it is
  pub long : ℕ
  pub is : long ≡ size

abbrev pub IsOther : ℕ → Type 0
IsOther size =
    size ≡ 1  -- no other
"""
FUNCTIONS = """\
/// Takes `ensures { other }`.
pub fn take<A>(a: A) -> u8
    requires { a ≡ 1 }
    ensures exact { result ≡ 1 }
{
    give(a)
}

fn give(a: u8) -> u8
    ensures { result ≡ 2 }
{}

impl Gate for Lib {
    ghost opens = { λ old new.
        new ≡ old };

    fn open(&mut self)
        ensures { opens self.old self.new };
}
"""
TEXT = """\
`IsThing` (lib/specs/Things.antt) says

    pub long : ℕ
    pub is : long ≡ size

and `Lib::take` (lib/src/lib.rt):

    requires { a ≡ 1 }
    ensures exact { result
        ≡ 1 }

`IsOther`
(lib/specs/Things.antt) is `1`:

    IsOther size = size ≡ 1

`opens` (lib/src/lib.rt) is cited by `Gate::open` (lib/src/lib.rt):

    ensures { opens self.old self.new }

`opens` (lib/src/lib.rt):

    ghost opens = { λ old new. new ≡ old }
"""
# What stands in the place of a part of the text, in which line, and what is said of it.
WRONG = [
    ("long ≡ size", "long ≡ 1", 3, "IsThing of lib/specs/Things.antt doesn't say so"),
    ("pub is : long ≡ size", "pub is : long ≡", 3, "IsThing of lib/specs/Things.antt doesn't say so"),
    ("pub long : ℕ\n", "pub long : ℕ\n    pub wide : ℕ\n", 3, "IsThing of lib/specs/Things.antt doesn't say so"),
    ("`IsThing`", "`IsOther`", 3, "IsOther of lib/specs/Things.antt doesn't say so"),
    ("`IsThing`", "`IsNone`", 3, "lib/specs/Things.antt has no IsNone"),
    ("`IsThing` (lib/specs/Things.antt)", "A thing", 3, "nothing is named that it quotes"),
    ("take` (lib/src/lib.rt)", "take` (lib/src/other.rt)", 8, "there is no lib/src/other.rt"),
    ("        ≡ 1 }", "        ≡ 2 }", 8, "take of lib/src/lib.rt doesn't say so"),
    ("`Lib::take`", "`Lib::give`", 8, "give of lib/src/lib.rt doesn't say so"),
    ("    requires { a ≡ 1 }\n", "    ensures { other }\n", 8, "take of lib/src/lib.rt doesn't say so"),
    ("IsOther size = size ≡ 1", "IsOther size = size ≡ 1 -- no other", 15,
     "IsOther of lib/specs/Things.antt doesn't say so"),
    ("opens self.old self.new }", "opens self.new self.old }", 19, "open of lib/src/lib.rt doesn't say so"),
    ("λ old new. new ≡ old }", "λ old new. new }", 23, "opens of lib/src/lib.rt doesn't say so"),
]


def with_sources(folder):
    """A folder with a crate whose sources are quoted."""
    for name, text in [("specs/Things.antt", DEFINITIONS), ("src/lib.rt", FUNCTIONS)]:
        path = Path(folder, "crates/lib", name)
        path.parent.mkdir(parents=True)
        path.write_text(text, encoding="utf-8")
    return folder


def what_is_quoted_stands_there(_programs, folder):
    """White space and comments count for nothing."""
    return unlike("what is misquoted", [], [*misquoted(TEXT, with_sources(folder))])


def what_does_not_stand_there_is_named(_programs, folder):
    """Each wrong word is told with the block in which it stands, and no other block is."""
    top, said = with_sources(folder), []
    for old, new, line, why in WRONG:
        found = [(number, told.partition(": ")[0]) for number, told in misquoted(TEXT.replace(old, new), top)]
        said += unlike(f"what is misquoted where {new!r} stands", [(line, why)], found)
    return said


def what_changed_is_quoted_anew(_programs, folder):
    """Of what is named the text has then all that the sources say, and all else stays as it is."""
    top, other = with_sources(folder), TEXT
    for old, new in [
        ("    pub long : ℕ\n    pub is : long ≡ size\n", "    pub long : ℕ\n    pub is : long ≡ 1\n"),
        ("        ≡ 1 }", "        ≡ 2 }"),
        ("λ old new. new ≡ old", "λ old new. old ≡ new"),
    ]:
        other = other.replace(old, new)
    whole = TEXT.replace("    pub long", "    pub record IsThing (size : ℕ) : Type 0 where\n      pub long")
    whole = whole.replace("    pub is", "      pub is").replace("result\n        ≡ 1", "result ≡ 1")
    whole = whole.replace("{ λ old new. new ≡ old }", "{ λ old new.\n        new ≡ old };")
    return [
        *unlike("what is right", TEXT.rstrip("\n"), requoted(TEXT, top)),
        *unlike("what is quoted anew", whole.rstrip("\n"), requoted(other, top)),
        *unlike("what is misquoted then", [], [*misquoted(requoted(other, top), top)]),
    ]


def a_section_ends_with_the_next(_programs, _folder):
    """At a heading that is as high or higher, and not at a lower one."""
    text = "# All\n\n### One\n\n#### Low\n\n    a\n\n### Two\n\n    b\n"
    return [
        *unlike("the section", ("### One\n\n#### Low\n\n    a\n", 3), section_of(text, "### One")),
        *unlike("the last one", ("### Two\n\n    b", 9), section_of(text, "### Two")),
    ]


QUOTING = [
    what_is_quoted_stands_there,
    what_does_not_stand_there_is_named,
    what_changed_is_quoted_anew,
    a_section_ends_with_the_next,
]
