"""What tests/tools/layout and by_hand read out of sources: what functions take, the circles of modules, and what notes
in a trail."""

from pathlib import Path

from tests.support.signatures import cycles_of, functions_of, imports_of, modules_of, noting_in
from tests.tools.copies import unlike

WIDE = """\
// fn told(a: A, b: B) stands in a comment.
pub fn write<'a, W: Sink, F: FnOnce(u8, u8) -> (W, u8)>(
    &mut self,
    writer: &'a mut W,
    pair: (u8, u8), // two, that count once
    then: F,
) -> Result<W, Fault>
    ensures { W.written writer.old ≡ codes "fn (" }
{}

fn idle() {}
"""
IMPORTS = {
    "lib": "mod first;\nmod second;\n",
    "first": "use crate::second::{Second, take};\n",
    "second": "use crate::{first, rooms::third};\n",
    "rooms/third": "use crate::first::First;\n// use crate::alone::Alone;\n",
    "alone": "use crate::first::First;\nuse std::mem;\n",
    "rooms/fourth": "use super::{fifth::*, third};\n",
    "rooms/fifth": "pub(super) use super::fourth::Fourth;\n",
    "deep": "mod inner;\npub use self::inner::Inner;\n",
    "deep/inner": "use super::super::deep::Deep;\nuse super::other::*;\n",
    "deep/other": "use self::inner::Inner;\n",
}
NOTING = """\
pub struct Gate {
    answered: Trail<u8>,
    notes: Notes,
}

fn new() -> Gate {
    Gate { answered: Trail::new(), notes: Notes::new() }
}

fn answer(&mut self) {
    self.answered.note(&1, &[]);
}

fn remark(&mut self) {
    // self.answered.note(&1, &[]);
    self.notes.note(1);
}

fn show(shown: &mut Trail<Page>) {
    shown.note(&page, text);
}

fn told() -> Trail<u8> {
    let mut told = Trail::new();
    told.note(&2, &[]);
    told
}
"""


def parameters_are_counted(_programs, folder):
    """Type parameters without lifetimes, and parameters with the one that the method is called on."""
    path = Path(folder, "wide.rt")
    path.write_text(WIDE, encoding="utf-8")
    return unlike("the functions", [("write", 2, 4), ("idle", 0, 0)], [*functions_of(path)])


def circles_of_imports_are_found(_programs, folder):
    """Who imports the circle, and isn't imported by it, is no part of it; nor is who is named in a comment."""
    for name, text in IMPORTS.items():
        path = Path(folder, "src", f"{name}.rt")
        path.parent.mkdir(parents=True, exist_ok=True)
        path.write_text(text, encoding="utf-8")
    found = cycles_of(imports_of(modules_of(folder)))
    circles = [["deep", "deep::inner"], ["first", "rooms::third", "second"], ["rooms::fifth", "rooms::fourth"]]
    return unlike("the circles", circles, found)


def what_notes_in_a_trail_is_found(_programs, folder):
    """Whoever notes in something else is let be, and so is who makes a trail, or reads of one."""
    path = Path(folder, "noting.rt")
    path.write_text(NOTING, encoding="utf-8")
    return unlike("what notes", ["answer", "show", "told"], [*noting_in(path)])


SHAPING = [parameters_are_counted, circles_of_imports_are_found, what_notes_in_a_trail_is_found]
