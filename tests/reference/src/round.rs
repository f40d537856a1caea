//! The round: the listed members in the order in which they are probed. Those before the cursor were.

use crate::choosers::Chooser;

#[derive(Default)]
pub struct Round {
    ids: Vec<u32>,
    cursor: usize,
    /// Whether the last call of `next` drew a round.
    new: bool,
}

impl Round {
    /// A round in which all were probed.
    pub fn new(ids: Vec<u32>) -> Round {
        Round {
            cursor: ids.len(),
            ids,
            new: false,
        }
    }

    /// Whether the member that `next` gave last is the first of a round.
    pub fn is_new(&self) -> bool {
        self.new
    }

    pub fn ids(&self) -> &[u32] {
        &self.ids
    }

    /// The next member to be probed. Where all were, a new round is drawn.
    pub fn next(&mut self, chooser: &mut Chooser) -> Option<u32> {
        self.new = self.cursor == self.ids.len() && self.cursor > 0;
        if self.new {
            chooser.order(&mut self.ids);
            self.cursor = 0;
        }
        let next = self.ids.get(self.cursor).copied();
        self.cursor += usize::from(next.is_some());
        next
    }

    /// Puts a member at a place, at most the last one. A place before the cursor is among those that were probed.
    pub fn insert(&mut self, place: usize, id: u32) {
        self.ids.insert(place, id);
        self.cursor += usize::from(place < self.cursor);
    }

    pub fn remove(&mut self, id: u32) {
        if let Some(place) = self.ids.iter().position(|other| *other == id) {
            self.ids.remove(place);
            self.cursor -= usize::from(place < self.cursor);
        }
    }
}
