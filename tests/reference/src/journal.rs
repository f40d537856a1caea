//! The journal: each call that made an entry, with its reply and what was drawn for it. Nobody asks for it: it is there to
//! show what keeping it costs.
#![allow(dead_code)]

use crate::events::Event;
use crate::replies::Reply;
use crate::wire::Peer;

/// What was drawn, which stands apart from its entry, as most replies draw nothing.
pub enum Drawn {
    Nothing,
    Round(Box<[u32]>),
    Relays(Box<[(u32, Peer)]>),
}

pub struct Entry {
    pub event: Event,
    pub reply: Reply,
    pub drawn: Drawn,
}

#[derive(Default)]
pub struct Journal {
    entries: Vec<Entry>,
}

impl Journal {
    /// Adds an entry, and lends it.
    pub fn add(&mut self, entry: Entry) -> &Entry {
        self.entries.push(entry);
        &self.entries[self.entries.len() - 1]
    }
}
