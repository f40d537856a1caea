//! The event lines.

use crate::faults::Fault;
use crate::fields::Words;
use crate::wire::{Message, Peer, WireFault};

pub enum Event {
    Tick,
    /// A datagram, or bytes that are none, and from where they came.
    Hear(Peer, Result<Message, WireFault>),
    Join(u32, Peer),
    Remove(u32),
    Table,
    Gap(u32),
}

impl Event {
    /// Whether it makes an entry, where there is room for one.
    pub fn is_call(&self) -> bool {
        !matches!(self, Event::Table | Event::Gap(_) | Event::Hear(_, Err(_)))
    }

    /// The event of a line with that first word; None where the word is none of an event.
    pub fn read(word: &[u8], words: &mut Words) -> Result<Option<Event>, Fault> {
        let event = match word {
            b"tick" => Event::Tick,
            b"hear" => Event::Hear(words.peer()?, words.datagram()?),
            b"join" => Event::Join(words.id()?, words.peer()?),
            b"remove" => Event::Remove(words.id()?),
            b"table" => Event::Table,
            b"gap" => Event::Gap(words.id()?),
            _ => return Ok(None),
        };
        words.end()?;
        Ok(Some(event))
    }
}
