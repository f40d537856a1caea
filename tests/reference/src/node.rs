//! The detector that the daemon's threads share, with its journal. It stands under a mutex.

use crate::choosers::Chooser;
use crate::detector::Detector;
use crate::events::Event;
use crate::header::Opening;
use crate::journal::{Entry, Journal};
use crate::replies::Reply;
use crate::wire::{Message, Peer};

pub struct Node {
    detector: Detector,
    journal: Journal,
    entries: u32,
    judged: u32,
    limit: u32,
}

/// What has to be sent after the lock was given back.
pub enum Outgoing {
    Nothing,
    One(Peer, Message),
    Requests(Vec<Peer>, Message),
}

impl Node {
    pub fn new(opening: &Opening, chooser: Chooser, limit: u32) -> Node {
        Node::of(Detector::new(opening, chooser), limit)
    }

    /// A node that goes on from this one, with an empty journal.
    pub fn after(&self, chooser: Chooser) -> Node {
        Node::of(self.detector.after(chooser), self.limit)
    }

    fn of(detector: Detector, limit: u32) -> Node {
        Node {
            detector,
            journal: Journal::default(),
            entries: 0,
            judged: 0,
            limit,
        }
    }

    pub fn detector(&self) -> &Detector {
        &self.detector
    }

    /// How many entries the journal has, and how many members were judged.
    pub fn counts(&self) -> (u32, u32) {
        (self.entries, self.judged)
    }

    /// Answers a call, and adds its entry. None where the journal is full.
    pub fn call(&mut self, event: Event) -> Option<(&Reply, Outgoing)> {
        if self.entries == self.limit {
            return None;
        }
        let reply = match &event {
            Event::Hear(source, Ok(message)) => self.detector.hear(*message, *source),
            Event::Join(id, peer) => self.detector.join(*id, *peer),
            Event::Remove(id) => self.detector.remove(*id),
            _ => self.detector.tick(),
        };
        self.entries += 1;
        let is_verdict = matches!(
            reply,
            Reply::Started {
                judged: Some(_),
                ..
            }
        );
        self.judged += u32::from(is_verdict);
        let outgoing = self.outgoing(&reply);
        let drawn = self.detector.drawn(&reply);
        let entry = self.journal.add(Entry {
            event,
            reply,
            drawn,
        });
        Some((&entry.reply, outgoing))
    }

    fn outgoing(&self, reply: &Reply) -> Outgoing {
        let me = self.detector.me();
        match reply {
            Reply::Send(peer, message) => Outgoing::One(*peer, *message),
            Reply::Started {
                probe: Some(probe), ..
            } => Outgoing::One(probe.peer, Message::of_probe(me, probe)),
            Reply::Asked(probe) => {
                let relays = self.detector.relays().iter().map(|relay| relay.1).collect();
                Outgoing::Requests(relays, Message::of_ask(me, probe))
            }
            _ => Outgoing::Nothing,
        }
    }
}
