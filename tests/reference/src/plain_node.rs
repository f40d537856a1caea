//! A plain node: the detector of the reference behind a mutex, with its journal, for callers in threads of their own,
//! each of which keeps the calls that it was answered.

use crate::detector::Detector;
use crate::journal::Drawn;
use crate::members::Row;
use crate::replies::Reply;
use crate::wire::{Message, Peer, WireFault};
use std::sync::{Mutex, MutexGuard, PoisonError};

#[derive(Clone, Copy)]
pub enum Call {
    Tick,
    Hear(Message, Peer),
    Join(u32, Peer),
    Remove(u32),
}

/// An entry of the journal, which is there to show what keeping it costs.
#[allow(dead_code)]
struct Entry {
    caller: u8,
    number: u32,
    call: Call,
    reply: Reply,
    drawn: Drawn,
}

/// An answered call, as its caller keeps it.
#[allow(dead_code)]
#[derive(Clone, Copy)]
pub struct Kept {
    /// How many entries stand before it in the journal, and how many calls the caller had made before.
    pub position: u32,
    pub number: u32,
    pub call: Call,
    pub reply: Reply,
}

pub struct Caller {
    number: u8,
    calls: Vec<Kept>,
}

impl Caller {
    pub fn new(number: u8) -> Caller {
        Caller {
            number,
            calls: Vec::new(),
        }
    }
}

#[derive(Debug)]
pub enum CallFault {
    Wire(#[allow(dead_code)] WireFault),
    JournalFull,
}

/// The detector and what it was asked.
pub struct Recorder {
    detector: Detector,
    journal: Vec<Entry>,
    limit: u32,
}

impl Recorder {
    pub fn new(detector: Detector, limit: u32) -> Recorder {
        Recorder {
            detector,
            journal: Vec::new(),
            limit,
        }
    }

    /// The reply to a call, which is a caller's of that number. None where the journal is full.
    pub fn record(&mut self, caller: u8, number: u32, call: Call) -> Option<Reply> {
        if self.journal.len() == self.limit as usize {
            return None;
        }
        let reply = match call {
            Call::Tick => self.detector.tick(),
            Call::Hear(message, source) => self.detector.hear(message, source),
            Call::Join(id, peer) => self.detector.join(id, peer),
            Call::Remove(id) => self.detector.remove(id),
        };
        let drawn = self.detector.drawn(&reply);
        self.journal.push(Entry {
            caller,
            number,
            call,
            reply,
            drawn,
        });
        Some(reply)
    }
}

pub struct Node {
    recorder: Mutex<Recorder>,
}

impl Node {
    pub fn new(recorder: Recorder) -> Node {
        Node {
            recorder: Mutex::new(recorder),
        }
    }

    fn locked(&self) -> MutexGuard<'_, Recorder> {
        self.recorder.lock().unwrap_or_else(PoisonError::into_inner)
    }

    pub fn call(&self, caller: &mut Caller, call: Call) -> Result<Kept, CallFault> {
        let number = caller.calls.len() as u32;
        let mut recorder = self.locked();
        let position = recorder.journal.len() as u32;
        let reply = recorder.record(caller.number, number, call);
        drop(recorder);
        let kept = Kept {
            position,
            number,
            call,
            reply: reply.ok_or(CallFault::JournalFull)?,
        };
        caller.calls.push(kept);
        Ok(kept)
    }

    pub fn hear(&self, caller: &mut Caller, datagram: &[u8], source: Peer) -> Result<Kept, CallFault> {
        let message = Message::of_datagram(datagram).map_err(CallFault::Wire)?;
        self.call(caller, Call::Hear(message, source))
    }

    /// The member table as it is.
    pub fn list(&self) -> Vec<Row> {
        self.locked().detector.members().rows().to_vec()
    }
}
