//! Ping-reqs that wait for an ack. All wait equally long, so those that are due first stand in front.

use crate::wire::{Key, Peer, Version};
use std::collections::VecDeque;

const WAITING: usize = 64;

/// Who waits for the ack of a key, and of which version the request was.
#[derive(Clone, Copy)]
pub struct Asker {
    pub peer: Peer,
    pub version: Version,
}

struct Request {
    key: Key,
    asker: Asker,
    due: u64,
}

pub struct Requests {
    waiting: VecDeque<Request>,
    period: u64,
    ticks: u64,
}

impl Requests {
    pub fn new(period: u32) -> Requests {
        Requests {
            waiting: VecDeque::with_capacity(WAITING),
            period: u64::from(period),
            ticks: 0,
        }
    }

    fn take(&mut self, key: &Key) -> Option<Asker> {
        let place = self
            .waiting
            .iter()
            .position(|request| request.key == *key)?;
        self.waiting.remove(place).map(|request| request.asker)
    }

    /// The asker waits for the key's ack, for a whole period, and nobody else does. False where the table is full of others.
    pub fn ask(&mut self, key: Key, asker: Asker) -> bool {
        self.take(&key);
        if self.waiting.len() == WAITING {
            return false;
        }
        self.waiting.push_back(Request {
            key,
            asker,
            due: self.ticks + self.period,
        });
        true
    }

    /// Who waits for the ack of the key, and waits no more.
    pub fn answer(&mut self, key: &Key) -> Option<Asker> {
        self.take(key)
    }

    pub fn tick(&mut self) {
        self.ticks += 1;
        while self
            .waiting
            .front()
            .is_some_and(|request| request.due <= self.ticks)
        {
            self.waiting.pop_front();
        }
    }
}
