//! What the detector answers.

use crate::wire::{Message, Peer, Version};

/// What a call is answered. The relays of an ask are the detector's.
#[derive(Clone, Copy, Debug, PartialEq)]
pub enum Reply {
    Quiet,
    Started {
        judged: Option<u32>,
        probe: Option<Probe>,
    },
    Asked(Probe),
    Heard,
    Send(Peer, Message),
    Dropped(DropReason),
    Joined(u32),
    Removed,
    Refused(Refusal),
}

/// Who is probed, where, and in which version, in the period of that number.
#[derive(Clone, Copy, Debug, PartialEq)]
pub struct Probe {
    pub version: Version,
    pub target: u32,
    pub peer: Peer,
    pub number: u64,
}

#[derive(Clone, Copy, Debug, PartialEq)]
pub enum DropReason {
    NotForMe = 1,
    Borrowed,
    AboutMe,
    Unlisted,
    TableFull,
    Stray,
    NoRequest,
}

#[derive(Clone, Copy, Debug, PartialEq)]
pub enum Refusal {
    Myself = 1,
    Listed,
    Full,
    Unknown,
    Spent,
}
