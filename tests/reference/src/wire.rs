//! Datagrams and addresses.

use crate::fields::bytes_of;
use crate::replies::Probe;

#[derive(Clone, Copy, Debug, PartialEq)]
pub struct Peer {
    pub ip: [u8; 4],
    pub port: u16,
}

/// The bytes of a datagram, and of a ping-req of version 2, which tells where its target is.
const BYTES: usize = 24;
pub const MOST_BYTES: usize = 30;

#[derive(Clone, Copy, Debug, PartialEq)]
pub enum Version {
    One = 1,
    Two = 2,
}

impl Version {
    pub fn of(number: u64) -> Option<Version> {
        match number {
            1 => Some(Version::One),
            2 => Some(Version::Two),
            _ => None,
        }
    }
}

#[derive(Clone, Copy, Debug, PartialEq)]
pub enum Kind {
    Ping = 1,
    PingReq = 2,
    Ack = 3,
}

impl Kind {
    fn of(byte: u8) -> Option<Kind> {
        match byte {
            1 => Some(Kind::Ping),
            2 => Some(Kind::PingReq),
            3 => Some(Kind::Ack),
            _ => None,
        }
    }
}

/// What one probe is known by in the whole group.
#[derive(Clone, Copy, Debug, PartialEq)]
pub struct Key {
    pub initiator: u32,
    pub target: u32,
    pub number: u64,
}

#[derive(Clone, Copy, Debug, PartialEq)]
pub struct Message {
    pub version: Version,
    pub kind: Kind,
    pub sender: u32,
    pub key: Key,
    /// Where the target is. A ping-req of version 2 tells it, and no other message.
    pub at: Option<Peer>,
}

/// Why bytes are no datagram.
#[derive(Clone, Copy, Debug, PartialEq)]
pub enum WireFault {
    Length = 1,
    Magic,
    Version,
    UnknownKind,
    ZeroId,
    ZeroNumber,
    Form,
    ZeroPort,
}

impl Message {
    /// A ping of the member that begins the probe.
    pub fn of_probe(initiator: u32, probe: &Probe) -> Message {
        Message {
            version: probe.version,
            kind: Kind::Ping,
            sender: initiator,
            key: Key {
                initiator,
                target: probe.target,
                number: probe.number,
            },
            at: None,
        }
    }

    /// What that member asks relays.
    pub fn of_ask(initiator: u32, probe: &Probe) -> Message {
        Message {
            kind: Kind::PingReq,
            at: (probe.version == Version::Two).then_some(probe.peer),
            ..Message::of_probe(initiator, probe)
        }
    }

    /// The message that an even number of hexadecimal digits spell, or the first fault.
    pub fn of_digits(digits: &[u8]) -> Result<Message, WireFault> {
        let short = bytes_of::<BYTES>(digits).map(|bytes| Message::of_datagram(&bytes));
        let long = || bytes_of::<MOST_BYTES>(digits).map(|bytes| Message::of_datagram(&bytes));
        short.or_else(long).unwrap_or(Err(WireFault::Length))
    }

    /// The message of a datagram, or the first fault.
    pub fn of_datagram(bytes: &[u8]) -> Result<Message, WireFault> {
        if bytes.len() != BYTES && bytes.len() != MOST_BYTES {
            return Err(WireFault::Length);
        }
        if bytes[..2] != [0x53, 0x57] {
            return Err(WireFault::Magic);
        }
        let version = Version::of(u64::from(bytes[2])).ok_or(WireFault::Version)?;
        let kind = Kind::of(bytes[3]).ok_or(WireFault::UnknownKind)?;
        let tells_address = version == Version::Two && kind == Kind::PingReq;
        if tells_address != (bytes.len() == MOST_BYTES) {
            return Err(WireFault::Form);
        }
        let (sender, key) = (number_at::<4>(bytes, 4) as u32, key_of(bytes));
        if sender == 0 || key.initiator == 0 || key.target == 0 {
            return Err(WireFault::ZeroId);
        }
        if key.number == 0 {
            return Err(WireFault::ZeroNumber);
        }
        let at = tells_address.then(|| peer_behind(&bytes[BYTES..]));
        if at.is_some_and(|peer| peer.port == 0) {
            return Err(WireFault::ZeroPort);
        }
        Ok(Message {
            version,
            kind,
            sender,
            key,
            at,
        })
    }

    /// The datagram, in front of as many bytes as one may have, and how many it has.
    pub fn datagram(&self) -> ([u8; MOST_BYTES], usize) {
        let mut bytes = [0; MOST_BYTES];
        bytes[..4].copy_from_slice(&[0x53, 0x57, self.version as u8, self.kind as u8]);
        bytes[4..8].copy_from_slice(&self.sender.to_be_bytes());
        bytes[8..12].copy_from_slice(&self.key.initiator.to_be_bytes());
        bytes[12..16].copy_from_slice(&self.key.target.to_be_bytes());
        bytes[16..24].copy_from_slice(&self.key.number.to_be_bytes());
        let Some(peer) = self.at else {
            return (bytes, BYTES);
        };
        bytes[24..28].copy_from_slice(&peer.ip);
        bytes[28..].copy_from_slice(&peer.port.to_be_bytes());
        (bytes, MOST_BYTES)
    }
}

/// The number of so many bytes that begin at that place.
fn number_at<const COUNT: usize>(bytes: &[u8], place: usize) -> u64 {
    bytes[place..place + COUNT]
        .iter()
        .fold(0, |number, byte| number << 8 | u64::from(*byte))
}

fn key_of(bytes: &[u8]) -> Key {
    Key {
        initiator: number_at::<4>(bytes, 8) as u32,
        target: number_at::<4>(bytes, 12) as u32,
        number: number_at::<8>(bytes, 16),
    }
}

fn peer_behind(bytes: &[u8]) -> Peer {
    Peer {
        ip: [bytes[0], bytes[1], bytes[2], bytes[3]],
        port: number_at::<2>(bytes, 4) as u16,
    }
}
