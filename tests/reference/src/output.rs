//! What is written.

use crate::gaps::Gap;
use crate::members::{Members, State};
use crate::replies::{Probe, Reply};
use crate::wire::{Message, Peer, WireFault};
use std::io::{self, Write};

/// How many bytes are gathered before they are handed on.
const PIECE_BYTES: usize = 65_536;

/// The digits of each byte.
const DIGITS: [[u8; 2]; 256] = {
    let mut digits = [[0; 2]; 256];
    let mut byte = 0;
    while byte < 256 {
        digits[byte] = [
            b"0123456789abcdef"[byte / 16],
            b"0123456789abcdef"[byte % 16],
        ];
        byte += 1;
    }
    digits
};

pub struct Output<W> {
    writer: W,
    text: Vec<u8>,
}

impl<W: Write> Output<W> {
    pub fn new(writer: W) -> Output<W> {
        Output {
            writer,
            text: Vec::with_capacity(2 * PIECE_BYTES),
        }
    }

    /// Hands on what was gathered, if it is a piece.
    pub fn hand_on(&mut self) -> io::Result<()> {
        if self.text.len() < PIECE_BYTES {
            Ok(())
        } else {
            self.flush()
        }
    }

    pub fn flush(&mut self) -> io::Result<()> {
        let written = self.writer.write_all(&self.text);
        self.text.clear();
        written.and_then(|()| self.writer.flush())
    }

    /// How many bytes are gathered.
    pub fn length(&self) -> usize {
        self.text.len()
    }

    /// The first line of those that were gathered behind so many bytes.
    pub fn line_behind(&self, length: usize) -> &[u8] {
        let lines = &self.text[length..];
        lines
            .split(|byte| *byte == b'\n')
            .next()
            .unwrap_or_default()
    }

    /// A reply, and the messages that it sends; of an ask also its relays.
    pub fn reply(&mut self, reply: &Reply, me: u32, relays: &[(u32, Peer)]) {
        match reply {
            Reply::Quiet => self.line("quiet"),
            Reply::Heard => self.line("heard"),
            Reply::Removed => self.line("removed"),
            Reply::Joined(place) => self.numbered("joined ", u64::from(*place)),
            Reply::Dropped(reason) => self.numbered("dropped ", *reason as u64),
            Reply::Refused(refusal) => self.numbered("refused ", *refusal as u64),
            Reply::Started { judged, probe } => self.started(*judged, probe.as_ref(), me),
            Reply::Asked(probe) => {
                self.asked(probe.target, probe.number, relays);
                for (_, peer) in relays {
                    self.send(*peer, Message::of_ask(me, probe));
                }
            }
            Reply::Send(peer, message) => {
                self.line("sent");
                self.send(*peer, *message);
            }
        }
    }

    fn started(&mut self, judged: Option<u32>, probe: Option<&Probe>, me: u32) {
        self.put("started judged ");
        self.id_or_none(judged);
        self.put(" probe ");
        self.id_or_none(probe.map(|probe| probe.target));
        match probe {
            None => self.put("\n"),
            Some(probe) => {
                self.numbered(" ", probe.number);
                self.send(probe.peer, Message::of_probe(me, probe));
            }
        }
    }

    fn asked(&mut self, target: u32, number: u64, relays: &[(u32, Peer)]) {
        self.put("asked ");
        self.number(u64::from(target));
        self.put(" ");
        self.number(number);
        self.put(" by ");
        self.id_or_none(relays.first().map(|relay| relay.0));
        for (id, _) in relays.iter().skip(1) {
            self.put(",");
            self.number(u64::from(*id));
        }
        self.put("\n");
    }

    pub fn wire_fault(&mut self, fault: WireFault) {
        self.numbered("wire ", fault as u64);
    }

    pub fn journal_full(&mut self) {
        self.line("journal full");
    }

    pub fn table(&mut self, members: &Members) {
        for row in members.rows() {
            self.number(u64::from(row.id));
            self.put(" ");
            self.peer(row.peer);
            match row.state {
                State::Up => self.line(" up"),
                State::Failed(number) => self.numbered(" failed ", number),
            }
        }
        self.line(".");
    }

    pub fn gap(&mut self, gap: Option<Gap>) {
        match gap {
            None => self.line("gap none"),
            Some(gap) => {
                self.put("gap ");
                self.number(gap.first);
                self.put(" ");
                self.number(gap.second);
                self.numbered(" ", gap.listed);
            }
        }
    }

    fn send(&mut self, peer: Peer, message: Message) {
        self.put("> ");
        self.peer(peer);
        self.put(" ");
        let (bytes, length) = message.datagram();
        let digits = bytes.map(|byte| DIGITS[usize::from(byte)]);
        self.text.extend_from_slice(digits[..length].as_flattened());
        self.put("\n");
    }

    fn put(&mut self, text: &str) {
        self.text.extend_from_slice(text.as_bytes());
    }

    pub fn line(&mut self, text: &str) {
        self.put(text);
        self.put("\n");
    }

    pub fn numbered(&mut self, text: &str, number: u64) {
        self.put(text);
        self.number(number);
        self.put("\n");
    }

    fn id_or_none(&mut self, id: Option<u32>) {
        match id {
            Some(id) => self.number(u64::from(id)),
            None => self.put("-"),
        }
    }

    fn peer(&mut self, peer: Peer) {
        for (octet, end) in peer.ip.iter().zip([".", ".", ".", ":"]) {
            self.number(u64::from(*octet));
            self.put(end);
        }
        self.number(u64::from(peer.port));
    }

    fn number(&mut self, number: u64) {
        let (mut digits, mut start, mut left) = ([0; 20], 20, number);
        loop {
            start -= 1;
            digits[start] = b'0' + (left % 10) as u8;
            left /= 10;
            if left == 0 {
                break;
            }
        }
        self.text.extend_from_slice(&digits[start..]);
    }
}
