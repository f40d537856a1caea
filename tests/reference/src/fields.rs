//! The arguments of a line.

use crate::faults::Fault;
use crate::wire::{Message, Peer, WireFault};

/// The most ids of an order.
const ORDER_IDS: usize = 128;

/// The words of a line, which is cut at each space.
pub struct Words<'a> {
    rest: Option<&'a [u8]>,
}

impl<'a> Words<'a> {
    pub fn new(line: &'a [u8]) -> Words<'a> {
        Words { rest: Some(line) }
    }

    pub fn end(&self) -> Result<(), Fault> {
        if self.rest.is_none() {
            Ok(())
        } else {
            Err(Fault::Extra)
        }
    }

    pub fn number(&mut self, largest: u64) -> Result<u64, Fault> {
        self.next()
            .and_then(|word| number_of(word, largest))
            .ok_or(Fault::Number)
    }

    /// A number of 32 bits.
    pub fn short(&mut self) -> Result<u32, Fault> {
        Ok(self.number(u64::from(u32::MAX))? as u32)
    }

    pub fn id(&mut self) -> Result<u32, Fault> {
        self.next().and_then(id_of).ok_or(Fault::Number)
    }

    pub fn peer(&mut self) -> Result<Peer, Fault> {
        self.next().and_then(peer_of).ok_or(Fault::Peer)
    }

    /// The message that digits spell, an even number of them, or why they spell none.
    pub fn datagram(&mut self) -> Result<Result<Message, WireFault>, Fault> {
        Ok(Message::of_digits(self.digits()?))
    }

    /// Hexadecimal digits, an even number of them.
    fn digits(&mut self) -> Result<&'a [u8], Fault> {
        let word = self.next().ok_or(Fault::Hex)?;
        let values = word
            .iter()
            .fold(0, |values, digit| values | VALUES[usize::from(*digit)]);
        let good = word.len() % 2 == 0 && values & NO_DIGIT == 0;
        if good {
            Ok(word)
        } else {
            Err(Fault::Hex)
        }
    }

    pub fn seed(&mut self) -> Result<[u8; 32], Fault> {
        bytes_of(self.digits()?).ok_or(Fault::Hex)
    }

    /// Puts the ids of an order behind those that are there.
    pub fn ids(&mut self, ids: &mut Vec<u32>) -> Result<(), Fault> {
        let before = ids.len();
        let word = self.next().ok_or(Fault::Number)?;
        for part in word.split(|byte| *byte == b',') {
            ids.push(id_of(part).ok_or(Fault::Number)?);
        }
        if ids.len() - before > ORDER_IDS {
            Err(Fault::Order)
        } else {
            Ok(())
        }
    }
}

impl<'a> Iterator for Words<'a> {
    type Item = &'a [u8];

    fn next(&mut self) -> Option<&'a [u8]> {
        let line = self.rest?;
        match line.iter().position(|byte| *byte == b' ') {
            Some(space) => {
                self.rest = Some(&line[space + 1..]);
                Some(&line[..space])
            }
            None => {
                self.rest = None;
                Some(line)
            }
        }
    }
}

/// The number that a text spells: decimal, without a sign, and without a zero in front.
pub fn number_of(text: &[u8], largest: u64) -> Option<u64> {
    if text.is_empty() || (text[0] == b'0' && text.len() > 1) {
        return None;
    }
    let mut number: u64 = 0;
    for byte in text {
        let digit = byte.wrapping_sub(b'0');
        if digit > 9 {
            return None;
        }
        number = number.checked_mul(10)?.checked_add(u64::from(digit))?;
    }
    (number <= largest).then_some(number)
}

fn id_of(text: &[u8]) -> Option<u32> {
    let number = number_of(text, u64::from(u32::MAX))?;
    (number != 0).then_some(number as u32)
}

/// `a.b.c.d:port`
pub fn peer_of(text: &[u8]) -> Option<Peer> {
    let colon = text.iter().position(|byte| *byte == b':')?;
    let port = number_of(&text[colon + 1..], u64::from(u16::MAX))? as u16;
    let mut octets = text[..colon].split(|byte| *byte == b'.');
    let mut ip = [0; 4];
    for octet in &mut ip {
        *octet = number_of(octets.next()?, 255)? as u8;
    }
    (octets.next().is_none() && port != 0).then_some(Peer { ip, port })
}

/// The bytes that hexadecimal digits spell, if they are exactly as many.
pub fn bytes_of<const COUNT: usize>(digits: &[u8]) -> Option<[u8; COUNT]> {
    let mut bytes = [0; COUNT];
    for (byte, pair) in bytes.iter_mut().zip(digits.chunks_exact(2)) {
        *byte = VALUES[usize::from(pair[0])] << 4 | VALUES[usize::from(pair[1])];
    }
    (digits.len() == 2 * COUNT).then_some(bytes)
}

/// What stands in `VALUES` for a byte that is no digit.
const NO_DIGIT: u8 = 0x80;

/// The value of each hexadecimal digit.
const VALUES: [u8; 256] = {
    let mut values = [NO_DIGIT; 256];
    let mut value = 0;
    while value < 16 {
        values[b"0123456789abcdef"[value] as usize] = value as u8;
        values[b"0123456789ABCDEF"[value] as usize] = value as u8;
        value += 1;
    }
    values
};
