//! The least responder for this format: it answers each ping for a member with its ack, and does nothing else. Two system
//! calls a datagram, no threads, no journal.
//!
//! Usage: responder ADDRESS:PORT ID [threads]; with the last word it has a second thread, which sleeps, and a receive ends
//! after a tenth of a second: what any daemon pays that also ticks and can be stopped.

use std::net::UdpSocket;
use std::thread;
use std::time::Duration;

const PING: [u8; 4] = [0x53, 0x57, 1, 1];
const ACK: u8 = 3;

fn main() -> std::io::Result<()> {
    let words: Vec<String> = std::env::args().collect();
    let socket = UdpSocket::bind(&words[1])?;
    let me = words[2].parse::<u32>().unwrap_or_default().to_be_bytes();
    if words.len() > 3 {
        thread::spawn(|| thread::sleep(Duration::MAX));
        socket.set_read_timeout(Some(Duration::from_millis(100)))?;
    }
    let mut bytes = [0; 64];
    loop {
        let Ok((length, source)) = socket.recv_from(&mut bytes) else {
            continue;
        };
        if length == 24 && bytes[..4] == PING && bytes[12..16] == me {
            bytes[3] = ACK;
            bytes[4..8].copy_from_slice(&me);
            socket.send_to(&bytes[..24], source)?;
        }
    }
}
