//! Pings a member, and writes how many seconds it took and how many acks didn't come.
//!
//! Usage: pinger ADDRESS:PORT ID WINDOW COUNT THREADS [FILE]; so many pings in all, of which at most WINDOW wait for their ack
//! at a time. Each thread has a socket of its own and its part of both. With a file, its bytes are sent, 40 a ping: pings that
//! were made before, with their tags.

use std::io::Result;
use std::net::UdpSocket;
use std::thread;
use std::time::{Duration, Instant};

const PATIENCE: Duration = Duration::from_millis(200);
const INITIATOR: u32 = 9;
const SEALED_BYTES: usize = 40;

/// A ping of the member; its number is put in when it is sent.
fn ping(target: u32) -> [u8; 24] {
    let mut bytes = [0; 24];
    bytes[..4].copy_from_slice(&[0x53, 0x57, 1, 1]);
    bytes[4..8].copy_from_slice(&INITIATOR.to_be_bytes());
    bytes[8..12].copy_from_slice(&INITIATOR.to_be_bytes());
    bytes[12..16].copy_from_slice(&target.to_be_bytes());
    bytes
}

/// Sends so many pings, those that were made where there are some, and says how many acks didn't come.
fn send(address: &str, mut ping: [u8; 24], made: &[u8], window: u64, count: u64) -> Result<u64> {
    let socket = UdpSocket::bind("127.0.0.1:0")?;
    socket.connect(address)?;
    socket.set_read_timeout(Some(PATIENCE))?;
    let (mut sent, mut settled, mut lost) = (0, 0, 0);
    let mut made = made.chunks_exact(SEALED_BYTES);
    let mut ack = [0; 64];
    while settled < count {
        while sent < count && sent - settled < window {
            sent += 1;
            ping[16..].copy_from_slice(&u64::to_be_bytes(sent));
            socket.send(made.next().unwrap_or(&ping))?;
        }
        match socket.recv(&mut ack) {
            Ok(_) => settled += 1,
            Err(_) => {
                lost += sent - settled;
                settled = sent;
            }
        }
    }
    Ok(lost)
}

fn main() -> Result<()> {
    let words: Vec<String> = std::env::args().collect();
    let number = |place: usize| words[place].parse::<u32>().unwrap_or_default();
    let (ping, address, threads) = (ping(number(2)), &words[1], u64::from(number(5)));
    let (window, count) = (
        u64::from(number(3)) / threads,
        u64::from(number(4)) / threads,
    );
    let made = words.get(6).map_or(Ok(Vec::new()), std::fs::read)?;
    let began = Instant::now();
    let lost = thread::scope(|scope| {
        let part = SEALED_BYTES * count as usize;
        let senders = (0..threads as usize).map(|place| {
            let made = made.get(place * part..).unwrap_or_default();
            scope.spawn(move || send(address, ping, made, window, count))
        });
        let senders: Vec<_> = senders.collect();
        let lost = senders
            .into_iter()
            .map(|it| it.join().expect("a sender panics"));
        lost.sum::<Result<u64>>()
    })?;
    println!("{} {lost}", began.elapsed().as_secs_f64());
    Ok(())
}
