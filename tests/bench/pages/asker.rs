//! Asks for a page again and again, on connections that are kept, and writes how many seconds that took, and how many
//! microseconds half of the answers and 99 of 100 took at most.
//!
//! Usage: asker ADDRESS:PORT PATH CONNECTIONS COUNT; so many requests in all, of which each connection has its part.

use std::io::{Error, ErrorKind, Read, Result, Write};
use std::net::TcpStream;
use std::thread;
use std::time::Instant;

const OK: &[u8] = b"HTTP/1.1 200 ";

/// Where the head of an answer ends, and how long its body is, once the head is whole.
fn head(answer: &[u8]) -> Option<(usize, usize)> {
    let end = answer.windows(4).position(|it| it == b"\r\n\r\n")? + 4;
    let text = std::str::from_utf8(&answer[..end]).ok()?;
    let field = |line: &str| {
        let (name, value) = line.split_once(':')?;
        let is_length = name.eq_ignore_ascii_case("content-length");
        is_length.then(|| value.trim().parse().ok()).flatten()
    };
    Some((end, text.lines().find_map(field)?))
}

/// Asks once, and takes the whole answer.
fn ask(stream: &mut TcpStream, request: &[u8], answer: &mut Vec<u8>) -> Result<()> {
    stream.write_all(request)?;
    answer.clear();
    let mut part = [0; 65_536];
    loop {
        let count = stream.read(&mut part)?;
        answer.extend_from_slice(&part[..count]);
        match head(answer) {
            Some((end, length)) if answer.len() >= end + length => break,
            _ if count == 0 => return Err(Error::from(ErrorKind::UnexpectedEof)),
            _ => {}
        }
    }
    if answer.starts_with(OK) {
        Ok(())
    } else {
        Err(Error::other(String::from_utf8_lossy(answer)))
    }
}

/// Asks so often on a connection of its own, and says how many microseconds each answer took.
fn ask_often(address: &str, request: &[u8], count: usize) -> Result<Vec<u128>> {
    let mut stream = TcpStream::connect(address)?;
    stream.set_nodelay(true)?;
    let mut answer = Vec::new();
    let mut times = Vec::with_capacity(count);
    for _ in 0..count {
        let began = Instant::now();
        ask(&mut stream, request, &mut answer)?;
        times.push(began.elapsed().as_micros());
    }
    Ok(times)
}

fn main() -> Result<()> {
    let words: Vec<String> = std::env::args().collect();
    let number = |place: usize| words[place].parse::<usize>().unwrap_or_default();
    let (address, connections, count) = (&words[1], number(3), number(4));
    let request = format!("GET {} HTTP/1.1\r\nHost: {address}\r\n\r\n", words[2]);
    let began = Instant::now();
    let times: Result<Vec<_>> = thread::scope(|scope| {
        let ask = || ask_often(address, request.as_bytes(), count / connections);
        let askers: Vec<_> = (0..connections).map(|_| scope.spawn(ask)).collect();
        let ended = askers.into_iter().map(|it| it.join());
        ended.map(|it| it.expect("an asker panics")).collect()
    });
    let mut times = times?.concat();
    let seconds = began.elapsed().as_secs_f64();
    times.sort_unstable();
    let at_most = |part: usize| times[(times.len() * part / 100).min(times.len() - 1)];
    println!("{seconds} {} {}", at_most(50), at_most(99));
    Ok(())
}
