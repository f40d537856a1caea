//! The least server of this page: for each request it asks a daemon one control line, and answers what the daemon
//! answered. It doesn't look at the request, has a thread for each connection, and nothing in it has a limit.
//!
//! Usage: page ADDRESS:PORT CONTROL LINE

use std::io::{Read, Result, Write};
use std::net::{TcpListener, TcpStream};
use std::os::unix::net::UnixStream;
use std::thread;

/// What the daemon at that control path answers to the line: its text up to the dot that ends it.
fn asked(control: &str, line: &str) -> Result<Vec<u8>> {
    let mut stream = UnixStream::connect(control)?;
    stream.write_all(format!("{line}\n").as_bytes())?;
    let mut answer = Vec::new();
    let mut part = [0; 65_536];
    while !answer.ends_with(b".\n") {
        let count = stream.read(&mut part)?;
        if count == 0 {
            break;
        }
        answer.extend_from_slice(&part[..count]);
    }
    Ok(answer)
}

/// Answers each request of a connection, which ends with an empty line.
fn serve(mut guest: TcpStream, control: &str, line: &str) -> Result<()> {
    guest.set_nodelay(true)?;
    let mut request = Vec::new();
    let mut part = [0; 4_096];
    loop {
        let count = guest.read(&mut part)?;
        if count == 0 {
            return Ok(());
        }
        request.extend_from_slice(&part[..count]);
        if request.ends_with(b"\r\n\r\n") {
            request.clear();
            let body = asked(control, line)?;
            let length = body.len();
            let kind = "content-type: text/plain; charset=utf-8";
            let head = format!("HTTP/1.1 200 OK\r\n{kind}\r\ncontent-length: {length}\r\n\r\n");
            guest.write_all(&[head.as_bytes(), &body].concat())?;
        }
    }
}

fn main() -> Result<()> {
    let words: Vec<String> = std::env::args().collect();
    let listener = TcpListener::bind(&words[1])?;
    for guest in listener.incoming() {
        let (guest, control, line) = (guest?, words[2].clone(), words[3].clone());
        thread::spawn(move || serve(guest, &control, &line));
    }
    Ok(())
}
