//! An ordinary daemon: three threads, a mutex over detector and journal, a UDP socket and a Unix socket for control lines.

use crate::chacha::ChaCha;
use crate::choosers::Chooser;
use crate::control::{serve, Command, Next};
use crate::events::Event;
use crate::node::{Node, Outgoing};
use crate::output::Output;
use crate::settings::Settings;
use crate::wire::{Message, Peer};
use std::fs::File;
use std::io::{self, Read};
use std::net::{Ipv4Addr, Shutdown, SocketAddr, SocketAddrV4, UdpSocket};
use std::os::fd::AsRawFd;
use std::os::unix::fs::PermissionsExt;
use std::os::unix::net::{UnixListener, UnixStream};
use std::process::ExitCode;
use std::sync::atomic::{AtomicBool, AtomicU64, Ordering::Relaxed};
use std::sync::{Mutex, MutexGuard};
use std::thread;
use std::time::Duration;

/// The most bytes of a configuration.
const MOST_BYTES: u64 = 65_536;

/// So many failures of the control socket in a row end the daemon.
const FAULTS: u32 = 16;

/// How long a wait lasts before the flag is looked at again.
const TURN: Duration = Duration::from_millis(100);

/// What the threads share.
struct Daemon {
    node: Mutex<Node>,
    socket: UdpSocket,
    over: AtomicBool,
    journal_full: AtomicBool,
    socket_failed: AtomicBool,
    unsent: AtomicU64,
    wire: AtomicU64,
}

/// Runs a daemon to its end, and writes its closing line.
pub fn run(file: &str) -> ExitCode {
    let mut text = String::new();
    let file = File::open(file).map(|file| file.take(MOST_BYTES));
    if file
        .and_then(|mut file| file.read_to_string(&mut text))
        .is_err()
    {
        return refused("configuration file", 1);
    }
    let Some(settings) = Settings::read(&text) else {
        return refused("configuration", 1);
    };
    let Ok(socket) = UdpSocket::bind(address(settings.listen)) else {
        return refused("bind listen", 5);
    };
    let Ok(listener) = door(&settings.control) else {
        return refused("bind control", 5);
    };
    let chooser = Chooser::Seeded(ChaCha::new(&settings.seed));
    let daemon = Daemon {
        node: Mutex::new(Node::new(&settings.opening, chooser, settings.limit)),
        socket,
        over: AtomicBool::new(false),
        journal_full: AtomicBool::new(false),
        socket_failed: AtomicBool::new(false),
        unsent: AtomicU64::new(0),
        wire: AtomicU64::new(0),
    };
    let pause = Duration::from_millis(settings.tick_ms);
    for life in 0.. {
        thread::scope(|scope| {
            scope.spawn(|| daemon.receive());
            scope.spawn(|| daemon.tick(pause));
            daemon.control(&listener);
        });
        if !daemon.journal_full.load(Relaxed) {
            break;
        }
        println!("life {life} {}", daemon.counts());
        daemon.begin_again(ChaCha::of_stream(&settings.seed, life + 1));
    }
    daemon.close()
}

fn refused(text: &str, status: u8) -> ExitCode {
    eprintln!("{text}");
    ExitCode::from(status)
}

fn address(peer: Peer) -> SocketAddrV4 {
    SocketAddrV4::new(Ipv4Addr::from(peer.ip), peer.port)
}

/// The control socket, which its owner alone may connect to.
fn door(path: &str) -> io::Result<UnixListener> {
    let listener = UnixListener::bind(path)?;
    std::fs::set_permissions(path, PermissionsExt::from_mode(0o600))?;
    Ok(listener)
}

impl Daemon {
    fn node(&self) -> MutexGuard<'_, Node> {
        self.node.lock().unwrap_or_else(|it| it.into_inner())
    }

    fn is_over(&self) -> bool {
        self.over.load(Relaxed)
    }

    fn end(&self, of_full_journal: bool) {
        self.journal_full.fetch_or(of_full_journal, Relaxed);
        self.over.store(true, Relaxed);
    }

    /// Answers a call without a look at the reply.
    fn call(&self, event: Event) {
        let called = self.node().call(event).map(|(_, outgoing)| outgoing);
        match called {
            Some(outgoing) => self.send(outgoing),
            None => self.end(true),
        }
    }

    fn send(&self, outgoing: Outgoing) {
        match outgoing {
            Outgoing::Nothing => {}
            Outgoing::One(peer, message) => self.send_one(peer, &message),
            Outgoing::Requests(peers, message) => {
                for peer in peers {
                    self.send_one(peer, &message);
                }
            }
        }
    }

    fn send_one(&self, peer: Peer, message: &Message) {
        let (bytes, length) = message.datagram();
        let sent = self.socket.send_to(&bytes[..length], address(peer));
        if sent.is_err() {
            self.unsent.fetch_add(1, Relaxed);
        }
    }

    fn receive(&self) {
        let _ = self.socket.set_read_timeout(Some(TURN));
        let mut bytes = [0; 64];
        while !self.is_over() {
            let Ok((length, SocketAddr::V4(source))) = self.socket.recv_from(&mut bytes) else {
                continue;
            };
            match Message::of_datagram(&bytes[..length]) {
                Ok(message) => self.call(Event::Hear(peer(source), Ok(message))),
                Err(_) => drop(self.wire.fetch_add(1, Relaxed)),
            }
        }
    }

    fn tick(&self, pause: Duration) {
        while !self.is_over() {
            let mut left = pause;
            while !left.is_zero() && !self.is_over() {
                let part = left.min(TURN);
                thread::sleep(part);
                left -= part;
            }
            if !self.is_over() {
                self.call(Event::Tick);
            }
        }
    }

    fn control(&self, listener: &UnixListener) {
        let mut faults = 0;
        while !self.is_over() {
            if !is_ready(listener) {
                continue;
            }
            let Ok((stream, _)) = listener.accept() else {
                faults += 1;
                if faults == FAULTS {
                    self.socket_failed.store(true, Relaxed);
                    self.end(false);
                }
                continue;
            };
            faults = 0;
            match serve(&stream, |command, output| self.answer(command, output)) {
                Ok(Next::Stop) => self.end(false),
                Ok(Next::JournalFull) => self.end(true),
                _ => {}
            }
        }
    }

    fn answer(&self, command: Command, output: &mut Output<&UnixStream>) -> Next {
        match command {
            Command::List => output.table(self.node().detector().members()),
            Command::Gap(id) => output.gap(self.node().detector().gaps().widest(id)),
            Command::Join(id, peer) => return self.change(Event::Join(id, peer), output),
            Command::Remove(id) => return self.change(Event::Remove(id), output),
            Command::Stop => {
                output.line("stopping");
                return Next::Stop;
            }
        }
        Next::Line
    }

    /// A join or a removal.
    fn change(&self, event: Event, output: &mut Output<&UnixStream>) -> Next {
        match self.node().call(event) {
            None => {
                output.journal_full();
                Next::JournalFull
            }
            Some((reply, _)) => {
                output.reply(reply, 0, &[]);
                Next::Line
            }
        }
    }

    /// The next life: the members stay, and all counts begin again.
    fn begin_again(&self, words: ChaCha) {
        let mut node = self.node();
        *node = node.after(Chooser::Seeded(words));
        self.over.store(false, Relaxed);
        self.journal_full.store(false, Relaxed);
        self.unsent.store(0, Relaxed);
        self.wire.store(0, Relaxed);
    }

    fn counts(&self) -> String {
        let (entries, judged) = self.node().counts();
        let (unsent, wire) = (self.unsent.load(Relaxed), self.wire.load(Relaxed));
        format!("entries {entries} judged {judged} unsent {unsent} wire {wire} refused 0")
    }

    fn close(self) -> ExitCode {
        let failed = self.socket_failed.load(Relaxed);
        let why = if failed { "socket" } else { "stopped" };
        println!("ended {why} {}", self.counts());
        ExitCode::from(if failed { 5 } else { 0 })
    }
}

fn peer(source: SocketAddrV4) -> Peer {
    Peer {
        ip: source.ip().octets(),
        port: source.port(),
    }
}

#[repr(C)]
struct PollEntry {
    descriptor: i32,
    events: i16,
    found: i16,
}

extern "C" {
    fn poll(entries: *mut PollEntry, count: std::ffi::c_ulong, milliseconds: i32) -> i32;
}

/// Whether somebody connects within a turn.
fn is_ready(listener: &UnixListener) -> bool {
    const READABLE: i16 = 1;
    let mut entry = PollEntry {
        descriptor: listener.as_raw_fd(),
        events: READABLE,
        found: 0,
    };
    // The entry is one, and stands for as long as the call lasts.
    unsafe { poll(&mut entry, 1, TURN.as_millis() as i32) > 0 }
}

/// Sends the control lines of standard input to a daemon, and writes what it answers.
pub fn ask(path: &str) -> ExitCode {
    let Ok(stream) = UnixStream::connect(path) else {
        return refused("connect control", 5);
    };
    thread::scope(|scope| {
        scope.spawn(|| {
            let _ = io::copy(&mut io::stdin(), &mut &stream);
            stream.shutdown(Shutdown::Write)
        });
        let _ = io::copy(&mut &stream, &mut io::stdout());
        // Where the daemon hung up, what stands on standard input is not waited for.
        std::process::exit(0)
    })
}
