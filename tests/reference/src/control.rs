//! A control connection, to its end.

use crate::fields::Words;
use crate::output::Output;
use std::io::{self, BufRead, BufReader, Read, Write};

/// The most bytes of a line without its line feed, and the most reads of a connection.
const LINE_BYTES: usize = 128;
const READS: usize = 1_048_576;

/// What goes on after a line.
#[derive(Clone, Copy, Debug, PartialEq)]
pub enum Next {
    Line,
    End,
    Stop,
    JournalFull,
}

/// The fault of a line.
#[derive(Clone, Copy)]
pub enum LineFault {
    Long = 1,
    Word,
    Id,
    Peer,
    Extra,
    Unended,
}

pub enum Command {
    List,
    Join(u32, crate::wire::Peer),
    Remove(u32),
    Gap(u32),
    Stop,
}

impl Command {
    fn read(line: &[u8]) -> Result<Command, LineFault> {
        let mut words = Words::new(line);
        let id = |words: &mut Words| words.id().map_err(|_| LineFault::Id);
        let command = match words.next().unwrap_or_default() {
            b"list" => Command::List,
            b"stop" => Command::Stop,
            b"remove" => Command::Remove(id(&mut words)?),
            b"gap" => Command::Gap(id(&mut words)?),
            b"join" => {
                let id = id(&mut words)?;
                Command::Join(id, words.peer().map_err(|_| LineFault::Peer)?)
            }
            _ => return Err(LineFault::Word),
        };
        words.end().map_err(|_| LineFault::Extra)?;
        Ok(command)
    }
}

/// Serves a connection. `answer` carries a command out, and writes what it is answered.
pub fn serve<S>(
    stream: S,
    mut answer: impl FnMut(Command, &mut Output<S>) -> Next,
) -> io::Result<Next>
where
    S: Read + Write + Copy,
{
    let (mut reader, mut output) = (BufReader::new(stream), Output::new(stream));
    let mut reads = READS;
    loop {
        if reader.buffer().is_empty() {
            output.flush()?;
        }
        let mut line = Vec::new();
        let most = reads.min(LINE_BYTES + 1);
        let taken = reader
            .by_ref()
            .take(most as u64)
            .read_until(b'\n', &mut line)?;
        let is_whole = line.last() == Some(&b'\n');
        if !is_whole && taken == reads && taken <= LINE_BYTES {
            output.flush()?;
            return Ok(Next::End);
        }
        reads -= taken;
        let next = match line.strip_suffix(b"\n").map(Command::read) {
            Some(Ok(command)) => answer(command, &mut output),
            Some(Err(fault)) => output.fault(fault, Next::Line),
            None if taken == 0 => Next::End,
            None if taken > LINE_BYTES => output.fault(LineFault::Long, Next::End),
            None => output.fault(LineFault::Unended, Next::End),
        };
        if next != Next::Line {
            output.flush()?;
            return Ok(next);
        }
    }
}

impl<W: Write> Output<W> {
    fn fault(&mut self, fault: LineFault, next: Next) -> Next {
        self.numbered("fault ", fault as u64);
        next
    }
}
