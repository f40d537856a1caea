//! Plays a script up to its end or its first fault.

use crate::events::Event;
use crate::faults::{Fault, ScriptFault};
use crate::fields::Words;
use crate::header::Header;
use crate::input::Input;
use crate::output::Output;
use crate::session::Session;
use std::io::Write;

/// Where a script has come.
#[derive(Default)]
pub struct Player {
    keeps_journal: bool,
    /// After how many event lines a detector goes on from the one that played them.
    cut: Option<u32>,
    events: u32,
    /// Whether one goes on where a call meets the full journal, and how many did.
    has_lives: bool,
    life: u64,
    is_journal: bool,
    line: u32,
    header: Option<Header>,
    session: Option<Session>,
}

impl Player {
    /// It keeps calls and replies as a journal.
    pub fn with_journal() -> Player {
        Player {
            keeps_journal: true,
            ..Player::default()
        }
    }

    pub fn cut_at(place: u32) -> Player {
        Player {
            cut: Some(place),
            ..Player::default()
        }
    }

    pub fn with_lives() -> Player {
        Player {
            has_lives: true,
            ..Player::default()
        }
    }

    pub fn run<W: Write>(
        mut self,
        input: &Input,
        output: &mut Output<W>,
    ) -> Result<(), ScriptFault> {
        let played = self.play(input, output);
        // What was answered before a fault stands; where it can't be handed on, that is told instead.
        let written = output.flush().map_err(|_| Fault::Write.at(self.line));
        written.and(played)
    }

    fn play<W: Write>(&mut self, input: &Input, output: &mut Output<W>) -> Result<(), ScriptFault> {
        self.is_journal = input.is_journal;
        for line in input.lines() {
            self.line += 1;
            match line.and_then(|line| self.read(line)) {
                Err(fault) => return Err(fault.at(self.line)),
                Ok(None) => {}
                Ok(Some(event)) => {
                    self.cut(output)?;
                    let is_journal = self.is_journal;
                    let session = self.session()?;
                    let is_full = session.is_full_for(&event);
                    session.play(event, output, is_journal);
                    self.events += 1;
                    if is_full && self.has_lives {
                        self.life += 1;
                        self.go_on();
                    }
                }
            }
            output.hand_on().map_err(|_| Fault::Write.at(self.line))?;
        }
        self.cut(output)?;
        self.session().map(|_| ())
    }

    /// Goes on, and says so, where the cut is.
    fn cut<W: Write>(&mut self, output: &mut Output<W>) -> Result<(), ScriptFault> {
        if self.cut == Some(self.events) {
            self.session()?;
            self.go_on();
            output.line("cut");
        }
        Ok(())
    }

    /// A detector goes on from the one that played so far. What is to be drawn is told anew.
    fn go_on(&mut self) {
        if let (Some(header), Some(session)) = (&self.header, &mut self.session) {
            session.go_on(header.chooser(self.life));
        }
    }

    /// The event of a line. What a header line says is kept.
    fn read(&mut self, line: &[u8]) -> Result<Option<Event>, Fault> {
        if line.is_empty() || line[0] == b'#' || (self.is_journal && self.line == 1) {
            return Ok(None);
        }
        if let (true, Some(session), [b'=', b' ', text @ ..]) =
            (self.is_journal, &self.session, line)
        {
            return match session.is_newest(text) {
                true => Ok(None),
                false => Err(Fault::Differs),
            };
        }
        let mut words = Words::new(line);
        let word = words.next().unwrap_or_default();
        match &mut self.header {
            None if word == b"open" => self.header = Some(Header::open(self.line, &mut words)?),
            None => return Err(Fault::Word),
            Some(header) => match Event::read(word, &mut words)? {
                Some(event) => return Ok(Some(event)),
                None if self.session.is_some() => return Err(Fault::Word),
                None => header.tell(word, &mut words, self.is_journal)?,
            },
        }
        words.end()?;
        Ok(None)
    }

    /// The session, which is opened at the first event line or at the end of the script.
    fn session(&mut self) -> Result<&mut Session, ScriptFault> {
        match &mut self.session {
            Some(session) => Ok(session),
            none => {
                let header = self.header.as_ref().ok_or(Fault::Word.at(0))?;
                Ok(none.insert(Session::open(header, self.keeps_journal)?))
            }
        }
    }
}
