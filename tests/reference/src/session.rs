//! The detector of a script, and how many entries its journal would have.

use crate::choosers::Chooser;
use crate::detector::Detector;
use crate::events::Event;
use crate::faults::{Fault, ScriptFault};
use crate::header::Header;
use crate::journal::{Entry, Journal};
use crate::output::Output;
use std::io::Write;

pub struct Session {
    detector: Detector,
    entries: u32,
    limit: u32,
    journal: Option<Journal>,
    /// The place of the newest entry and its reply, as a line of a journal file tells them.
    newest: Option<String>,
}

impl Session {
    /// Checks the opening, and opens the detector, with a journal or without one.
    pub fn open(header: &Header, keeps_journal: bool) -> Result<Session, ScriptFault> {
        match header.opening.fault() {
            Some(number) => Err(Fault::Opening(number).at(header.line)),
            None => {
                let chooser = header.chooser(0);
                let detector = Detector::new(&header.opening, chooser);
                Ok(Session {
                    detector,
                    entries: 0,
                    limit: header.limit,
                    journal: keeps_journal.then(Journal::default),
                    newest: None,
                })
            }
        }
    }

    /// Begins again with what the detector leaves.
    pub fn go_on(&mut self, chooser: Chooser) {
        self.detector = self.detector.after(chooser);
        self.entries = 0;
    }

    /// Whether a line behind an entry tells it as it is.
    pub fn is_newest(&self, text: &[u8]) -> bool {
        self.newest
            .as_ref()
            .is_some_and(|newest| newest.as_bytes() == text)
    }

    /// Whether the event is a call that finds the journal full.
    pub fn is_full_for(&self, event: &Event) -> bool {
        self.entries == self.limit && event.is_call()
    }

    /// Plays an event, and writes its answer. The newest reply is kept where lines may tell it.
    pub fn play<W: Write>(&mut self, event: Event, output: &mut Output<W>, is_journal: bool) {
        let is_full = self.is_full_for(&event);
        let detector = &mut self.detector;
        let reply = match &event {
            Event::Table => return output.table(detector.members()),
            Event::Gap(id) => return output.gap(detector.gaps().widest(*id)),
            Event::Hear(_, Err(fault)) => return output.wire_fault(*fault),
            _ if is_full => return output.journal_full(),
            Event::Tick => detector.tick(),
            Event::Hear(source, Ok(message)) => detector.hear(*message, *source),
            Event::Join(id, peer) => detector.join(*id, *peer),
            Event::Remove(id) => detector.remove(*id),
        };
        let start = output.length();
        output.reply(&reply, detector.me(), detector.relays());
        if is_journal {
            let text = String::from_utf8_lossy(output.line_behind(start));
            self.newest = Some(format!("{} {text}", self.entries));
        }
        self.entries += 1;
        if let Some(journal) = &mut self.journal {
            let drawn = detector.drawn(&reply);
            journal.add(Entry {
                event,
                reply,
                drawn,
            });
        }
    }
}
