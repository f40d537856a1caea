//! The header of a script: the opening, and who chooses.

use crate::chacha::ChaCha;
use crate::choosers::{Chooser, Scripted};
use crate::faults::Fault;
use crate::fields::Words;
use crate::members::{Row, State, KNOWN_MEMBERS};
use crate::wire::Version;

/// What a detector starts from.
pub struct Opening {
    pub me: u32,
    pub k: u32,
    pub rtt: u32,
    pub period: u32,
    pub version: Version,
    pub last: u64,
    pub rows: Vec<Row>,
}

impl Opening {
    /// The number of the first limit that it breaks.
    pub fn fault(&self) -> Option<u8> {
        let (rtt, period) = (u64::from(self.rtt), u64::from(self.period));
        let mut ids: Vec<u32> = self.rows.iter().map(|row| row.id).collect();
        ids.sort_unstable();
        let faults = [
            self.k > 8,
            rtt == 0 || period < 3 * rtt || period > 65_535,
            ids.len() > KNOWN_MEMBERS,
            ids.contains(&self.me),
            ids.windows(2).any(|pair| pair[0] == pair[1]),
            self.rows.iter().any(|row| !self.was_used(row.state)),
        ];
        faults
            .iter()
            .position(|fault| *fault)
            .map(|place| place as u8 + 1)
    }

    /// Whether a member of that state failed in no period but those that were used.
    fn was_used(&self, state: State) -> bool {
        match state {
            State::Up => true,
            State::Failed(number) => (1..=self.last).contains(&number),
        }
    }
}

/// What the lines before the first event line told.
pub struct Header {
    /// The number of the `open` line.
    pub line: u32,
    pub limit: u32,
    pub opening: Opening,
    script: Scripted,
    seed: Option<[u8; 32]>,
    /// The life of a daemon that draws from the seed.
    life: u64,
    /// Whether a line told the version.
    has_version: bool,
}

impl Header {
    /// The arguments of the `open` line, which is the line of that number.
    pub fn open(line: u32, words: &mut Words) -> Result<Header, Fault> {
        let opening = Opening {
            me: words.id()?,
            k: words.short()?,
            rtt: words.short()?,
            period: words.short()?,
            version: Version::One,
            last: words.number(u64::MAX)?,
            rows: Vec::new(),
        };
        let limit = words.short()?;
        Ok(Header {
            line,
            limit,
            opening,
            script: Scripted::default(),
            seed: None,
            life: 0,
            has_version: false,
        })
    }

    /// A further line of the header, perhaps of a journal file.
    pub fn tell(
        &mut self,
        word: &[u8],
        words: &mut Words,
        is_journal: bool,
    ) -> Result<(), Fault> {
        match word {
            b"row" => self.opening.rows.push(Row {
                id: words.id()?,
                peer: words.peer()?,
                state: state_in(words, is_journal)?,
            }),
            b"order" | b"place" | b"seed" if self.seed.is_some() => return Err(Fault::Seed),
            b"order" => self.script.add_order(words)?,
            b"place" => self.script.add_place(words)?,
            b"seed" if !self.script.is_empty() => return Err(Fault::Seed),
            b"seed" => {
                self.seed = Some(words.seed()?);
                if is_journal && words.end().is_err() {
                    self.life = words.number(u64::MAX)?;
                }
            }
            b"wire" if !self.has_version => {
                let version = Version::of(words.number(u64::MAX)?);
                self.opening.version = version.ok_or(Fault::Number)?;
                self.has_version = true;
            }
            _ => return Err(Fault::Word),
        }
        Ok(())
    }

    /// Who chooses in the life of that number, which counts from the one that was told.
    pub fn chooser(&self, life: u64) -> Chooser {
        match &self.seed {
            Some(seed) => Chooser::Seeded(ChaCha::of_stream(seed, self.life.wrapping_add(life))),
            None => Chooser::Scripted(self.script.clone()),
        }
    }
}

/// The state of a row, which a journal file tells behind its address where the member failed.
fn state_in(words: &mut Words, is_journal: bool) -> Result<State, Fault> {
    if !is_journal || words.end().is_ok() {
        return Ok(State::Up);
    }
    match words.next() {
        Some(b"failed") => Ok(State::Failed(words.number(u64::MAX)?)),
        _ => Err(Fault::Extra),
    }
}
