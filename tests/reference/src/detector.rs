//! The detector: ticks, messages, joins and removals in, replies out.

use crate::choosers::Chooser;
use crate::gaps::Gaps;
use crate::header::Opening;
use crate::journal::Drawn;
use crate::members::{Members, State};
use crate::replies::{DropReason, Probe, Refusal, Reply};
use crate::requests::{Asker, Requests};
use crate::round::Round;
use crate::wire::{Key, Kind, Message, Peer, Version};

pub struct Detector {
    me: u32,
    k: usize,
    rtt: u32,
    period: u32,
    /// The version of its own pings and ping-reqs.
    version: Version,
    /// The last period number that was used, and how many ticks of its period there were.
    number: u64,
    phase: u32,
    aim: Option<u32>,
    heard: bool,
    members: Members,
    round: Round,
    requests: Requests,
    chooser: Chooser,
    gaps: Gaps,
    candidates: Vec<u32>,
    relays: Vec<(u32, Peer)>,
}

impl Detector {
    /// A detector at its opening, which is within the limits.
    pub fn new(opening: &Opening, chooser: Chooser) -> Detector {
        let mut members = Members::default();
        for row in &opening.rows {
            members.add(*row);
        }
        let listed = opening.rows.iter().filter(|row| row.state == State::Up);
        Detector {
            me: opening.me,
            k: opening.k as usize,
            rtt: opening.rtt,
            period: opening.period,
            version: opening.version,
            number: opening.last,
            phase: 0,
            aim: None,
            heard: false,
            members,
            round: Round::new(listed.map(|row| row.id).collect()),
            requests: Requests::new(opening.period),
            chooser,
            gaps: Gaps::default(),
            candidates: Vec::new(),
            relays: Vec::new(),
        }
    }

    /// A detector that goes on from this one, without an aim and without waiting requests.
    pub fn after(&self, chooser: Chooser) -> Detector {
        let opening = Opening {
            me: self.me,
            k: self.k as u32,
            rtt: self.rtt,
            period: self.period,
            version: self.version,
            last: self.number,
            rows: self.members.rows().to_vec(),
        };
        Detector::new(&opening, chooser)
    }

    pub fn members(&self) -> &Members {
        &self.members
    }

    pub fn gaps(&self) -> &Gaps {
        &self.gaps
    }

    /// The relays of the last ask.
    pub fn relays(&self) -> &[(u32, Peer)] {
        &self.relays
    }

    /// What was drawn for the last reply: the round that began with it, or its relays.
    pub fn drawn(&self, reply: &Reply) -> Drawn {
        match reply {
            Reply::Started { probe: Some(_), .. } if self.round.is_new() => {
                Drawn::Round(self.round.ids().into())
            }
            Reply::Asked(_) if !self.relays.is_empty() => {
                Drawn::Relays(self.relays.as_slice().into())
            }
            _ => Drawn::Nothing,
        }
    }

    pub fn me(&self) -> u32 {
        self.me
    }

    pub fn tick(&mut self) -> Reply {
        let phase = self.phase;
        if phase == 0 && self.number == u64::MAX {
            return Reply::Refused(Refusal::Spent);
        }
        self.requests.tick();
        self.phase = (phase + 1) % self.period;
        if phase == 0 {
            return self.start();
        }
        let silent = self.aim.filter(|_| phase == self.rtt && !self.heard);
        match silent.and_then(|aim| self.probe(aim)) {
            Some(probe) => self.ask(probe),
            None => Reply::Quiet,
        }
    }

    /// Ends the period, and begins the next.
    fn start(&mut self) -> Reply {
        let judged = self.aim.filter(|_| !self.heard);
        if let Some(id) = judged {
            self.members.fail(id, self.number);
            self.leave(id);
        }
        self.number += 1;
        self.heard = false;
        self.aim = self.round.next(&mut self.chooser);
        let number = self.number;
        if let Some(id) = self.aim {
            self.gaps.probe(id, number, self.round.ids().len());
        }
        let probe = self.aim.and_then(|target| self.probe(target));
        Reply::Started { judged, probe }
    }

    /// The probe of a listed member in the period that runs.
    fn probe(&self, target: u32) -> Option<Probe> {
        Some(Probe {
            version: self.version,
            target,
            peer: self.members.listed(target)?,
            number: self.number,
        })
    }

    /// Draws relays for the aim.
    fn ask(&mut self, probe: Probe) -> Reply {
        self.relays.clear();
        self.candidates.clear();
        self.candidates
            .extend(self.round.ids().iter().filter(|id| **id != probe.target));
        if self.k > 0 && !self.candidates.is_empty() {
            self.chooser.order(&mut self.candidates);
            let members = &self.members;
            let relay = |id: &u32| Some((*id, members.listed(*id)?));
            self.relays
                .extend(self.candidates.iter().take(self.k).filter_map(relay));
        }
        Reply::Asked(probe)
    }

    /// The member leaves the list.
    fn leave(&mut self, id: u32) {
        self.round.remove(id);
        self.gaps.leave(id);
    }

    pub fn hear(&mut self, message: Message, source: Peer) -> Reply {
        match message.kind {
            Kind::Ping => self.hear_ping(message, source),
            Kind::PingReq => self.hear_request(message, source),
            Kind::Ack => self.hear_ack(message.key),
        }
    }

    /// A ping or an ack of this member, in the version of what it was asked by.
    fn send(&self, version: Version, kind: Kind, key: Key, peer: Peer) -> Reply {
        Reply::Send(
            peer,
            Message {
                version,
                kind,
                sender: self.me,
                key,
                at: None,
            },
        )
    }

    fn hear_ping(&self, message: Message, source: Peer) -> Reply {
        if message.key.target != self.me {
            return Reply::Dropped(DropReason::NotForMe);
        }
        self.send(message.version, Kind::Ack, message.key, source)
    }

    fn hear_request(&mut self, message: Message, source: Peer) -> Reply {
        let key = message.key;
        if key.initiator != message.sender || key.initiator == self.me {
            return Reply::Dropped(DropReason::Borrowed);
        }
        if key.target == self.me {
            return Reply::Dropped(DropReason::AboutMe);
        }
        // Where the target is listed, its row says better than the asker where it is.
        let Some(peer) = self.members.listed(key.target).or(message.at) else {
            return Reply::Dropped(DropReason::Unlisted);
        };
        let version = message.version;
        let asker = Asker {
            peer: source,
            version,
        };
        if self.requests.ask(key, asker) {
            self.send(version, Kind::Ping, key, peer)
        } else {
            Reply::Dropped(DropReason::TableFull)
        }
    }

    fn hear_ack(&mut self, key: Key) -> Reply {
        if key.initiator == self.me {
            let of_aim = self.aim == Some(key.target) && key.number == self.number;
            self.heard |= of_aim;
            return if of_aim {
                Reply::Heard
            } else {
                Reply::Dropped(DropReason::Stray)
            };
        }
        match self.requests.answer(&key) {
            Some(asker) => self.send(asker.version, Kind::Ack, key, asker.peer),
            None => Reply::Dropped(DropReason::NoRequest),
        }
    }

    pub fn join(&mut self, id: u32, peer: Peer) -> Reply {
        if id == self.me {
            return Reply::Refused(Refusal::Myself);
        }
        if self.members.listed(id).is_some() {
            return Reply::Refused(Refusal::Listed);
        }
        if self.members.get(id).is_none() && self.members.is_full() {
            return Reply::Refused(Refusal::Full);
        }
        let place = self.chooser.place(self.round.ids().len() as u32);
        self.round.insert(place as usize, id);
        self.members.put(id, peer);
        self.gaps.join();
        Reply::Joined(place)
    }

    pub fn remove(&mut self, id: u32) -> Reply {
        if id == self.me {
            return Reply::Refused(Refusal::Myself);
        }
        if self.members.get(id).is_none() {
            return Reply::Refused(Refusal::Unknown);
        }
        self.members.remove(id);
        self.leave(id);
        if self.aim == Some(id) {
            self.aim = None;
        }
        Reply::Removed
    }
}
