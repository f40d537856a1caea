//! The widest gap between successive probes of each member, kept as probes come.

use std::collections::HashMap;

/// Probes of a member in two periods, and what bounds the distance: the number listed just after the first, and the
/// joins between.
#[derive(Clone, Copy, Debug, PartialEq)]
pub struct Gap {
    pub first: u64,
    pub second: u64,
    pub listed: u64,
}

/// The last probe of a member: its period, the number listed then, and how many joins had been accepted.
#[derive(Clone, Copy)]
struct Probe {
    number: u64,
    listed: u64,
    joins: u64,
}

#[derive(Default)]
struct Probed {
    /// None where the member left the list since.
    last: Option<Probe>,
    widest: Option<Gap>,
}

#[derive(Default)]
pub struct Gaps {
    members: HashMap<u32, Probed>,
    joins: u64,
}

impl Gaps {
    /// The member was probed in that period, and so many are listed now.
    pub fn probe(&mut self, id: u32, number: u64, listed: usize) {
        let member = self.members.entry(id).or_default();
        if let Some(last) = member.last {
            let wider = member
                .widest
                .is_none_or(|gap| number - last.number > gap.second - gap.first);
            if wider {
                let listed = last.listed + (self.joins - last.joins);
                member.widest = Some(Gap {
                    first: last.number,
                    second: number,
                    listed,
                });
            }
        }
        member.last = Some(Probe {
            number,
            listed: listed as u64,
            joins: self.joins,
        });
    }

    pub fn join(&mut self) {
        self.joins += 1;
    }

    /// The member left the list.
    pub fn leave(&mut self, id: u32) {
        if let Some(member) = self.members.get_mut(&id) {
            member.last = None;
        }
    }

    pub fn widest(&self, id: u32) -> Option<Gap> {
        self.members.get(&id).and_then(|member| member.widest)
    }
}
