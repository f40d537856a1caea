//! Who chooses orders and places: a script, or a seed.

use crate::chacha::ChaCha;
use crate::faults::Fault;
use crate::fields::Words;

pub enum Chooser {
    Scripted(Scripted),
    Seeded(ChaCha),
}

impl Chooser {
    /// Puts the ids in the order that is chosen.
    pub fn order(&mut self, ids: &mut [u32]) {
        match self {
            Chooser::Scripted(script) => script.order(ids),
            Chooser::Seeded(words) => shuffle(words, ids),
        }
    }

    /// A place from 0 to the last one.
    pub fn place(&mut self, last: u32) -> u32 {
        match self {
            Chooser::Scripted(script) => script.place(last),
            Chooser::Seeded(words) => match last.checked_add(1) {
                Some(count) => below(words, count),
                None => words.word(),
            },
        }
    }
}

/// Orders and places that were written down. All orders stand in one list.
#[derive(Clone, Default)]
pub struct Scripted {
    ids: Vec<u32>,
    /// Where each order ends.
    ends: Vec<usize>,
    places: Vec<u32>,
    next_order: usize,
    next_place: usize,
}

impl Scripted {
    pub fn is_empty(&self) -> bool {
        self.ends.is_empty() && self.places.is_empty()
    }

    pub fn add_order(&mut self, words: &mut Words) -> Result<(), Fault> {
        words.ids(&mut self.ids)?;
        self.ends.push(self.ids.len());
        Ok(())
    }

    pub fn add_place(&mut self, words: &mut Words) -> Result<(), Fault> {
        self.places.push(words.short()?);
        Ok(())
    }

    fn order(&mut self, ids: &mut [u32]) {
        let Some(end) = self.ends.get(self.next_order) else {
            return;
        };
        let start = self
            .next_order
            .checked_sub(1)
            .map_or(0, |before| self.ends[before]);
        let order = &self.ids[start..*end];
        self.next_order += 1;
        if is_permutation(order, ids) {
            ids.copy_from_slice(order);
        }
    }

    fn place(&mut self, last: u32) -> u32 {
        let place = self
            .places
            .get(self.next_place)
            .map_or(last, |place| *place);
        self.next_place += 1;
        place.min(last)
    }
}

fn is_permutation(order: &[u32], ids: &[u32]) -> bool {
    let sorted = |ids: &[u32]| {
        let mut sorted = ids.to_vec();
        sorted.sort_unstable();
        sorted
    };
    order.len() == ids.len() && sorted(order) == sorted(ids)
}

/// The shuffle of the crate `rand`, 0.10: from left to right, each element changes places with one up to itself. One
/// draw serves as many elements as the product of their bounds fits 32 bits.
pub fn shuffle(words: &mut ChaCha, ids: &mut [u32]) {
    let (mut drawn, mut served_to) = (0, 1);
    for bound in 2..=ids.len() {
        if bound > served_to {
            let mut product = bound;
            served_to = bound;
            while product * (served_to + 1) <= u32::MAX as usize {
                served_to += 1;
                product *= served_to;
            }
            drawn = below(words, product as u32) as usize;
        }
        ids.swap(bound - 1, drawn % bound);
        drawn /= bound;
    }
}

/// The draw of the crate `rand`, 0.10, of a number below a count: the high half of a word times the count. Where more
/// digits of the fraction could carry into it, one more word decides.
fn below(words: &mut ChaCha, count: u32) -> u32 {
    let mut product = || u64::from(words.word()) * u64::from(count);
    let first = product();
    let (high, low) = ((first >> 32) as u32, first as u32);
    if low <= count.wrapping_neg() {
        return high;
    }
    let more = (product() >> 32) as u32;
    high + u32::from(low.checked_add(more).is_none())
}
