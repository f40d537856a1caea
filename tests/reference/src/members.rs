//! The member table: the known members, ascending by id.

use crate::wire::Peer;

/// The most members that are known.
pub const KNOWN_MEMBERS: usize = 128;

#[derive(Clone, Copy, PartialEq)]
pub enum State {
    Up,
    Failed(u64),
}

#[derive(Clone, Copy)]
pub struct Row {
    pub id: u32,
    pub peer: Peer,
    pub state: State,
}

#[derive(Clone, Default)]
pub struct Members {
    rows: Vec<Row>,
}

impl Members {
    pub fn rows(&self) -> &[Row] {
        &self.rows
    }

    fn find(&self, id: u32) -> Result<usize, usize> {
        self.rows.binary_search_by_key(&id, |row| row.id)
    }

    pub fn is_full(&self) -> bool {
        self.rows.len() >= KNOWN_MEMBERS
    }

    pub fn get(&self, id: u32) -> Option<&Row> {
        self.find(id).ok().map(|place| &self.rows[place])
    }

    /// The address of a listed member.
    pub fn listed(&self, id: u32) -> Option<Peer> {
        self.get(id)
            .filter(|row| row.state == State::Up)
            .map(|row| row.peer)
    }

    /// The member is up at that address from now on.
    pub fn put(&mut self, id: u32, peer: Peer) {
        self.add(Row {
            id,
            peer,
            state: State::Up,
        });
    }

    /// The member has that row from now on.
    pub fn add(&mut self, row: Row) {
        match self.find(row.id) {
            Ok(place) => self.rows[place] = row,
            Err(place) => self.rows.insert(place, row),
        }
    }

    pub fn fail(&mut self, id: u32, number: u64) {
        if let Ok(place) = self.find(id) {
            self.rows[place].state = State::Failed(number);
        }
    }

    pub fn remove(&mut self, id: u32) {
        if let Ok(place) = self.find(id) {
            self.rows.remove(place);
        }
    }
}
