//! A participant's books.
use crate::text::{Ident, Reason};
use indexmap::IndexMap;

#[derive(Clone, Copy, PartialEq, Eq)]
pub enum State {
    Pending,
    Accepted,
    Rejected(Reason),
    TimedOut,
}

/// A transfer at its originator.
pub struct Transfer {
    pub to: u8,
    pub cents: u64,
    pub stamp: u64,
    pub state: State,
}

#[derive(Clone, Copy, PartialEq, Eq)]
pub enum Kind {
    Funded,
    Defunded,
    Received,
    Paid,
}

impl Kind {
    pub fn name(self) -> &'static str {
        match self {
            Kind::Funded => "FND",
            Kind::Defunded => "DFD",
            Kind::Received => "IN",
            Kind::Paid => "OUT",
        }
    }
}

/// An entry of a statement: a funding by its index, or a transfer by its originator and index.
pub struct Entry {
    pub kind: Kind,
    pub owner: u8,
    pub index: u32,
    pub position: u64,
}

#[derive(Default)]
pub struct Participant {
    pub fundings: IndexMap<Ident, (Kind, u64)>,
    pub transfers: IndexMap<Ident, Transfer>,
    /// The transfers forwarded to it, by originator and index.
    pub inbox: Vec<(u8, u32)>,
    /// How many of them were fetched.
    pub fetched: usize,
    pub position: u64,
    pub reserved: u64,
    pub statement: Vec<Entry>,
}

impl Participant {
    pub fn available(&self) -> u64 {
        self.position - self.reserved
    }

    /// Books an amount: changes the position, and appends a statement entry.
    pub fn enter(&mut self, kind: Kind, owner: u8, index: usize, cents: u64) {
        match kind {
            Kind::Funded | Kind::Received => self.position += cents,
            Kind::Defunded | Kind::Paid => self.position -= cents,
        }
        self.statement.push(Entry {
            kind,
            owner,
            index: index as u32,
            position: self.position,
        });
    }
}
