//! A hub without proofs that threads share: a lock for each participant, and an atomic word for the outcome of each
//! transfer, so that both sides agree on it without holding both locks.
use crate::fault::Fault;
use crate::text::Ident;
use indexmap::IndexMap;
use std::collections::HashMap;
use std::sync::atomic::{AtomicU8, Ordering};
use std::sync::{Mutex, MutexGuard, PoisonError};

const PENDING: u8 = 1;
const ACCEPTED: u8 = 2;
const TIMED_OUT: u8 = 3;

/// The settings of a hub.
#[derive(Clone, Copy)]
pub struct Size {
    pub participants: u8,
    pub places: usize,
    pub limit: u64,
    pub ahead: u64,
}

/// A submission.
#[derive(Clone, Copy)]
pub struct Submission {
    pub id: Ident,
    pub to: u8,
    pub cents: u64,
    pub stamp: u64,
}

/// A transfer at its originator; its place is its index in the table.
struct Own {
    to: u8,
    cents: u64,
    stamp: u64,
    is_booked: bool,
}

/// A forwarded transfer.
struct Arrival {
    place: usize,
    cents: u64,
    deadline: u64,
    is_booked: bool,
}

/// A line of a statement: a funding or a transfer, and the position after it.
struct Line {
    number: u32,
    cents: u64,
    position: u64,
}

#[derive(Default)]
struct Books {
    fundings: HashMap<Ident, u64>,
    own: IndexMap<Ident, Own>,
    arrivals: IndexMap<(u8, Ident), Arrival>,
    position: u64,
    reserved: u64,
    statement: Vec<Line>,
}

impl Books {
    fn enter(&mut self, cents: u64, position: u64) {
        self.position = position;
        self.statement.push(Line {
            number: self.statement.len() as u32 + 1,
            cents,
            position,
        });
    }
}

pub struct SharedHub {
    size: Size,
    books: Vec<Mutex<Books>>,
    words: Vec<AtomicU8>,
}

impl SharedHub {
    pub fn new(size: Size) -> SharedHub {
        let places = usize::from(size.participants) * size.places;
        SharedHub {
            size,
            books: (0..size.participants).map(|_| Mutex::default()).collect(),
            words: (0..places).map(|_| AtomicU8::new(0)).collect(),
        }
    }

    fn lock(&self, who: u8) -> MutexGuard<'_, Books> {
        self.books[usize::from(who)]
            .lock()
            .unwrap_or_else(PoisonError::into_inner)
    }

    fn word(&self, owner: u8, place: usize) -> &AtomicU8 {
        &self.words[usize::from(owner) * self.size.places + place]
    }

    pub fn fund(&self, who: u8, reference: Ident, cents: u64) {
        let mut books = self.lock(who);
        if books.fundings.insert(reference, cents).is_none() {
            let position = books.position + cents;
            books.enter(cents, position);
        }
    }

    /// Returns the participant's position, in cents.
    pub fn position(&self, who: u8) -> u64 {
        self.lock(who).position
    }

    /// Submits the transfer and forwards it to its beneficiary. Returns the deadline.
    pub fn submit(&self, who: u8, submission: &Submission, at: u64) -> Result<u64, Fault> {
        let Submission {
            id,
            to,
            cents,
            stamp,
        } = *submission;
        let deadline = stamp + self.size.limit;
        if to == who {
            return Err(Fault::SelfTransfer);
        }
        let place = self.take(who, submission, at)?;
        let arrival = Arrival {
            place,
            cents,
            deadline,
            is_booked: false,
        };
        self.lock(to).arrivals.insert((who, id), arrival);
        Ok(deadline)
    }

    /// Stores the submission at its originator, and returns its place.
    fn take(&self, who: u8, submission: &Submission, at: u64) -> Result<usize, Fault> {
        let Submission {
            id,
            to,
            cents,
            stamp,
        } = *submission;
        let mut books = self.lock(who);
        if let Some((place, _, own)) = books.own.get_full(&id) {
            let is_same = (own.to, own.cents, own.stamp) == (to, cents, stamp);
            return if is_same { Ok(place) } else { Err(Fault::Duplicate) };
        }
        if stamp > at + self.size.ahead {
            return Err(Fault::StampAhead);
        }
        if at >= stamp + self.size.limit {
            return Err(Fault::Expired);
        }
        if books.own.len() >= self.size.places {
            return Err(Fault::Full);
        }
        if cents > books.position - books.reserved {
            return Err(Fault::Shortage);
        }
        let own = Own {
            to,
            cents,
            stamp,
            is_booked: false,
        };
        let (place, _) = books.own.insert_full(id, own);
        books.reserved += cents;
        self.word(who, place).store(PENDING, Ordering::Release);
        Ok(place)
    }

    /// Returns whether the transfer is accepted, and lets its originator learn the outcome.
    pub fn confirm(&self, who: u8, from: u8, id: Ident, at: u64) -> Result<bool, Fault> {
        let mut books = self.lock(who);
        let arrival = books
            .arrivals
            .get_mut(&(from, id))
            .ok_or(Fault::UnknownTransfer)?;
        let wish = if at < arrival.deadline { ACCEPTED } else { TIMED_OUT };
        let found = self.word(from, arrival.place).compare_exchange(
            PENDING,
            wish,
            Ordering::AcqRel,
            Ordering::Acquire,
        );
        let is_accepted = found.map_or_else(|outcome| outcome, |_| wish) == ACCEPTED;
        if !arrival.is_booked {
            arrival.is_booked = true;
            let cents = arrival.cents;
            if is_accepted {
                let position = books.position + cents;
                books.enter(cents, position);
            }
        }
        drop(books);
        self.learn(from, &id, is_accepted);
        Ok(is_accepted)
    }

    /// Books the outcome at the originator, once.
    fn learn(&self, who: u8, id: &Ident, is_accepted: bool) {
        let mut books = self.lock(who);
        let Some(own) = books.own.get_mut(id) else {
            return;
        };
        if own.is_booked {
            return;
        }
        own.is_booked = true;
        let cents = own.cents;
        books.reserved -= cents;
        if is_accepted {
            let position = books.position - cents;
            books.enter(cents, position);
        }
    }

    /// Returns whether each line of each statement follows from the one before. This reads everything stored once.
    pub fn is_whole(&self) -> bool {
        (0..self.size.participants).all(|who| {
            let books = self.lock(who);
            let lines = &books.statement;
            let is_counted = lines.iter().zip(1..).all(|(line, n)| line.number == n);
            let goes_on = lines
                .windows(2)
                .all(|two| two[0].position.abs_diff(two[1].position) == two[1].cents);
            is_counted && goes_on
        })
    }
}
