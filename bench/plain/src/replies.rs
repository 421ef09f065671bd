//! Replies as lines of JSON, with keys in byte order.
use crate::books::{Entry, Kind, State};
use crate::hub::Hub;
use crate::text::{Ident, Reason};
use serde::ser::{Serialize, SerializeSeq, Serializer};

#[derive(serde::Serialize)]
#[serde(untagged)]
pub enum Reply<'a> {
    Done {
        #[serde(rename = "ref")]
        reference: &'a str,
        reply: &'static str,
    },
    Taken {
        deadline: u64,
        id: &'a str,
        reply: &'static str,
    },
    State {
        from: &'a str,
        id: &'a str,
        reply: &'static str,
        state: &'static str,
    },
    Rejected {
        from: &'a str,
        id: &'a str,
        reason: &'a str,
        reply: &'static str,
        state: &'static str,
    },
    Inbox {
        entries: Inbox<'a>,
        reply: &'static str,
    },
    Position {
        available: u64,
        position: u64,
        reply: &'static str,
        reserved: u64,
    },
    Statement {
        lines: Lines<'a>,
        reply: &'static str,
    },
    Refused {
        fault: &'static str,
        number: u8,
        reply: &'static str,
    },
}

/// The state of a transfer.
pub fn state_reply<'a>(from: &'a str, id: &'a Ident, state: &'a State) -> Reply<'a> {
    let id = id.as_str();
    let reply = "state";
    let state = match state {
        State::Rejected(reason) => return rejected(from, id, reason),
        State::Pending => "pending",
        State::Accepted => "accepted",
        State::TimedOut => "timed_out",
    };
    Reply::State {
        from,
        id,
        reply,
        state,
    }
}

fn rejected<'a>(from: &'a str, id: &'a str, reason: &'a Reason) -> Reply<'a> {
    Reply::Rejected {
        from,
        id,
        reason: reason.as_str(),
        reply: "state",
        state: "rejected",
    }
}

/// The fetched entries.
pub struct Inbox<'a> {
    pub hub: &'a Hub,
    pub entries: &'a [(u8, u32)],
}

#[derive(serde::Serialize)]
struct InboxEntry<'a> {
    cents: u64,
    deadline: u64,
    from: &'a str,
    id: &'a str,
}

impl Serialize for Inbox<'_> {
    fn serialize<S: Serializer>(&self, serializer: S) -> Result<S::Ok, S::Error> {
        let mut entries = serializer.serialize_seq(Some(self.entries.len()))?;
        for &(from, index) in self.entries {
            let (id, transfer) = self.hub.transfer(from, index);
            entries.serialize_element(&InboxEntry {
                cents: transfer.cents,
                deadline: transfer.stamp + self.hub.settings().limit,
                from: self.hub.code(from),
                id: id.as_str(),
            })?;
        }
        entries.end()
    }
}

/// Lines of a participant's statement.
pub struct Lines<'a> {
    pub hub: &'a Hub,
    pub who: u8,
    /// The number of entries before these.
    pub skip: usize,
    pub entries: &'a [Entry],
}

struct Line<'a> {
    hub: &'a Hub,
    who: u8,
    number: usize,
    entry: &'a Entry,
}

/// The columns of a statement line, with a space between: 91 characters.
const ROW: [u8; 91] = [b' '; 91];

/// Puts a text at the left of its column, which begins here.
fn put_left(row: &mut [u8; 91], from: usize, text: &str) {
    row[from..from + text.len()].copy_from_slice(text.as_bytes());
}

/// Puts a number at the right of its column, which ends here.
fn put_right(row: &mut [u8; 91], end: usize, mut number: u64) {
    let mut at = end;
    loop {
        at -= 1;
        row[at] = b'0' + (number % 10) as u8;
        number /= 10;
        if number == 0 {
            return;
        }
    }
}

impl Line<'_> {
    /// The other participant's code, the identifier or the reference, and the cents.
    fn subject(&self) -> (&str, &Ident, u64) {
        let Line { hub, who, entry, .. } = self;
        match entry.kind {
            Kind::Funded | Kind::Defunded => {
                let (reference, cents) = hub.funding(*who, entry.index);
                ("", reference, cents)
            }
            Kind::Received => {
                let (id, transfer) = hub.transfer(entry.owner, entry.index);
                (hub.code(entry.owner), id, transfer.cents)
            }
            Kind::Paid => {
                let (id, transfer) = hub.transfer(entry.owner, entry.index);
                (hub.code(transfer.to), id, transfer.cents)
            }
        }
    }

    fn row(&self) -> [u8; 91] {
        let (other, id, cents) = self.subject();
        let mut row = ROW;
        put_right(&mut row, 6, self.number as u64);
        put_left(&mut row, 7, self.entry.kind.name());
        put_left(&mut row, 11, other);
        put_left(&mut row, 23, id.as_str());
        put_right(&mut row, 70, cents);
        put_right(&mut row, 91, self.entry.position);
        row
    }
}

impl Serialize for Line<'_> {
    fn serialize<S: Serializer>(&self, serializer: S) -> Result<S::Ok, S::Error> {
        serializer.serialize_str(std::str::from_utf8(&self.row()).unwrap_or_default())
    }
}

impl Serialize for Lines<'_> {
    fn serialize<S: Serializer>(&self, serializer: S) -> Result<S::Ok, S::Error> {
        let mut lines = serializer.serialize_seq(Some(self.entries.len()))?;
        for (index, entry) in self.entries.iter().enumerate() {
            lines.serialize_element(&Line {
                hub: self.hub,
                who: self.who,
                number: self.skip + index + 1,
                entry,
            })?;
        }
        lines.end()
    }
}
