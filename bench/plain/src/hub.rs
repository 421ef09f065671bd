//! A hub: its commands, and their follow-ups.
use crate::books::{Kind, Participant, State, Transfer};
use crate::fault::Fault;
use crate::reading::{Ask, Command};
use crate::replies::{state_reply, Inbox, Lines, Reply};
use crate::settings::Settings;
use crate::text::{Ident, Reason};
use std::cmp::Reverse;
use std::collections::BinaryHeap;
use std::io::{self, Write};

pub struct Hub {
    settings: Settings,
    participants: Vec<Participant>,
    /// The transfers that may be pending, by deadline.
    due: BinaryHeap<Reverse<(u64, u8, u32)>>,
}

/// A beneficiary's decision.
#[derive(Clone, Copy)]
enum Decision {
    Confirm,
    Reject(Reason),
}

impl Hub {
    pub fn new(settings: Settings) -> Hub {
        let participants = settings
            .codes
            .iter()
            .map(|_| Participant::default())
            .collect();
        Hub {
            settings,
            participants,
            due: BinaryHeap::new(),
        }
    }

    pub fn settings(&self) -> &Settings {
        &self.settings
    }

    pub fn code(&self, number: u8) -> &str {
        self.settings.codes[usize::from(number)].as_str()
    }

    fn participant(&self, number: u8) -> &Participant {
        &self.participants[usize::from(number)]
    }

    fn participant_mut(&mut self, number: u8) -> &mut Participant {
        &mut self.participants[usize::from(number)]
    }

    pub fn transfer(&self, from: u8, index: u32) -> (&Ident, &Transfer) {
        self.participant(from)
            .transfers
            .get_index(index as usize)
            .expect("a transfer is never removed")
    }

    pub fn funding(&self, who: u8, index: u32) -> (&Ident, u64) {
        let (reference, (_, cents)) = self
            .participant(who)
            .fundings
            .get_index(index as usize)
            .expect("a funding is never removed");
        (reference, *cents)
    }

    pub fn write_fault(&self, out: &mut impl Write, fault: Fault) -> io::Result<()> {
        write_reply(
            out,
            &Reply::Refused {
                fault: fault.name(),
                number: fault as u8,
                reply: "refused",
            },
        )
    }

    /// Appends the reply to the ask to the output, and then times out the due transfers.
    pub fn answer(&mut self, ask: &Ask, out: &mut impl Write) -> io::Result<()> {
        let written = match self.reply(ask) {
            Ok(reply) => write_reply(out, &reply),
            Err(fault) => self.write_fault(out, fault),
        };
        self.time_out(ask.at);
        written
    }

    fn reply<'a>(&'a mut self, ask: &'a Ask) -> Result<Reply<'a>, Fault> {
        let Ask { who, at, ref command } = *ask;
        match command {
            Command::Fund { reference, cents } => self.fund(who, Kind::Funded, reference, *cents),
            Command::Defund { reference, cents } => {
                self.fund(who, Kind::Defunded, reference, *cents)
            }
            Command::Submit {
                id,
                to,
                cents,
                stamp,
            } => {
                let transfer = Transfer {
                    to: *to,
                    cents: *cents,
                    stamp: *stamp,
                    state: State::Pending,
                };
                self.submit(who, id, transfer, at)
            }
            Command::Confirm { from, id } => self.decide(who, *from, id, at, Decision::Confirm),
            Command::Reject { from, id, reason } => {
                self.decide(who, *from, id, at, Decision::Reject(*reason))
            }
            Command::Investigate { id } => self.investigate(who, id, at),
            Command::Fetch { max } => Ok(self.fetch(who, *max)),
            Command::Position => Ok(self.position(who)),
            Command::Statement { skip, count } => Ok(self.statement(who, *skip, *count)),
        }
    }

    fn fund<'a>(
        &mut self,
        who: u8,
        kind: Kind,
        reference: &'a Ident,
        cents: u64,
    ) -> Result<Reply<'a>, Fault> {
        let done = Reply::Done {
            reference: reference.as_str(),
            reply: "done",
        };
        let most = self.settings.fundings;
        let participant = self.participant_mut(who);
        if let Some(funding) = participant.fundings.get(reference) {
            return if *funding == (kind, cents) {
                Ok(done)
            } else {
                Err(Fault::Duplicate)
            };
        }
        if participant.fundings.len() >= most {
            return Err(Fault::Full);
        }
        if kind == Kind::Defunded && cents > participant.available() {
            return Err(Fault::Shortage);
        }
        let (index, _) = participant
            .fundings
            .insert_full(*reference, (kind, cents));
        participant.enter(kind, who, index, cents);
        Ok(done)
    }

    fn submit<'a>(
        &mut self,
        who: u8,
        id: &'a Ident,
        transfer: Transfer,
        at: u64,
    ) -> Result<Reply<'a>, Fault> {
        let Transfer { to, cents, stamp, .. } = transfer;
        let deadline = stamp + self.settings.limit;
        let (places, ahead) = (self.settings.places, self.settings.ahead);
        let taken = Reply::Taken {
            deadline,
            id: id.as_str(),
            reply: "taken",
        };
        if to == who {
            return Err(Fault::SelfTransfer);
        }
        let originator = self.participant_mut(who);
        if let Some(known) = originator.transfers.get(id) {
            return if (known.to, known.cents, known.stamp) == (to, cents, stamp) {
                Ok(taken)
            } else {
                Err(Fault::Duplicate)
            };
        }
        if stamp > at + ahead {
            return Err(Fault::StampAhead);
        }
        if at >= deadline {
            return Err(Fault::Expired);
        }
        if originator.transfers.len() >= places {
            return Err(Fault::Full);
        }
        if cents > originator.available() {
            return Err(Fault::Shortage);
        }
        let (index, _) = originator.transfers.insert_full(*id, transfer);
        originator.reserved += cents;
        self.participant_mut(to).inbox.push((who, index as u32));
        self.due.push(Reverse((deadline, who, index as u32)));
        Ok(taken)
    }

    /// Decides the transfer: its amount is released, or paid to its beneficiary.
    fn end(&mut self, from: u8, index: usize, state: State) {
        let originator = self.participant_mut(from);
        let transfer = &mut originator.transfers[index];
        transfer.state = state;
        let (to, cents) = (transfer.to, transfer.cents);
        originator.reserved -= cents;
        if state == State::Accepted {
            originator.enter(Kind::Paid, from, index, cents);
            self.participant_mut(to)
                .enter(Kind::Received, from, index, cents);
        }
    }

    fn decide<'a>(
        &'a mut self,
        who: u8,
        from: u8,
        id: &'a Ident,
        at: u64,
        decision: Decision,
    ) -> Result<Reply<'a>, Fault> {
        let (limit, margin) = (self.settings.limit, self.settings.margin);
        let (index, _, transfer) = self
            .participant(from)
            .transfers
            .get_full(id)
            .filter(|(_, _, transfer)| transfer.to == who)
            .ok_or(Fault::UnknownTransfer)?;
        if transfer.state == State::Pending {
            let deadline = transfer.stamp + limit;
            let state = match decision {
                _ if at >= deadline => State::TimedOut,
                Decision::Confirm if at + margin >= deadline => return Err(Fault::Expired),
                Decision::Confirm => State::Accepted,
                Decision::Reject(reason) => State::Rejected(reason),
            };
            self.end(from, index, state);
        }
        let (id, transfer) = self.transfer(from, index as u32);
        Ok(state_reply(self.code(from), id, &transfer.state))
    }

    fn investigate<'a>(
        &'a mut self,
        who: u8,
        id: &'a Ident,
        at: u64,
    ) -> Result<Reply<'a>, Fault> {
        let limit = self.settings.limit;
        let (index, _, transfer) = self
            .participant(who)
            .transfers
            .get_full(id)
            .ok_or(Fault::UnknownTransfer)?;
        if transfer.state == State::Pending && at >= transfer.stamp + limit {
            self.end(who, index, State::TimedOut);
        }
        let (id, transfer) = self.transfer(who, index as u32);
        Ok(state_reply(self.code(who), id, &transfer.state))
    }

    fn fetch(&mut self, who: u8, max: usize) -> Reply<'_> {
        let participant = self.participant_mut(who);
        let first = participant.fetched;
        let end = participant.inbox.len().min(first + max);
        participant.fetched = end;
        Reply::Inbox {
            entries: Inbox {
                hub: self,
                entries: &self.participant(who).inbox[first..end],
            },
            reply: "inbox",
        }
    }

    fn position(&self, who: u8) -> Reply<'_> {
        let participant = self.participant(who);
        Reply::Position {
            available: participant.available(),
            position: participant.position,
            reply: "position",
            reserved: participant.reserved,
        }
    }

    fn statement(&self, who: u8, skip: u64, count: usize) -> Reply<'_> {
        let all = &self.participant(who).statement;
        let first = usize::try_from(skip).unwrap_or(usize::MAX).min(all.len());
        let end = all.len().min(first + count);
        Reply::Statement {
            lines: Lines {
                hub: self,
                who,
                skip: first,
                entries: &all[first..end],
            },
            reply: "statement",
        }
    }

    /// Times out the pending transfers that are due at this clock reading.
    fn time_out(&mut self, at: u64) {
        while let Some(&Reverse((deadline, from, index))) = self.due.peek() {
            if deadline > at {
                return;
            }
            self.due.pop();
            if self.transfer(from, index).1.state == State::Pending {
                self.end(from, index as usize, State::TimedOut);
            }
        }
    }
}

fn write_reply(out: &mut impl Write, reply: &Reply) -> io::Result<()> {
    serde_json::to_writer(&mut *out, reply)?;
    out.write_all(b"\n")
}
