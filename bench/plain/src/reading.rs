//! Reading of an ask from a line.
use crate::fault::Fault;
use crate::fields::Fields;
use crate::settings::Settings;
use crate::text::{Code, Ident, Reason};
use serde_json::Value;

pub struct Ask {
    pub who: u8,
    pub at: u64,
    pub command: Command,
}

pub enum Command {
    Fund { reference: Ident, cents: u64 },
    Defund { reference: Ident, cents: u64 },
    Submit { id: Ident, to: u8, cents: u64, stamp: u64 },
    Confirm { from: u8, id: Ident },
    Reject { from: u8, id: Ident, reason: Reason },
    Investigate { id: Ident },
    Fetch { max: usize },
    Position,
    Statement { skip: u64, count: usize },
}

fn text(field: Option<&str>) -> Result<&str, Fault> {
    field.ok_or(Fault::BadField)
}

fn whole(field: Option<u64>) -> Result<u64, Fault> {
    field.ok_or(Fault::BadField)
}

fn code(field: Option<&str>) -> Result<Code, Fault> {
    Code::read(text(field)?)
}

/// 1 to 100.
fn count(field: Option<u64>) -> Result<usize, Fault> {
    match whole(field)? {
        number @ 1..=100 => Ok(number as usize),
        _ => Err(Fault::BadField),
    }
}

/// The checks of values, which come after those of all forms.
struct Checks<'a> {
    settings: &'a Settings,
}

impl Checks<'_> {
    fn cents(&self, cents: u64) -> Result<u64, Fault> {
        if (1..=self.settings.ceiling).contains(&cents) {
            Ok(cents)
        } else {
            Err(Fault::BadAmount)
        }
    }

    fn moment(&self, millis: u64) -> Result<u64, Fault> {
        if self.settings.is_moment(millis) {
            Ok(millis)
        } else {
            Err(Fault::BadMoment)
        }
    }

    fn stamp(&self, millis: u64) -> Result<u64, Fault> {
        self.moment(millis)?;
        self.moment(millis + self.settings.limit)?;
        Ok(millis)
    }

    fn number(&self, code: &Code) -> Result<u8, Fault> {
        self.settings
            .number_of(code)
            .ok_or(Fault::UnknownParticipant)
    }
}

fn funding(checks: &Checks, fields: &Fields, at: u64) -> Result<(Ident, u64), Fault> {
    let reference = text(fields.reference)?;
    let cents = whole(fields.cents)?;
    let reference = Ident::read(reference)?;
    let cents = checks.cents(cents)?;
    checks.moment(at)?;
    Ok((reference, cents))
}

fn submission(checks: &Checks, fields: &Fields, who: &Code, at: u64) -> Result<Ask, Fault> {
    let id = text(fields.id)?;
    let to = code(fields.to)?;
    let cents = whole(fields.cents)?;
    let stamp = whole(fields.stamp)?;
    let id = Ident::read(id)?;
    let cents = checks.cents(cents)?;
    let at = checks.moment(at)?;
    let stamp = checks.stamp(stamp)?;
    let who = checks.number(who)?;
    let to = checks.number(&to)?;
    let command = Command::Submit {
        id,
        to,
        cents,
        stamp,
    };
    Ok(Ask { who, at, command })
}

/// Returns a confirmation, or a rejection if there is a reason.
fn decision(
    checks: &Checks,
    fields: &Fields,
    who: &Code,
    at: u64,
    reason: Option<Reason>,
) -> Result<Ask, Fault> {
    let from = code(fields.from)?;
    let id = Ident::read(text(fields.id)?)?;
    let at = checks.moment(at)?;
    let who = checks.number(who)?;
    let from = checks.number(&from)?;
    let command = match reason {
        None => Command::Confirm { from, id },
        Some(reason) => Command::Reject { from, id, reason },
    };
    Ok(Ask { who, at, command })
}

/// Returns the ask of a line, or its first fault.
pub fn read(settings: &Settings, line: &[u8]) -> Result<Ask, Fault> {
    let line = std::str::from_utf8(line).map_err(|_| Fault::NotJson)?;
    if let Some(fields) = Fields::usual(line) {
        return ask(settings, &fields);
    }
    let value: Value = serde_json::from_str(line).map_err(|_| Fault::NotJson)?;
    ask(settings, &Fields::from(&value))
}

/// Returns the ask of a line's fields, or its first fault.
fn ask(settings: &Settings, fields: &Fields) -> Result<Ask, Fault> {
    let checks = Checks { settings };
    let cmd = text(fields.cmd)?;
    let who = code(fields.who)?;
    let at = whole(fields.at)?;
    let command = match cmd {
        "submit" => return submission(&checks, fields, &who, at),
        "confirm" => return decision(&checks, fields, &who, at, None),
        "reject" => {
            let reason = Reason::read(text(fields.reason)?)?;
            return decision(&checks, fields, &who, at, Some(reason));
        }
        "fund" => {
            let (reference, cents) = funding(&checks, fields, at)?;
            Command::Fund { reference, cents }
        }
        "defund" => {
            let (reference, cents) = funding(&checks, fields, at)?;
            Command::Defund { reference, cents }
        }
        "investigate" => Command::Investigate {
            id: Ident::read(text(fields.id)?)?,
        },
        "fetch" => Command::Fetch {
            max: count(fields.max)?,
        },
        "position" => Command::Position,
        "statement" => Command::Statement {
            skip: whole(fields.skip)?,
            count: count(fields.count)?,
        },
        _ => return Err(Fault::BadField),
    };
    let at = checks.moment(at)?;
    let who = checks.number(&who)?;
    Ok(Ask { who, at, command })
}
