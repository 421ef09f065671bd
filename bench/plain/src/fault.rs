/// The fault of a refused line, by its number.
#[derive(Clone, Copy, Debug, PartialEq, Eq)]
pub enum Fault {
    NotJson = 1,
    BadField = 2,
    BadIdentifier = 3,
    BadAmount = 4,
    BadMoment = 5,
    UnknownParticipant = 6,
    SelfTransfer = 7,
    UnknownTransfer = 8,
    Duplicate = 9,
    StampAhead = 10,
    Expired = 11,
    Full = 12,
    Shortage = 13,
    LineTooLong = 16,
}

impl Fault {
    pub fn name(self) -> &'static str {
        match self {
            Fault::NotJson => "NotJson",
            Fault::BadField => "BadField",
            Fault::BadIdentifier => "BadIdentifier",
            Fault::BadAmount => "BadAmount",
            Fault::BadMoment => "BadMoment",
            Fault::UnknownParticipant => "UnknownParticipant",
            Fault::SelfTransfer => "SelfTransfer",
            Fault::UnknownTransfer => "UnknownTransfer",
            Fault::Duplicate => "Duplicate",
            Fault::StampAhead => "StampAhead",
            Fault::Expired => "Expired",
            Fault::Full => "Full",
            Fault::Shortage => "Shortage",
            Fault::LineTooLong => "LineTooLong",
        }
    }
}
