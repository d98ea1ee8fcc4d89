//! The refusals, by the paper's numbers.

/// Why a file, a ticket or a message is turned back.
#[derive(Clone, Copy, PartialEq, Eq, Debug)]
#[repr(u8)]
pub enum Refusal {
    ShortFile = 1,
    Counts = 2,
    Layout = 3,
    ParticipantRow = 4,
    RouteRow = 5,
    ShortBuffer = 6,
    Form = 7,
    Iban = 8,
    NoAmount = 9,
    AmountAboveLimit = 10,
    TimeBeforeClock = 11,
    Sender = 12,
    PairHeld = 13,
    NoRoute = 14,
    BookFull = 15,
    PairNotHeld = 16,
    WrongParty = 17,
    Status = 18,
    AboveOrder = 19,
    TooLittleCover = 20,
    CutOrConfirm = 21,
    TooMuchCover = 22,
    Markup = 23,
    Elements = 24,
    AmountText = 25,
    LateRecall = 26,
}

impl Refusal {
    pub fn number(self) -> u8 {
        self as u8
    }
}
