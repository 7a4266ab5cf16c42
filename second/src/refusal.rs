//! Refusals, in the order in which they are tried.

use core::fmt;

/// The paper's number; with a field out of range, where its first byte stands in the message, else 0.
#[derive(Clone, Copy, Debug, PartialEq, Eq)]
pub struct Refusal {
    pub number: u8,
    pub offset: u8,
}

pub const SETUP: Refusal = Refusal::of(1);
pub const UNSOUND: Refusal = Refusal::of(11);
pub const ROOM: Refusal = Refusal::of(2);
pub const UNKNOWN_KIND: Refusal = Refusal::of(31);
pub const WRONG_LENGTH: Refusal = Refusal::of(32);
pub const WRONG_WAY: Refusal = Refusal::of(33);
pub const WRONG_LEAD: Refusal = Refusal::of(34);
pub const OP: Refusal = Refusal::of(4);
pub const INSTANCE: Refusal = Refusal::of(6);
pub const RECOVER_COMMITTED: Refusal = Refusal::of(8);
pub const NUDGE_IDLE: Refusal = Refusal::of(9);
pub const BALLOTS_USED_UP: Refusal = Refusal::of(7);
pub const NO_BLANK: Refusal = Refusal::of(5);
pub const OTHER_COMMIT: Refusal = Refusal::of(10);
pub const ENTRY_KIND: Refusal = Refusal::of(41);
pub const ENTRY_INSTANCE: Refusal = Refusal::of(42);
pub const ENTRY_UNSOUND: Refusal = Refusal::of(43);

const WRONG_FIELD: u8 = 35;

impl Refusal {
    /// One that says nothing of a place.
    pub const fn of(number: u8) -> Refusal {
        Refusal { number, offset: 0 }
    }

    /// The field that begins at this byte of a message is out of range.
    pub const fn wrong_field(offset: usize) -> Refusal {
        Refusal { number: WRONG_FIELD, offset: offset as u8 }
    }
}

/// As the recorded runs write it.
impl fmt::Display for Refusal {
    fn fmt(&self, f: &mut fmt::Formatter) -> fmt::Result {
        match self.number {
            WRONG_FIELD => write!(f, "{} {}", self.number, self.offset),
            _ => write!(f, "{}", self.number),
        }
    }
}

/// Why a journal was not replayed, and where in it the bad entry begins; 0 where no entry is to blame. A journal is longer
/// than what a message's offset can count.
#[derive(Clone, Copy, Debug, PartialEq, Eq)]
pub struct NotReplayed {
    pub refusal: Refusal,
    pub offset: usize,
}

impl From<Refusal> for NotReplayed {
    fn from(refusal: Refusal) -> NotReplayed {
        NotReplayed { refusal, offset: 0 }
    }
}
