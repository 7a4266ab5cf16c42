//! Why a call did nothing, and which field of a message or which entry of a journal is to blame.

use core::fmt;

/// Why a call did nothing, with the paper's numbers.
#[derive(Clone, Copy, Debug, PartialEq, Eq)]
pub enum Refusal {
    /// A wrong N, S or copy, or a table of another length.
    Setup,
    /// Room for outgoing bytes is under 256, a stream's buffer under 64, or an entry's room shorter than the entry.
    Room,
    /// A request is no read, write or rewire, or has keys that its op does not take: a rewire's rise, others have one.
    Op,
    /// A request finds no blank own record.
    NoBlank,
    /// There is no such owner or number.
    Instance,
    /// Recover with joined >= 4,294,967,288.
    BallotsUsedUp,
    /// Recover of a committed instance.
    RecoverCommitted,
    /// Nudge, not committed and phase 0.
    NudgeIdle,
    /// A Commit differs from the stored one.
    OtherCommit,
    /// The table is not sound, or no calls leave such a place in a stream.
    Unsound,
    /// A message of no known kind, or no bytes at all.
    UnknownKind,
    /// A message that is not as long as its kind.
    WrongLength,
    /// A message that is not for this copy, or is from it.
    WrongWay,
    /// A message not from, or not to, the lead of its ballot, as its kind asks.
    WrongLead,
    /// A field of a message is out of range, and where in the message it begins.
    WrongField { offset: usize, field: Field },
    /// An entry of a journal is of no known kind, and where in the journal it begins.
    EntryKind { offset: usize },
    /// An entry of an owner or number that there is not, and where it begins.
    EntryInstance { offset: usize },
    /// An entry with an unsound record, or a mark where nothing is committed, and where it begins; of an entry that is to
    /// be written, 0.
    EntryUnsound { offset: usize },
}

const WRONG_FIELD: u32 = 35;
const ENTRY_KIND: u32 = 41;
const ENTRY_INSTANCE: u32 = 42;
const ENTRY_UNSOUND: u32 = 43;

impl Refusal {
    /// All that name no place, with their numbers.
    const PLAIN: [(u32, Refusal); 14] = [
        (1, Refusal::Setup),
        (2, Refusal::Room),
        (4, Refusal::Op),
        (5, Refusal::NoBlank),
        (6, Refusal::Instance),
        (7, Refusal::BallotsUsedUp),
        (8, Refusal::RecoverCommitted),
        (9, Refusal::NudgeIdle),
        (10, Refusal::OtherCommit),
        (11, Refusal::Unsound),
        (31, Refusal::UnknownKind),
        (32, Refusal::WrongLength),
        (33, Refusal::WrongWay),
        (34, Refusal::WrongLead),
    ];

    pub fn number(self) -> u32 {
        match self {
            Refusal::WrongField { .. } => WRONG_FIELD,
            Refusal::EntryKind { .. } => ENTRY_KIND,
            Refusal::EntryInstance { .. } => ENTRY_INSTANCE,
            Refusal::EntryUnsound { .. } => ENTRY_UNSOUND,
            _ => {
                let plain = Refusal::PLAIN.into_iter().find(|&(_, refusal)| refusal == self);
                plain.expect("all others are plain").0
            }
        }
    }

    /// The offset of a wrong field or of a bad entry, else 0.
    pub fn offset(self) -> usize {
        match self {
            Refusal::WrongField { offset, .. }
            | Refusal::EntryKind { offset }
            | Refusal::EntryInstance { offset }
            | Refusal::EntryUnsound { offset } => offset,
            _ => 0,
        }
    }

    /// What a call told by a number, an offset, and the kind of the message that it was about. None where no call tells
    /// this.
    pub fn told(number: u32, kind: u8, offset: usize) -> Option<Refusal> {
        match number {
            WRONG_FIELD => {
                Field::at(kind, offset).map(|field| Refusal::WrongField { offset, field })
            }
            ENTRY_KIND => Some(Refusal::EntryKind { offset }),
            ENTRY_INSTANCE => Some(Refusal::EntryInstance { offset }),
            ENTRY_UNSOUND => Some(Refusal::EntryUnsound { offset }),
            _ => {
                let plain = Refusal::PLAIN.into_iter().find(|&(its, _)| its == number);
                plain.map(|(_, refusal)| refusal)
            }
        }
    }

    fn words(self) -> &'static str {
        match self {
            Refusal::Setup => "a wrong setup, copy or table length",
            Refusal::Room => "room for outgoing bytes, a stream or an entry is too small",
            Refusal::Op => "a request of another op, or with keys that its op does not take",
            Refusal::NoBlank => "no blank own record is left",
            Refusal::Instance => "no such instance",
            Refusal::BallotsUsedUp => "no ballot is left for a recovery",
            Refusal::RecoverCommitted => "what is to be recovered is committed",
            Refusal::NudgeIdle => "nothing is under way to be nudged",
            Refusal::OtherCommit => "a Commit differs from the stored one",
            Refusal::Unsound => "the table, or the place in a stream, is not sound",
            Refusal::UnknownKind => "a message of unknown kind, or an empty one",
            Refusal::WrongLength => "a message that is not as long as its kind",
            Refusal::WrongWay => "a message to another copy, or from this one",
            Refusal::WrongLead => "a message not from, or not to, the lead of its ballot",
            Refusal::WrongField { .. } => "a field out of range",
            Refusal::EntryKind { .. } => "an entry of unknown kind",
            Refusal::EntryInstance { .. } => "an entry of no instance that there is",
            Refusal::EntryUnsound { .. } => {
                "an entry with an unsound record, or a mark where nothing is committed"
            }
        }
    }
}

impl fmt::Display for Refusal {
    fn fmt(&self, f: &mut fmt::Formatter) -> fmt::Result {
        write!(f, "{}: {}", self.number(), self.words())?;
        match self {
            Refusal::WrongField { offset, field } => write!(f, ", {field} at byte {offset}"),
            Refusal::EntryKind { offset }
            | Refusal::EntryInstance { offset }
            | Refusal::EntryUnsound { offset } => write!(f, ", at byte {offset}"),
            _ => Ok(()),
        }
    }
}

/// A field of a message. Each dependency is one.
#[derive(Clone, Copy, Debug, PartialEq, Eq)]
pub enum Field {
    From,
    To,
    Owner,
    Number,
    Ballot,
    Voted,
    Status,
    Op,
    Key,
    /// The second key, of a rewire; it is above the first.
    Second,
    Edit,
    Dependency(u8),
    Joined,
}

impl Field {
    /// The field that begins at this byte of a message of this kind.
    pub fn at(kind: u8, offset: usize) -> Option<Field> {
        Some(match (kind, offset) {
            (1..=12, 1) => Field::From,
            (1..=12, 2) => Field::To,
            (1..=12, 3) => Field::Owner,
            (1..=12, 4) => Field::Number,
            (1..=12, 6) => Field::Ballot,
            (1 | 3 | 5 | 9..=11, 10) | (7 | 12, 15) => Field::Op,
            (1 | 3 | 5 | 9..=11, 11) | (7 | 12, 16) => Field::Key,
            (9..=11, 15) | (12, 20) => Field::Second,
            (1 | 3 | 5, 15) | (7, 20) | (9..=11, 19) | (12, 24) => Field::Edit,
            (7 | 12, 10) => Field::Voted,
            (7 | 12, 14) => Field::Status,
            (8, 10) => Field::Joined,
            (1 | 3 | 5, 23..37) => return dependency(offset - 23),
            (9..=11, 27..41) => return dependency(offset - 27),
            (2, 10..24) => return dependency(offset - 10),
            (7, 28..42) => return dependency(offset - 28),
            (12, 32..46) => return dependency(offset - 32),
            _ => return None,
        })
    }
}

/// An entry has two bytes.
fn dependency(at: usize) -> Option<Field> {
    at.is_multiple_of(2).then_some(Field::Dependency((at / 2) as u8))
}

impl fmt::Display for Field {
    fn fmt(&self, f: &mut fmt::Formatter) -> fmt::Result {
        f.write_str(match self {
            Field::From => "from",
            Field::To => "to",
            Field::Owner => "owner",
            Field::Number => "number",
            Field::Ballot => "ballot",
            Field::Voted => "voted",
            Field::Status => "status",
            Field::Op => "op",
            Field::Key => "key",
            Field::Second => "second key",
            Field::Edit => "edit",
            Field::Joined => "joined",
            Field::Dependency(q) => return write!(f, "dependency {q}"),
        })
    }
}
