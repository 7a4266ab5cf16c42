//! Commands, dependencies, ballots, and the small rules over them.

use crate::bytes::{part_mut, u16_at, u32_at, u64_at};
use crate::setup::{Setup, MAX_COPIES};
use crate::table::{record_bytes, vote_bytes, COMMAND_AT};

pub type Deps = [u16; MAX_COPIES];

pub const NO_OP: u8 = 0;
pub const READ: u8 = 1;
pub const WRITE: u8 = 2;
pub const REWIRE: u8 = 3;

/// A command as records have it, and as messages with a rewire do.
pub const COMMAND_LEN: usize = 17;
/// One whose second key is left out.
pub const SHORT_LEN: usize = 13;
pub const DEPS_LEN: usize = 14;

/// The default is the no-op.
#[derive(Clone, Copy, Debug, Default, PartialEq, Eq)]
pub struct Command {
    pub op: u8,
    pub key: u32,
    /// A rewire's; zero with every other op, and no key of theirs.
    pub second: u32,
    pub edit: u64,
}

impl Command {
    #[inline]
    pub fn in_range(&self) -> bool {
        match self.op {
            NO_OP => (self.key, self.second, self.edit) == (0, 0, 0),
            READ | WRITE => self.second == 0,
            REWIRE => self.key < self.second,
            _ => false,
        }
    }

    #[inline]
    pub fn read(bytes: &[u8; COMMAND_LEN]) -> Command {
        let (key, second) = (u32_at(bytes, 1), u32_at(bytes, 5));
        Command { op: bytes[0], key, second, edit: u64_at(bytes, 9) }
    }

    pub fn write(&self, bytes: &mut [u8; COMMAND_LEN]) {
        bytes[0] = self.op;
        *part_mut(bytes, 1) = self.key.to_le_bytes();
        *part_mut(bytes, 5) = self.second.to_le_bytes();
        *part_mut(bytes, 9) = self.edit.to_le_bytes();
    }

    #[inline]
    pub fn read_short(bytes: &[u8; SHORT_LEN]) -> Command {
        Command { op: bytes[0], key: u32_at(bytes, 1), second: 0, edit: u64_at(bytes, 5) }
    }

    pub fn write_short(&self, bytes: &mut [u8; SHORT_LEN]) {
        bytes[0] = self.op;
        *part_mut(bytes, 1) = self.key.to_le_bytes();
        *part_mut(bytes, 5) = self.edit.to_le_bytes();
    }

    #[inline]
    fn writes(&self) -> bool {
        matches!(self.op, WRITE | REWIRE)
    }

    /// Whether the object of this key is one of those that it reads or changes.
    #[inline]
    fn touches(&self, key: u32) -> bool {
        (self.op != NO_OP && self.key == key) || (self.op == REWIRE && self.second == key)
    }
}

#[inline]
pub fn read_deps(bytes: &[u8; DEPS_LEN]) -> Deps {
    let mut deps = [0; MAX_COPIES];
    for q in 0..MAX_COPIES {
        deps[q] = u16_at(bytes, 2 * q);
    }
    deps
}

pub fn write_deps(deps: &Deps, bytes: &mut [u8; DEPS_LEN]) {
    for q in 0..MAX_COPIES {
        *part_mut(bytes, 2 * q) = deps[q].to_le_bytes();
    }
}

/// No entry is above its bound. All are compared at once.
#[inline]
pub fn within(deps: &Deps, highest: &Deps) -> bool {
    let mut good = true;
    for q in 0..MAX_COPIES {
        good &= deps[q] <= highest[q];
    }
    good
}

/// Which two commands are to be put in order. A type and not a pointer, so that
/// the plain calls are compiled with their rule in place.
pub trait Interference: Copy {
    fn meet(&self, a: &Command, b: &Command) -> bool;

    /// Seen by this rule, in the order of request 6/12: each row from its top, and
    /// no further than to the first one that is met.
    #[inline]
    fn seen(&self, setup: &Setup, table: &[u8], command: &Command, o: usize, j: usize) -> Deps {
        seen(setup, table, command, o, j, *self)
    }
}

impl<Rule: Fn(&Command, &Command) -> bool + Copy> Interference for Rule {
    #[inline]
    fn meet(&self, a: &Command, b: &Command) -> bool {
        self(a, b)
    }
}

/// The same answers by the search that request 6/12 found slow: from number 1 up,
/// through the whole row.
#[derive(Clone, Copy)]
pub struct Upward<Rule>(pub Rule);

impl<Rule: Interference> Interference for Upward<Rule> {
    #[inline]
    fn meet(&self, a: &Command, b: &Command) -> bool {
        self.0.meet(a, b)
    }

    #[inline]
    fn seen(&self, setup: &Setup, table: &[u8], command: &Command, o: usize, j: usize) -> Deps {
        let mut highest = [0; MAX_COPIES];
        if command.op == NO_OP {
            return highest;
        }
        for p in 0..setup.n {
            for i in 1..=setup.s {
                let vote = vote_bytes(record_bytes(table, setup, p, i));
                let other = Command::read(crate::bytes::part(vote, COMMAND_AT));
                if vote[4] >= 1 && self.meet(command, &other) && (p, i) != (o, j) {
                    highest[p] = i as u16;
                }
            }
        }
        highest
    }
}

/// Request 4/12: of two that touch one object, one at least changes it. Reads
/// alone answer the same in any order.
#[inline]
pub fn interfere(a: &Command, b: &Command) -> bool {
    same_object(a, b) && (a.writes() || b.writes())
}

/// Document 01: both touch one object, which a no-op never does. Copies that go
/// by it may work beside those that go by `interfere`.
///
/// A rewire shares one object with a command and another with a second one, so
/// that two which share nothing may both share something with it.
#[inline]
pub fn same_object(a: &Command, b: &Command) -> bool {
    (a.op != NO_OP && b.touches(a.key)) || (a.op == REWIRE && b.touches(a.second))
}

/// Instance o.j with these dependencies covers p.i.
pub fn covers(deps: &Deps, o: usize, j: usize, p: usize, i: usize) -> bool {
    (o, j) != (p, i) && 1 <= i && i <= deps[p] as usize
}

/// The larger entry at each place.
pub fn join(a: &Deps, b: &Deps) -> Deps {
    let mut joined = *a;
    for q in 0..MAX_COPIES {
        joined[q] = joined[q].max(b[q]);
    }
    joined
}

/// The copy that leads a ballot of an instance of this owner.
#[inline]
pub fn lead(ballot: u32, owner: usize) -> usize {
    if ballot == 0 {
        owner
    } else {
        (ballot % 8) as usize
    }
}

/// In each owner's row the last record of status 1 or more, o.j itself left
/// out, whose command interferes.
pub fn seen(
    setup: &Setup,
    table: &[u8],
    command: &Command,
    o: usize,
    j: usize,
    by: impl Interference,
) -> Deps {
    let mut highest = [0; MAX_COPIES];
    if command.op == NO_OP {
        return highest;
    }
    for p in 0..setup.n {
        for i in (1..=setup.s).rev() {
            let vote = vote_bytes(record_bytes(table, setup, p, i));
            let other = Command::read(crate::bytes::part(vote, COMMAND_AT));
            if vote[4] >= 1 && by.meet(command, &other) && (p, i) != (o, j) {
                highest[p] = i as u16;
                break;
            }
        }
    }
    highest
}
