//! A message as the nineteen numbers that cross to C: kind, from, to, owner, number, ballot, voted or joined, status, op,
//! key, second key, edit, seven dependencies.

use crate::message::{self, is_long, write_message, Message, LAST_KIND, NACK};
use crate::refusal::{Refusal, UNKNOWN_KIND, WRONG_LENGTH};
use crate::rules::{REWIRE, WRITE};

/// How many numbers there are.
pub const COUNT: usize = 19;

pub type Fields = [u64; COUNT];

const OP: usize = 8;
const ENTRIES: usize = 12;

/// For each kind, where in its bytes each number stands; 0 where it has none. Kind 0 is none.
pub(crate) const OFFSETS: [[u8; COUNT]; 13] = {
    type Places = [u8; COUNT];
    const HEAD: Places = [0, 1, 2, 3, 4, 6, 0, 0, 0, 0, 0, 0, 0, 0, 0, 0, 0, 0, 0];
    const ENTRIES: Places = [0, 1, 2, 3, 4, 6, 0, 0, 0, 0, 0, 0, 10, 12, 14, 16, 18, 20, 22];
    const COMMAND: Places = [0, 1, 2, 3, 4, 6, 0, 0, 10, 11, 0, 15, 23, 25, 27, 29, 31, 33, 35];
    const REWIRE: Places = [0, 1, 2, 3, 4, 6, 0, 0, 10, 11, 15, 19, 27, 29, 31, 33, 35, 37, 39];
    const VOTE: Places = [0, 1, 2, 3, 4, 6, 10, 14, 15, 16, 0, 20, 28, 30, 32, 34, 36, 38, 40];
    const REWIRE_VOTE: Places =
        [0, 1, 2, 3, 4, 6, 10, 14, 15, 16, 20, 24, 32, 34, 36, 38, 40, 42, 44];
    const JOINED: Places = [0, 1, 2, 3, 4, 6, 10, 0, 0, 0, 0, 0, 0, 0, 0, 0, 0, 0, 0];
    [
        [0; COUNT],
        COMMAND,
        ENTRIES,
        COMMAND,
        HEAD,
        COMMAND,
        HEAD,
        VOTE,
        JOINED,
        REWIRE,
        REWIRE,
        REWIRE,
        REWIRE_VOTE,
    ]
};

/// The largest number that each place can hold; which ops the op's can hold is up to the kind.
const MOST: Fields = {
    let (byte, two, four) = (u8::MAX as u64, u16::MAX as u64, u32::MAX as u64);
    let mut most = [two; COUNT];
    (most[0], most[1], most[2], most[3]) = (byte, byte, byte, byte);
    (most[5], most[6], most[7]) = (four, four, byte);
    (most[9], most[10], most[11]) = (four, four, u64::MAX);
    most
};

/// Whether the place can hold the number, in a message of this kind.
#[inline(always)]
fn fits(kind: u8, at: usize, number: u64) -> bool {
    match at {
        OP if is_long(kind) => number == REWIRE as u64,
        OP => number <= WRITE as u64,
        _ => number <= MOST[at],
    }
}

pub fn fields(m: &Message) -> Fields {
    let mut f = [0; COUNT];
    put(m, &mut f);
    f
}

/// The same into a place that is lent.
#[inline]
pub fn put(m: &Message, f: &mut Fields) {
    f[0] = m.kind as u64;
    f[1] = m.from as u64;
    f[2] = m.to as u64;
    f[3] = m.owner as u64;
    f[4] = m.number as u64;
    f[5] = m.ballot as u64;
    // A message carries a voted ballot or a joined one, never both.
    f[6] = (m.voted | m.joined) as u64;
    f[7] = m.status as u64;
    f[8] = m.op as u64;
    f[9] = m.key as u64;
    f[10] = m.second as u64;
    f[11] = m.edit;
    for q in 0..7 {
        f[ENTRIES + q] = m.deps[q] as u64;
    }
}

/// The message that these numbers say. A number that its place cannot hold is no field in range, whatever else is wrong.
#[inline]
fn message(f: &Fields) -> Result<Message, Refusal> {
    if !(1..=LAST_KIND as u64).contains(&f[0]) {
        return Err(UNKNOWN_KIND);
    }
    let kind = f[0] as u8;
    let offsets = &OFFSETS[kind as usize];
    let (mut beside, mut fit) = (0, true);
    for at in 1..COUNT {
        beside |= if offsets[at] == 0 { f[at] } else { 0 };
        fit &= fits(kind, at, f[at]);
    }
    if beside != 0 {
        return Err(WRONG_LENGTH);
    }
    if !fit {
        let first = (1..COUNT).find(|&at| !fits(kind, at, f[at])).unwrap_or(0);
        return Err(Refusal::wrong_field(offsets[first] as usize));
    }
    Ok(cut(f, kind))
}

/// The message that the numbers say when each is cut to its place, and the seventh taken as this kind has it.
#[inline]
pub fn cut(f: &Fields, kind: u8) -> Message {
    let is_nack = kind == NACK;
    let mut deps = [0; 7];
    for q in 0..7 {
        deps[q] = f[ENTRIES + q] as u16;
    }
    Message {
        kind: f[0] as u8,
        from: f[1] as u8,
        to: f[2] as u8,
        owner: f[3] as u8,
        number: f[4] as u16,
        ballot: f[5] as u32,
        voted: if is_nack { 0 } else { f[6] as u32 },
        joined: if is_nack { f[6] as u32 } else { 0 },
        status: f[7] as u8,
        op: f[OP] as u8,
        key: f[9] as u32,
        second: f[10] as u32,
        edit: f[11],
        deps,
    }
}

/// Writes what the numbers say, as the C call does.
pub fn write(
    n: usize,
    s: usize,
    copy: usize,
    out: &mut [u8],
    f: &Fields,
) -> Result<usize, Refusal> {
    message::writing(n, s, copy, out.len())?;
    write_message(n, s, copy, out, &message(f)?)
}
