//! Differences that can be planted: the paper's "errors that look reasonable", and slips in each kind of lent memory.

use second::fields::{self, Fields};
use second::message::{
    decode, is_long, length_of, COMMIT, LONG_COMMIT, LONG_PREPARE_OK, PREPARE_OK, PRE_ACCEPT,
    PRE_ACCEPT_OK,
};
use second::rules::{interfere, same_object, Command, NO_OP, READ, REWIRE, WRITE};
use second::table::{Record, Vote, COMMITTED, HEAD_LEN, MARK_AT, RECORD_LEN};
use second::{read_message, record_part, refusal, Event, Message, Refusal, Settled};
use std::sync::OnceLock;

// In a record: the op, the keys and the edit of its own vote.
const OP_AT: usize = 9;
const KEY_AT: usize = 10;
const SECOND_AT: usize = 14;
const EDIT_AT: usize = 18;

#[derive(Clone, Copy, PartialEq, Eq)]
pub enum Planted {
    Nothing,
    /// PrepareOK reports the joined ballot as the voted one.
    JoinedAsVoted,
    /// A repeated PreAccept has its dependencies worked out anew.
    WorkedOutAnew,
    /// Replies count that agree among themselves, whatever was sent.
    AgreeAmongThemselves,
    /// Recovery takes F matching replies though the owner is one of the replies.
    OwnerAmongReplies,
    /// A byte of the room after the written ones is touched.
    RoomTouched,
    /// A place of the list after the listed ones is touched.
    ListTouched,
    /// A Commit that is already stored is stored once more, its mark forgotten.
    MarkForgotten,
    /// A refused Commit leaves its edit behind.
    RefusedButStored,
    /// A refused nudge leaves values behind.
    ValuesLeft,
    /// The hand-out writes one place past the list.
    PastTheEnd,
    /// The judge does not look at a record's last byte.
    LastByteUnjudged,
    /// An event's offset of a wrong field is the next byte's.
    OffsetOffByOne,
    /// The reader asks who a message is for before it asks for ranges.
    WayBeforeRanges,
    /// The reader blames the earlier of two fields: the voted ballot that status 0 has none of.
    EarlierBlamed,
    /// The writer blames all dependencies for one.
    EntriesAsOne,
    /// A stream's refill drops what is left of a message.
    RestDropped,
    /// A message that the end of the buffer cuts is taken for whole.
    CutTakenForWhole,
    /// A take goes on after a stop.
    StopForgotten,
    /// The offset of a stop is counted from the buffer's start.
    OffsetInBuffer,
    /// Kind 8 is a byte shorter.
    LengthOffByOne,
    /// A place is accepted though what went before the buffer is no whole messages.
    UnsoundAccepted,
    /// A byte of the buffer after the taken ones is touched.
    BufferTouched,
    /// A refusal begins the stream again.
    PlaceForgotten,
    /// What is left of an entry that was cut is taken for one, the rest of it for zeros.
    RestForEntry,
    /// The table is changed before a later bad entry is seen.
    ChangedBeforeBad,
    /// An entry is judged before it is asked whether there is such an instance.
    UnsoundBeforeInstance,
    /// A mark on what is not committed is taken.
    MarkOnUncommitted,
    /// A mark is put on the next owner's instance.
    MarkElsewhere,
    /// A last byte by itself is a rest, whatever its kind.
    LastByteForRest,
    /// A bad entry is told by where it ends.
    EndForStart,
    /// A record is put and the mark that stood there kept.
    OldMarkKept,
    /// The writers ask for the instance before they ask for room.
    InstanceBeforeRoom,
    /// The writer takes a record as it stands.
    RecordUnjudged,
    /// A rest is dropped, and its end reported instead of its start.
    RestUnreported,
    /// Of an entry's number the first byte alone is read.
    NumberAsByte,
    /// A replayed record is judged as if this copy owned it.
    JudgedAsOwn,
    /// A writer touches a byte after the entry.
    EntryTouched,
    /// Two reads of one key interfere.
    ReadsInterfere,
    /// A read and a write of one key do not.
    WritesAlone,
    /// The first of two commands alone says whether one writes.
    FirstDecides,
    /// A no-op interferes with what writes its key, 0.
    NoOpInterferes,
    /// Which commands interfere goes by their first keys alone.
    SecondForgotten,
    /// A request may rewire an object to itself.
    EqualKeysRequested,
    /// A message may.
    EqualKeysRead,
    /// The second key goes out before the first.
    SecondFirst,
    /// A long kind is taken with a read or a write in it.
    ShortInLong,
    /// An entry of a record is as long as it was without second keys.
    OldEntryLength,
    /// The second key of what has one key counts too, and it is 0.
    SecondCounted,
    /// Two Commits that differ in the second key alone are the same.
    SecondNotCompared,
    /// The judge does not look at the second key of what has one key.
    SecondUnjudged,
    /// A stream frames the long kinds by the lengths of the short ones.
    LongAsShort,
    /// A place in a stream is judged by the lengths of the short kinds.
    OldSums,
    /// For status 0 beside a rewire the reader blames the status.
    StatusBlamed,
    /// A settled rewire is told without its second key.
    SettledWithoutSecond,
    /// The judge takes a rewire of an object to itself.
    EqualKeysJudged,
}

use Planted::*;

const ALL: [Planted; 56] = [
    Nothing,
    JoinedAsVoted,
    WorkedOutAnew,
    AgreeAmongThemselves,
    OwnerAmongReplies,
    RoomTouched,
    ListTouched,
    MarkForgotten,
    RefusedButStored,
    ValuesLeft,
    PastTheEnd,
    LastByteUnjudged,
    OffsetOffByOne,
    WayBeforeRanges,
    EarlierBlamed,
    EntriesAsOne,
    RestDropped,
    CutTakenForWhole,
    StopForgotten,
    OffsetInBuffer,
    LengthOffByOne,
    UnsoundAccepted,
    BufferTouched,
    PlaceForgotten,
    RestForEntry,
    ChangedBeforeBad,
    UnsoundBeforeInstance,
    MarkOnUncommitted,
    MarkElsewhere,
    LastByteForRest,
    EndForStart,
    OldMarkKept,
    InstanceBeforeRoom,
    RecordUnjudged,
    RestUnreported,
    NumberAsByte,
    JudgedAsOwn,
    EntryTouched,
    ReadsInterfere,
    WritesAlone,
    FirstDecides,
    NoOpInterferes,
    SecondForgotten,
    EqualKeysRequested,
    EqualKeysRead,
    SecondFirst,
    ShortInLong,
    OldEntryLength,
    SecondCounted,
    SecondNotCompared,
    SecondUnjudged,
    LongAsShort,
    OldSums,
    StatusBlamed,
    SettledWithoutSecond,
    EqualKeysJudged,
];

impl Planted {
    pub fn now() -> Planted {
        static CHOSEN: OnceLock<Planted> = OnceLock::new();
        *CHOSEN.get_or_init(|| {
            let number = std::env::var("PUMXAQERT_PLANTED").unwrap_or("0".into());
            ALL[number.parse::<usize>().expect("the number of a planted difference")]
        })
    }
}

/// The reader, with what is planted in it.
pub fn read(planted: Planted, setup: Setup, bytes: &[u8]) -> Result<Message, Refusal> {
    let Setup { n, s, copy } = setup;
    let answer = read_message(n, s, copy, bytes);
    let (Err(refusal), Ok(m)) = (answer, decode(bytes)) else { return answer };
    let wrong_way = m.to as usize != copy || m.from as usize == copy;
    match planted {
        WayBeforeRanges if refusal.number == 35 && wrong_way => Err(refusal::WRONG_WAY),
        EarlierBlamed if m.body() == PREPARE_OK && m.status == 0 && refusal.offset == 14 => {
            Err(Refusal::wrong_field(10))
        }
        StatusBlamed if m.kind == LONG_PREPARE_OK && m.status == 0 && refusal.offset == 15 => {
            Err(Refusal::wrong_field(14))
        }
        EqualKeysRead if blames_second(&m, &refusal) && m.key == m.second => Ok(m),
        ShortInLong if is_long(m.kind) && blames_op(&m, &refusal) && m.op <= WRITE => Ok(m),
        _ => answer,
    }
}

/// Where the command begins in a message that has one.
fn command_at(m: &Message) -> u8 {
    match m.body() {
        PREPARE_OK => 15,
        _ => 10,
    }
}

fn blames_op(m: &Message, refusal: &Refusal) -> bool {
    refusal.offset == command_at(m)
}

fn blames_second(m: &Message, refusal: &Refusal) -> bool {
    is_long(m.kind) && refusal.offset == command_at(m) + 5
}

/// The writer, with what is planted in it.
pub fn write(planted: Planted, setup: Setup, out: &mut [u8], f: &Fields) -> Result<usize, Refusal> {
    let Setup { n, s, copy } = setup;
    let answer = fields::write(n, s, copy, out, f);
    swap_keys(planted, &mut out[..answer.unwrap_or(0)]);
    let first = match f[0] {
        1 | 3 | 5 => 23,
        2 => 10,
        7 => 28,
        9..=11 => 27,
        12 => 32,
        _ => return answer,
    };
    match (planted, answer) {
        (EntriesAsOne, Err(r)) if r.offset >= first => Err(Refusal::wrong_field(first as usize)),
        _ => answer,
    }
}

/// What an event writes, with what is planted in it.
pub fn sent(planted: Planted, answer: &Result<Event, Refusal>, out: &mut [u8]) {
    if let Ok(event) = answer {
        swap_keys(planted, &mut out[..event.written]);
    }
}

/// In each of these messages that has two keys.
fn swap_keys(planted: Planted, mut messages: &mut [u8]) {
    while let (SecondFirst, Some(&kind)) = (planted, messages.first()) {
        let (message, rest) = messages.split_at_mut(length_of(kind).expect("a known kind"));
        if is_long(kind) {
            let key = if kind == LONG_PREPARE_OK { 16 } else { 11 };
            message[key..key + 8].rotate_left(4);
        }
        messages = rest;
    }
}

/// The offset that an event tells.
pub fn offset(planted: Planted, offset: usize) -> usize {
    match planted {
        OffsetOffByOne if offset > 0 => offset + 1,
        _ => offset,
    }
}

#[derive(Clone, Copy)]
pub struct Setup {
    pub n: usize,
    pub s: usize,
    pub copy: usize,
}

/// Which commands interfere, with what is planted in it.
pub fn interference(planted: Planted) -> fn(&Command, &Command) -> bool {
    match planted {
        ReadsInterfere => same_object,
        WritesAlone => |a, b| same_object(a, b) && writes(a) && writes(b),
        FirstDecides => |a, b| same_object(a, b) && writes(a),
        NoOpInterferes => |a, b| interfere(&no_op_as_read(a), &no_op_as_read(b)),
        SecondForgotten => |a, b| interfere(&of_one_key(a), &of_one_key(b)),
        SecondCounted => |a, b| (writes(a) || writes(b)) && share_any(a, b),
        _ => interfere,
    }
}

fn writes(c: &Command) -> bool {
    matches!(c.op, WRITE | REWIRE)
}

fn no_op_as_read(c: &Command) -> Command {
    let op = if c.op == NO_OP { READ } else { c.op };
    Command { op, ..*c }
}

fn of_one_key(c: &Command) -> Command {
    Command { op: c.op.min(WRITE), second: 0, ..*c }
}

/// Whether both have a key in common, with a second one for all but the no-op.
fn share_any(a: &Command, b: &Command) -> bool {
    let keys = [b.key, b.second];
    a.op != NO_OP && b.op != NO_OP && (keys.contains(&a.key) || keys.contains(&a.second))
}

/// A request, with what is planted in it.
pub fn request(
    planted: Planted,
    setup: Setup,
    t: &mut [u8],
    out: &mut [u8],
    command: Command,
) -> Result<Event, Refusal> {
    let Setup { n, s, copy } = setup;
    let Command { op, key, second, edit } = command;
    let by = interference(planted);
    let equal = planted == EqualKeysRequested && op == REWIRE && key == second && key > 0;
    let first = if equal { key - 1 } else { key };
    let answer = second::request_by(by, t, n, s, copy, out, op, first, second, edit);
    if let (true, Ok(event)) = (equal, answer) {
        // As if nothing else had been asked for.
        let (at, _) = record_part(t, n, s, copy, event.owner, event.number);
        t[at + 10..at + 14].copy_from_slice(&key.to_le_bytes());
        let messages = out[..event.written].chunks_exact_mut(41);
        messages.for_each(|message| message[11..15].copy_from_slice(&key.to_le_bytes()));
    }
    answer
}

/// What is told of a settled instance, with what is planted in it.
pub fn settled(planted: Planted, answer: Result<Settled, Refusal>) -> Result<Settled, Refusal> {
    match (planted, answer) {
        (SettledWithoutSecond, Ok(Settled::Command { op, key, edit, .. })) => {
            Ok(Settled::Command { op, key, second: 0, edit })
        }
        _ => answer,
    }
}

/// One message event, with what is planted in it.
pub fn message(
    planted: Planted,
    setup: Setup,
    t: &mut [u8],
    out: &mut [u8],
    bytes: &[u8],
) -> Result<Event, Refusal> {
    let Setup { n, s, copy } = setup;
    let found = match planted {
        JoinedAsVoted | WorkedOutAnew | AgreeAmongThemselves | OwnerAmongReplies
        | MarkForgotten | RefusedButStored | SecondNotCompared => at_message(setup, t, bytes),
        _ => None,
    };
    let Some((m, at, record)) = found else {
        return second::message_by(interference(planted), t, n, s, copy, out, bytes);
    };
    let before = t[at..at + RECORD_LEN].to_vec();
    let sent = changed_before(planted, setup, t, &m, at, record);
    let answer = second::message(t, n, s, copy, out, sent.as_deref().unwrap_or(bytes));
    if answer.is_err() {
        t[at..at + RECORD_LEN].copy_from_slice(&before);
    }
    changed_after(planted, &answer, t, out, &m, at, &before);
    answer
}

/// The message and the record that it is about, where it comes so far.
fn at_message(setup: Setup, t: &[u8], bytes: &[u8]) -> Option<(Message, usize, Record)> {
    let Setup { n, s, copy } = setup;
    second::judge_table(t, n, s, copy).ok()?;
    let m = read_message(n, s, copy, bytes).ok()?;
    let (at, _) = record_part(t, n, s, copy, m.owner as usize, m.number as usize);
    Some((m, at, record_at(t, at)))
}

fn record_at(t: &[u8], at: usize) -> Record {
    Record::read(t[at..].first_chunk().expect("a whole record"))
}

fn put(t: &mut [u8], at: usize, record: &Record) {
    record.write(t[at..].first_chunk_mut().expect("a whole record"));
}

/// Changes the record before the event; gives other bytes for the message where that is what is planted.
fn changed_before(
    planted: Planted,
    setup: Setup,
    t: &mut [u8],
    m: &Message,
    at: usize,
    mut record: Record,
) -> Option<Vec<u8>> {
    let f = (setup.n - 1) / 2;
    let mut m = *m;
    let own = record.own;
    match planted {
        WorkedOutAnew if m.body() == PRE_ACCEPT && matches!(own.status, 1 | 2) => {
            if own.voted == m.ballot && record.joined == m.ballot {
                record.own = Vote::default();
            }
        }
        AgreeAmongThemselves if m.kind == PRE_ACCEPT_OK && record.phase == 2 => {
            count_agreeing(f, &mut m, &mut record);
        }
        OwnerAmongReplies if m.body() == PREPARE_OK && record.phase == 1 => {
            take_matching(f, &mut m, &mut record);
        }
        SecondNotCompared if m.kind == LONG_COMMIT && own.status == COMMITTED => {
            m.second = if own.command.op == REWIRE { own.command.second } else { m.second };
        }
        _ => return None,
    }
    put(t, at, &record);
    let mut room = [0; 256];
    let length = second::write_message(setup.n, setup.s, setup.copy, &mut room, &m).ok()?;
    Some(room[..length].to_vec())
}

/// With 2F-1 replies that agree at ballot 0, they are made to agree with what was sent.
fn count_agreeing(f: usize, m: &mut Message, record: &mut Record) {
    if m.ballot != 0 || record.joined != 0 || record.set >> m.from & 1 == 1 {
        return;
    }
    let (set, deps) = (record.set, m.deps);
    let inside = |q: usize| set >> q & 1 == 1;
    let replies = record.replies.iter_mut().enumerate().filter(|(q, _)| inside(*q));
    let agreeing: Vec<&mut Vote> = replies.map(|(_, r)| r).filter(|r| r.deps == deps).collect();
    if agreeing.len() + 1 >= 2 * f - 1 {
        agreeing.into_iter().for_each(|r| r.deps = record.own.deps);
        m.deps = record.own.deps;
    }
}

/// With F of status 2 at ballot 0 and nothing higher, the lowest of them is made to count as accepted.
fn take_matching(f: usize, m: &mut Message, record: &mut Record) {
    let mut set = record.set;
    if set >> m.from & 1 == 1 || set.count_ones() as usize != f || record.joined != m.ballot {
        return;
    }
    set |= 1 << m.from;
    let vote = |q: u8| match q == m.from {
        true => (m.voted, m.status),
        false => (record.replies[q as usize].voted, record.replies[q as usize].status),
    };
    let inside = || (0..7u8).filter(|&q| set >> q & 1 == 1);
    let higher = inside().any(|q| vote(q).0 > 0 || vote(q).1 == 3);
    let matching = inside().filter(|&q| vote(q).1 == 2).count();
    if higher || matching < f {
        return;
    }
    // The replies that are stored must stay sound; the one that has just come will do.
    if m.status == 2 {
        m.status = 3;
    }
}

fn changed_after(
    planted: Planted,
    answer: &Result<Event, Refusal>,
    t: &mut [u8],
    out: &mut [u8],
    m: &Message,
    at: usize,
    before: &[u8],
) {
    match (planted, answer) {
        (JoinedAsVoted, Ok(event)) if event.written > 0 && matches!(out[0], 7 | 12) => {
            // What was joined before this Prepare; a reply must still be valid to do harm.
            let joined: [u8; 4] = before[..4].try_into().expect("four bytes");
            if out[14] > 0 && u32::from_le_bytes(joined) < m.ballot {
                out[10..14].copy_from_slice(&joined);
            }
        }
        (MarkForgotten, Ok(_)) if m.body() == COMMIT => t[at + MARK_AT] = 0,
        (RefusedButStored, Err(refusal::OTHER_COMMIT)) => t[at + EDIT_AT] ^= 1,
        _ => {}
    }
}

pub fn after_nudge(planted: Planted, answer: &Result<Event, Refusal>, out: &mut [u8]) {
    if let (RoomTouched, Ok(event)) = (planted, answer) {
        if let Some(byte) = out.get_mut(event.written) {
            *byte = 0;
        }
    }
}

pub fn after_hand_out(planted: Planted, codes: usize, list: &mut [u16]) {
    if planted == ListTouched {
        if let Some(place) = list.get_mut(codes) {
            *place = 0;
        }
    }
}

/// The table as the judge then sees it: a byte, or a key, that it does not look at is nothing.
pub fn before_judge(planted: Planted, t: &[u8]) -> Option<Vec<u8>> {
    let mut seen = t.to_vec();
    match planted {
        LastByteUnjudged => *seen.last_mut()? = 0,
        SecondUnjudged => {
            let records = seen.get_mut(HEAD_LEN..)?.chunks_exact_mut(RECORD_LEN);
            for record in records.filter(|record| record[OP_AT] < REWIRE) {
                record[SECOND_AT..EDIT_AT].fill(0);
            }
        }
        EqualKeysJudged => {
            let records = seen.get_mut(HEAD_LEN..)?.chunks_exact_mut(RECORD_LEN);
            for record in records.filter(|record| record[OP_AT] == REWIRE) {
                if record[KEY_AT..SECOND_AT] == record[SECOND_AT..EDIT_AT] {
                    record[SECOND_AT..EDIT_AT].fill(u8::MAX);
                }
            }
        }
        _ => return None,
    }
    Some(seen)
}
