//! Messages that break a clause of valid, each clause alone and every two together, with the answer that the clauses
//! themselves give. For the programs that compare, and for tests; no call uses it.

use crate::fields::{self, Fields, OFFSETS};
use crate::message::{
    encode, is_long, Message, ACCEPT, COMMIT, LAST_KIND, LONGEST, NACK, PREPARE, PREPARE_OK,
    PRE_ACCEPT, PRE_ACCEPT_OK,
};
use crate::refusal::{Refusal, UNKNOWN_KIND, WRONG_LEAD, WRONG_LENGTH, WRONG_WAY};
use crate::rules::{Deps, REWIRE, WRITE};

/// A broken message to one copy.
pub struct Case<'a> {
    pub bytes: &'a [u8],
    /// The same as numbers, where numbers can say it: they have no length of their own, so that a message too long is
    /// one with a number that its kind does not carry.
    pub fields: Option<Fields>,
    /// What the copy answers to the bytes.
    pub reason: Refusal,
}

// Places among the nineteen numbers.
const KIND: usize = 0;
const FROM: usize = 1;
const TO: usize = 2;
const OWNER: usize = 3;
const NUMBER: usize = 4;
const BALLOT: usize = 5;
const VOTED_OR_JOINED: usize = 6;
const STATUS: usize = 7;
const OP: usize = 8;
const KEY: usize = 9;
const SECOND: usize = 10;
const EDIT: usize = 11;
const ENTRIES: usize = 12;
/// After them all, the length: 0 is a byte too few, 1 is right, 2 a byte too many.
const LENGTH: usize = fields::COUNT;

/// A number that breaks one clause, and what it is answered.
#[derive(Clone, Copy)]
struct Break {
    at: usize,
    value: u64,
    reason: Refusal,
}

/// Where the message goes, and the valid message that is broken.
struct Base<'a> {
    n: usize,
    s: usize,
    copy: usize,
    valid: &'a Message,
}

/// Of a known kind.
pub fn body_of(kind: u8) -> u8 {
    Message { kind, ..Message::default() }.body()
}

pub fn has_command(kind: u8) -> bool {
    matches!(body_of(kind), PRE_ACCEPT | ACCEPT | COMMIT | PREPARE_OK)
}

pub fn has_deps(kind: u8) -> bool {
    has_command(kind) || kind == PRE_ACCEPT_OK
}

/// Whether a message of this kind can have this op: a short one any but a rewire, a long one nothing else.
pub fn takes(kind: u8, op: u64) -> bool {
    match is_long(kind) {
        true => op == REWIRE as u64,
        false => op <= WRITE as u64,
    }
}

/// One in each entry that a copy has.
pub fn ones(n: usize) -> Deps {
    core::array::from_fn(|q| (q < n) as u16)
}

/// A valid message to a copy from its neighbour, at a ballot of this round, or at ballot 0 where the round is 0 and the
/// kind allows it.
pub fn valid(n: usize, copy: usize, kind: u8, round: u32) -> Message {
    let from = (copy + 1) % n;
    let body = body_of(kind);
    let led_by_sender = matches!(body, PRE_ACCEPT | ACCEPT | COMMIT | PREPARE);
    let lead = if led_by_sender { from } else { copy };
    let ballot = if round == 0 { 0 } else { 8 * round + lead as u32 };
    let owner = if round == 0 { lead } else { (copy + 2) % n };
    let mut m = Message {
        kind,
        from: from as u8,
        to: copy as u8,
        owner: owner as u8,
        number: 1,
        ballot,
        ..Message::default()
    };
    if has_command(kind) {
        (m.op, m.key, m.edit) = (WRITE, 0x0403_0201, 0x0c0b_0a09_0807_0605);
    }
    if is_long(kind) {
        (m.op, m.second) = (REWIRE, 0x100f_0e0d);
    }
    if has_deps(kind) {
        m.deps = ones(n);
    }
    match body {
        PREPARE_OK => (m.voted, m.status) = (ballot - 8, 3),
        NACK => m.joined = ballot + 8 - ballot % 8,
        _ => {}
    }
    m
}

/// The same message with a no-op in it, which makes no valid one of a long kind.
pub fn no_op(m: &Message) -> Message {
    Message { op: 0, key: 0, second: 0, edit: 0, ..*m }
}

/// A PrepareOK that tells of nothing.
pub fn nothing(m: &Message) -> Message {
    Message { voted: 0, status: 0, deps: [0; 7], ..no_op(m) }
}

/// All broken messages to this copy.
pub fn each(n: usize, s: usize, copy: usize, told: &mut impl FnMut(&Case)) {
    told(&Case { bytes: &[], fields: None, reason: UNKNOWN_KIND });
    for kind in PRE_ACCEPT..=LAST_KIND {
        let m = valid(n, copy, kind, 3);
        let mut of = |valid: &Message| of_base(&Base { n, s, copy, valid }, told);
        of(&m);
        if has_command(kind) && !is_long(kind) {
            of(&no_op(&m));
        }
        match body_of(kind) {
            PREPARE => {}
            // A vote at ballot 0, where status 0 leaves only the command to blame.
            PREPARE_OK if is_long(kind) => of(&Message { voted: 0, ..m }),
            PREPARE_OK => of(&nothing(&m)),
            _ => of(&valid(n, copy, kind, 0)),
        }
    }
}

fn of_base(base: &Base, told: &mut impl FnMut(&Case)) {
    base.breaks(&mut |a| {
        base.tell(&[a], told);
        // Of two numbers for one place only one can stand there.
        base.breaks(&mut |b| {
            if a.at < b.at {
                base.tell(&[a, b], told);
            }
        });
    });
}

/// When a reason is tried.
fn turn(reason: &Refusal) -> (u8, u8) {
    let order = match (reason.number, reason.offset) {
        (31, _) => 0,
        (32, _) => 1,
        (35, 0..10) => 2,
        (33, _) => 3,
        (34, _) => 4,
        _ => 5,
    };
    (order, reason.offset)
}

impl Base<'_> {
    fn breaks(&self, say: &mut dyn FnMut(Break)) {
        self.break_frame(say);
        self.break_head(say);
        self.break_way(say);
        match self.valid.body() {
            PREPARE_OK => self.break_vote(say),
            NACK => {
                let ballots = [7, u32::MAX as u64, self.valid.ballot as u64];
                self.out_of_range(VOTED_OR_JOINED, &ballots, say);
            }
            _ => {}
        }
        self.break_command(say);
        self.break_deps(say);
    }

    /// The field in its place is to blame for each of these.
    fn out_of_range(&self, at: usize, values: &[u64], say: &mut dyn FnMut(Break)) {
        let reason = self.blamed(at);
        values.iter().for_each(|&value| say(Break { at, value, reason }));
    }

    fn blamed(&self, at: usize) -> Refusal {
        Refusal::wrong_field(OFFSETS[self.valid.kind as usize][at] as usize)
    }

    fn break_frame(&self, say: &mut dyn FnMut(Break)) {
        say(Break { at: KIND, value: LAST_KIND as u64 + 1, reason: UNKNOWN_KIND });
        for value in [0, 2] {
            say(Break { at: LENGTH, value, reason: WRONG_LENGTH });
        }
    }

    fn break_head(&self, say: &mut dyn FnMut(Break)) {
        let (n, s) = (self.n as u64, self.s as u64);
        for at in [FROM, TO, OWNER] {
            self.out_of_range(at, &[n], say);
        }
        self.out_of_range(NUMBER, &[0, s + 1], say);
        self.out_of_range(BALLOT, &[7, 8 + n], say);
        if matches!(self.valid.body(), PREPARE | PREPARE_OK) {
            self.out_of_range(BALLOT, &[0], say);
        }
    }

    /// Copies that are in range and wrong.
    fn break_way(&self, say: &mut dyn FnMut(Break)) {
        let m = self.valid;
        let third = ((self.copy + 2) % self.n) as u64;
        say(Break { at: FROM, value: self.copy as u64, reason: WRONG_WAY });
        say(Break { at: TO, value: third, reason: WRONG_WAY });
        if m.body() == COMMIT {
            return;
        }
        say(Break { at: BALLOT, value: 24 + third, reason: WRONG_LEAD });
        if m.ballot == 0 {
            say(Break { at: OWNER, value: third, reason: WRONG_LEAD });
        }
    }

    fn break_vote(&self, say: &mut dyn FnMut(Break)) {
        let m = self.valid;
        self.out_of_range(VOTED_OR_JOINED, &[7, u32::MAX as u64, m.ballot as u64], say);
        self.out_of_range(STATUS, &[4], say);
        // Between the voted ballot and status 0 it is the status that comes later, between status 0 and an op the op.
        say(match m.status {
            0 => Break { at: VOTED_OR_JOINED, value: 8, reason: self.blamed(STATUS) },
            _ if m.voted == 0 => Break { at: STATUS, value: 0, reason: self.blamed(OP) },
            _ => Break { at: STATUS, value: 0, reason: self.blamed(STATUS) },
        });
    }

    fn break_command(&self, say: &mut dyn FnMut(Break)) {
        let m = self.valid;
        if !has_command(m.kind) {
            return;
        }
        if is_long(m.kind) {
            return self.break_rewire(say);
        }
        self.out_of_range(OP, &[3], say);
        if m.kind == PRE_ACCEPT && m.ballot == 0 {
            self.out_of_range(OP, &[0], say);
        }
        if m.kind == PREPARE_OK && m.status == 0 {
            self.out_of_range(OP, &[1, 2], say);
        }
        if m.op == 0 {
            self.out_of_range(KEY, &[1 << 31], say);
            self.out_of_range(EDIT, &[1 << 63], say);
        }
    }

    /// Keys that do not rise, by the change of either: both together do not rise either.
    fn break_rewire(&self, say: &mut dyn FnMut(Break)) {
        let (key, second) = (self.valid.key as u64, self.valid.second as u64);
        self.out_of_range(OP, &[0, 2, 4], say);
        self.out_of_range(SECOND, &[key, 0], say);
        say(Break { at: KEY, value: second, reason: self.blamed(SECOND) });
    }

    fn break_deps(&self, say: &mut dyn FnMut(Break)) {
        let m = self.valid;
        if !has_deps(m.kind) {
            return;
        }
        let nothing = m.body() == PREPARE_OK && m.status == 0;
        for q in 0..m.deps.len() {
            let highest = if q < self.n && !nothing { self.s } else { 0 };
            self.out_of_range(ENTRIES + q, &[highest as u64 + 1], say);
        }
    }

    /// The message with these numbers in it; of two reasons the one that is tried first.
    fn tell(&self, breaks: &[Break], told: &mut impl FnMut(&Case)) {
        let mut numbers = fields::fields(self.valid);
        let mut long = 1;
        for b in breaks {
            match b.at {
                LENGTH => long = b.value as usize,
                at => numbers[at] = b.value,
            }
        }
        let mut bytes = [0; LONGEST + 1];
        let kind = self.valid.kind;
        let length = encode(&Message { kind, ..fields::cut(&numbers, kind) }, &mut bytes);
        bytes[0] = numbers[KIND] as u8;
        let reasons = breaks.iter().map(|b| b.reason);
        if let Some(reason) = reasons.min_by_key(turn) {
            let fields = long_as(numbers, kind, long);
            told(&Case { bytes: &bytes[..length + long - 1], fields, reason });
        }
    }
}

/// Numbers cannot say that a message is too short. That it is too long they say by one in a place that the kind does not
/// have, if there is such a place.
fn long_as(mut numbers: Fields, kind: u8, long: usize) -> Option<Fields> {
    match long {
        0 => return None,
        1 => {}
        _ => *last_beside(&mut numbers, kind)? = 1,
    }
    Some(numbers)
}

fn last_beside(numbers: &mut Fields, kind: u8) -> Option<&mut u64> {
    let offsets = &OFFSETS[kind as usize];
    let at = (1..numbers.len()).rev().find(|&at| offsets[at] == 0)?;
    Some(&mut numbers[at])
}
