//! Messages of eight bodies in twelve kinds: reader, writer, and the first reason not to take one. The four bodies that
//! carry a command have a kind of their own for a rewire, with the second key in it.
//!
//! The steps of judging are inlined into both: between calls a message would go through memory.

use crate::bytes::{part, part_mut, u16_at, u32_at};
use crate::refusal::{Refusal, ROOM as NO_ROOM, UNKNOWN_KIND, WRONG_LEAD, WRONG_LENGTH, WRONG_WAY};
use crate::rules::{
    lead, read_deps, within, write_deps, Command, Deps, COMMAND_LEN, NO_OP, REWIRE, SHORT_LEN,
    WRITE,
};
use crate::setup::{Setup, MAX_COPIES};
use crate::table::{ACCEPTED, NONE};

pub const PRE_ACCEPT: u8 = 1;
pub const PRE_ACCEPT_OK: u8 = 2;
pub const ACCEPT: u8 = 3;
pub const ACCEPT_OK: u8 = 4;
pub const COMMIT: u8 = 5;
pub const PREPARE: u8 = 6;
pub const PREPARE_OK: u8 = 7;
pub const NACK: u8 = 8;
// The same with a rewire.
pub const LONG_PRE_ACCEPT: u8 = 9;
pub const LONG_ACCEPT: u8 = 10;
pub const LONG_COMMIT: u8 = 11;
pub const LONG_PREPARE_OK: u8 = 12;
/// No kind is above it.
pub const LAST_KIND: u8 = LONG_PREPARE_OK;

/// The length of each kind; kind 0 is none.
pub const LENGTHS: [usize; 13] = [0, 37, 24, 37, 10, 37, 10, 42, 14, 41, 41, 41, 46];
pub const LONGEST: usize = 46;

/// The body of each kind, named by the kind that has it without a rewire.
const BODIES: [u8; 13] = [
    0,
    PRE_ACCEPT,
    PRE_ACCEPT_OK,
    ACCEPT,
    ACCEPT_OK,
    COMMIT,
    PREPARE,
    PREPARE_OK,
    NACK,
    PRE_ACCEPT,
    ACCEPT,
    COMMIT,
    PREPARE_OK,
];

// Where the fields begin; a body by itself begins after the ten bytes of the head.
const FROM: usize = 1;
const TO: usize = 2;
const OWNER: usize = 3;
const NUMBER: usize = 4;
const BALLOT: usize = 6;
const BODY: usize = 10;
/// In a PrepareOK, after the voted ballot.
const STATUS: usize = 14;
const VOTED_COMMAND: usize = 15;

/// Room that every event, and the writer, asks for.
pub const ROOM: usize = 256;

/// Fields that a kind does not carry are zero.
#[derive(Clone, Copy, Debug, Default, PartialEq, Eq)]
pub struct Message {
    pub kind: u8,
    pub from: u8,
    pub to: u8,
    pub owner: u8,
    pub number: u16,
    pub ballot: u32,
    pub voted: u32,
    pub status: u8,
    pub joined: u32,
    pub op: u8,
    pub key: u32,
    pub second: u32,
    pub edit: u64,
    pub deps: [u16; 7],
}

impl Message {
    pub fn command(&self) -> Command {
        Command { op: self.op, key: self.key, second: self.second, edit: self.edit }
    }

    /// The same message with this command and these dependencies; its kind stays.
    #[inline(always)]
    pub fn with(self, command: &Command, deps: &Deps) -> Message {
        let Command { op, key, second, edit } = *command;
        Message { op, key, second, edit, deps: *deps, ..self }
    }

    /// What the kind stands for, whether there is a rewire in it or not.
    #[inline(always)]
    pub fn body(&self) -> u8 {
        BODIES[self.kind as usize]
    }
}

#[inline(always)]
fn known(kind: u8) -> bool {
    (PRE_ACCEPT..=LAST_KIND).contains(&kind)
}

/// Whether this known kind carries a rewire, and nothing else for a command.
#[inline(always)]
pub fn is_long(kind: u8) -> bool {
    kind > NACK
}

/// The kind that a body travels in with a command of this op; one without a command has only one.
pub fn kind_of(body: u8, op: u8) -> u8 {
    match body {
        PRE_ACCEPT if op == REWIRE => LONG_PRE_ACCEPT,
        ACCEPT if op == REWIRE => LONG_ACCEPT,
        COMMIT if op == REWIRE => LONG_COMMIT,
        PREPARE_OK if op == REWIRE => LONG_PREPARE_OK,
        _ => body,
    }
}

/// Where the dependencies begin after a command that begins here.
#[inline(always)]
fn deps_after(kind: u8, command: usize) -> usize {
    command + if is_long(kind) { COMMAND_LEN } else { SHORT_LEN }
}

/// How long a message of this kind is; none where there is no such kind.
#[inline(always)]
pub fn length_of(kind: u8) -> Option<usize> {
    known(kind).then(|| LENGTHS[kind as usize])
}

/// The fields as they stand; only kind and length are judged.
#[inline(always)]
pub fn decode(bytes: &[u8]) -> Result<Message, Refusal> {
    let kind = *bytes.first().ok_or(UNKNOWN_KIND)?;
    let length = length_of(kind).ok_or(UNKNOWN_KIND)?;
    ask(bytes.len() == length, WRONG_LENGTH)?;
    let head = Message {
        kind,
        from: bytes[FROM],
        to: bytes[TO],
        owner: bytes[OWNER],
        number: u16_at(bytes, NUMBER),
        ballot: u32_at(bytes, BALLOT),
        ..Message::default()
    };
    Ok(match head.body() {
        PRE_ACCEPT | ACCEPT | COMMIT => head.carrying(bytes, BODY),
        PRE_ACCEPT_OK => Message { deps: read_deps(part(bytes, BODY)), ..head },
        PREPARE_OK => {
            let voted = u32_at(bytes, BODY);
            Message { voted, status: bytes[STATUS], ..head }.carrying(bytes, VOTED_COMMAND)
        }
        NACK => Message { joined: u32_at(bytes, BODY), ..head },
        _ => head,
    })
}

impl Message {
    /// The same with the command that begins here, and the dependencies after it.
    #[inline(always)]
    fn carrying(self, bytes: &[u8], at: usize) -> Message {
        let command = match is_long(self.kind) {
            true => Command::read(part(bytes, at)),
            false => Command::read_short(part(bytes, at)),
        };
        self.with(&command, &read_deps(part(bytes, deps_after(self.kind, at))))
    }

    /// Writes what is carried, the command from here on.
    fn carry(&self, out: &mut [u8], at: usize) {
        match is_long(self.kind) {
            true => self.command().write(part_mut(out, at)),
            false => self.command().write_short(part_mut(out, at)),
        }
        write_deps(&self.deps, part_mut(out, deps_after(self.kind, at)));
    }
}

/// Writes a message of a known kind at the start of `out`, valid or not; gives its length.
pub fn encode(m: &Message, out: &mut [u8]) -> usize {
    let length = LENGTHS[m.kind as usize];
    let out = &mut out[..length];
    out[0] = m.kind;
    out[FROM] = m.from;
    out[TO] = m.to;
    out[OWNER] = m.owner;
    *part_mut(out, NUMBER) = m.number.to_le_bytes();
    *part_mut(out, BALLOT) = m.ballot.to_le_bytes();
    match m.body() {
        PRE_ACCEPT | ACCEPT | COMMIT => m.carry(out, BODY),
        PRE_ACCEPT_OK => write_deps(&m.deps, part_mut(out, BODY)),
        PREPARE_OK => {
            *part_mut(out, BODY) = m.voted.to_le_bytes();
            out[STATUS] = m.status;
            m.carry(out, VOTED_COMMAND);
        }
        NACK => *part_mut(out, BODY) = m.joined.to_le_bytes(),
        _ => {}
    }
    length
}

#[inline(always)]
fn ask(holds: bool, otherwise: Refusal) -> Result<(), Refusal> {
    if holds {
        Ok(())
    } else {
        Err(otherwise)
    }
}

/// The first reason for the copy `receiver` not to take the message; none is what "valid" means. Kind and length are
/// known to be good.
#[inline(always)]
fn judge(setup: &Setup, receiver: usize, m: &Message) -> Result<(), Refusal> {
    let (from, to) = (m.from as usize, m.to as usize);
    judge_head(setup, m)?;
    ask(to == receiver && from != receiver, WRONG_WAY)?;
    let lead = lead(m.ballot, m.owner as usize);
    let led = match m.body() {
        PRE_ACCEPT | ACCEPT | PREPARE => from == lead,
        COMMIT => true,
        _ => to == lead,
    };
    ask(led, WRONG_LEAD)?;
    judge_body(setup, m)
}

/// The ranges of what every kind begins with. A ballot that the kind cannot have counts as out of range.
#[inline(always)]
fn judge_head(setup: &Setup, m: &Message) -> Result<(), Refusal> {
    let asked_for = matches!(m.body(), PREPARE | PREPARE_OK);
    ask((m.from as usize) < setup.n, Refusal::wrong_field(FROM))?;
    ask((m.to as usize) < setup.n, Refusal::wrong_field(TO))?;
    ask((m.owner as usize) < setup.n, Refusal::wrong_field(OWNER))?;
    ask((1..=setup.s).contains(&(m.number as usize)), Refusal::wrong_field(NUMBER))?;
    ask(setup.is_ballot(m.ballot) && (m.ballot != 0 || !asked_for), Refusal::wrong_field(BALLOT))
}

#[inline(always)]
fn judge_body(setup: &Setup, m: &Message) -> Result<(), Refusal> {
    match m.body() {
        PRE_ACCEPT | ACCEPT | COMMIT => {
            let may_be_no_op = m.body() != PRE_ACCEPT || m.ballot != 0;
            judge_command(m, BODY, may_be_no_op, true)?;
            judge_deps(m, deps_after(m.kind, BODY), &setup.highest)
        }
        PRE_ACCEPT_OK => judge_deps(m, BODY, &setup.highest),
        PREPARE_OK => judge_vote(setup, m),
        NACK => ask(setup.is_ballot(m.joined) && m.joined > m.ballot, Refusal::wrong_field(BODY)),
        _ => Ok(()),
    }
}

/// With status 0 there is nothing else; whatever stands there all the same is to blame, since it comes later, but for
/// the voted ballot, which comes before the status.
#[inline(always)]
fn judge_vote(setup: &Setup, m: &Message) -> Result<(), Refusal> {
    let nothing = m.status == NONE;
    ask(setup.is_ballot(m.voted) && m.voted < m.ballot, Refusal::wrong_field(BODY))?;
    ask(m.status <= ACCEPTED && (!nothing || m.voted == 0), Refusal::wrong_field(STATUS))?;
    judge_command(m, VOTED_COMMAND, true, !nothing)?;
    let highest = if nothing { &[0; MAX_COPIES] } else { &setup.highest };
    judge_deps(m, deps_after(m.kind, VOTED_COMMAND), highest)
}

/// The command at this offset, and whether it may be a no-op or anything else.
#[inline(always)]
fn judge_command(m: &Message, at: usize, no_op: bool, other: bool) -> Result<(), Refusal> {
    if is_long(m.kind) {
        return judge_rewire(m, at, other);
    }
    let is_no_op = m.op == NO_OP;
    ask(m.op <= WRITE && if is_no_op { no_op } else { other }, Refusal::wrong_field(at))?;
    // A no-op has nothing after its op.
    ask(!is_no_op || m.key == 0, Refusal::wrong_field(at + 1))?;
    ask(!is_no_op || m.edit == 0, Refusal::wrong_field(at + 5))
}

/// A rewire at this offset, where one may stand. Its keys rise; of the two the second comes later, and is to blame.
#[inline(always)]
fn judge_rewire(m: &Message, at: usize, allowed: bool) -> Result<(), Refusal> {
    ask(m.op == REWIRE && allowed, Refusal::wrong_field(at))?;
    ask(m.key < m.second, Refusal::wrong_field(at + 5))
}

/// Which entry is too high is asked only where one is.
#[inline(always)]
fn judge_deps(m: &Message, at: usize, highest: &Deps) -> Result<(), Refusal> {
    if within(&m.deps, highest) {
        return Ok(());
    }
    let first = (0..MAX_COPIES).find(|&q| m.deps[q] > highest[q]).unwrap_or(0);
    Err(Refusal::wrong_field(at + 2 * first))
}

pub(crate) fn read(setup: &Setup, bytes: &[u8]) -> Result<Message, Refusal> {
    let m = decode(bytes)?;
    judge(setup, setup.copy, &m)?;
    Ok(m)
}

/// Reads a message as received by `copy`.
pub fn read_message(n: usize, s: usize, copy: usize, bytes: &[u8]) -> Result<Message, Refusal> {
    read(&Setup::new(n, s, copy)?, bytes)
}

/// Refusals 1 and 2 of the writer.
pub(crate) fn writing(n: usize, s: usize, copy: usize, room: usize) -> Result<Setup, Refusal> {
    let setup = Setup::new(n, s, copy)?;
    ask(room >= ROOM, NO_ROOM)?;
    Ok(setup)
}

/// Writes a message, or answers what the copy named in `to` would.
pub fn write_message(
    n: usize,
    s: usize,
    copy: usize,
    out: &mut [u8],
    m: &Message,
) -> Result<usize, Refusal> {
    let setup = writing(n, s, copy, out.len())?;
    ask(known(m.kind), UNKNOWN_KIND)?;
    let mut bytes = [0; LONGEST];
    let length = encode(m, &mut bytes);
    // A number that the kind has no place for does not read back: with it the message would be longer.
    ask(decode(&bytes[..length]) == Ok(*m), WRONG_LENGTH)?;
    judge(&setup, m.to as usize, m)?;
    out[..length].copy_from_slice(&bytes[..length]);
    Ok(length)
}
