//! The table of records in lent bytes: blank, sound, and one record's part.

use crate::bytes::{part, part_mut, u32_at, zero};
use crate::old;
use crate::refusal::{self, Refusal};
use crate::rules::{lead, read_deps, write_deps, Command, Deps, NO_OP};
use crate::setup::{good_sizes, Setup, MAX_COPIES};

pub const HEAD_LEN: usize = 3;
pub const RECORD_LEN: usize = 295;
pub const VOTE_LEN: usize = 36;

const VOTE_AT: usize = 4;
pub const MARK_AT: usize = 40;
const PHASE_AT: usize = 41;
const SET_AT: usize = 42;
const REPLIES_AT: usize = 43;

// Within a vote.
pub(crate) const COMMAND_AT: usize = 5;
pub(crate) const DEPS_AT: usize = 22;

pub const NONE: u8 = 0;
pub const PRE_ACCEPTED_ADDED: u8 = 1;
pub const PRE_ACCEPTED: u8 = 2;
pub const ACCEPTED: u8 = 3;
pub const COMMITTED: u8 = 4;

pub const IDLE: u8 = 0;
pub const PREPARING: u8 = 1;
pub const PRE_ACCEPTING: u8 = 2;
pub const ACCEPTING: u8 = 3;

/// Voted ballot, status, command and dependencies: a copy's own, or a reply's.
#[derive(Clone, Copy, Debug, Default, PartialEq, Eq)]
pub struct Vote {
    pub voted: u32,
    pub status: u8,
    pub command: Command,
    pub deps: Deps,
}

impl Vote {
    #[inline]
    pub fn read(bytes: &[u8; VOTE_LEN]) -> Vote {
        Vote {
            voted: u32_at(bytes, 0),
            status: bytes[4],
            command: Command::read(part(bytes, COMMAND_AT)),
            deps: read_deps(part(bytes, DEPS_AT)),
        }
    }

    pub fn write(&self, bytes: &mut [u8; VOTE_LEN]) {
        *part_mut(bytes, 0) = self.voted.to_le_bytes();
        bytes[4] = self.status;
        self.command.write(part_mut(bytes, COMMAND_AT));
        write_deps(&self.deps, part_mut(bytes, DEPS_AT));
    }
}

/// The record of one instance, read out of its bytes.
#[derive(Clone, Copy, Debug, Default, PartialEq, Eq)]
pub struct Record {
    pub joined: u32,
    pub own: Vote,
    pub mark: u8,
    pub phase: u8,
    pub set: u8,
    pub replies: [Vote; MAX_COPIES],
}

impl Record {
    pub fn read(bytes: &[u8; RECORD_LEN]) -> Record {
        let mut replies = [Vote::default(); MAX_COPIES];
        for q in 0..MAX_COPIES {
            replies[q] = Vote::read(reply_bytes(bytes, q));
        }
        Record {
            joined: u32_at(bytes, 0),
            own: Vote::read(vote_bytes(bytes)),
            mark: bytes[MARK_AT],
            phase: bytes[PHASE_AT],
            set: bytes[SET_AT],
            replies,
        }
    }

    pub fn write(&self, bytes: &mut [u8; RECORD_LEN]) {
        *part_mut(bytes, 0) = self.joined.to_le_bytes();
        self.own.write(part_mut(bytes, VOTE_AT));
        bytes[MARK_AT] = self.mark;
        bytes[PHASE_AT] = self.phase;
        bytes[SET_AT] = self.set;
        for q in 0..MAX_COPIES {
            self.replies[q].write(part_mut(bytes, REPLIES_AT + VOTE_LEN * q));
        }
    }
}

#[inline]
pub(crate) fn record_at(setup: &Setup, o: usize, j: usize) -> usize {
    HEAD_LEN + RECORD_LEN * setup.index(o, j)
}

#[inline]
pub(crate) fn record_bytes<'a>(
    t: &'a [u8],
    setup: &Setup,
    o: usize,
    j: usize,
) -> &'a [u8; RECORD_LEN] {
    part(t, record_at(setup, o, j))
}

#[inline]
pub(crate) fn vote_bytes(record: &[u8; RECORD_LEN]) -> &[u8; VOTE_LEN] {
    part(record, VOTE_AT)
}

#[inline]
fn reply_bytes(record: &[u8; RECORD_LEN], q: usize) -> &[u8; VOTE_LEN] {
    part(record, REPLIES_AT + VOTE_LEN * q)
}

#[inline]
pub(crate) fn status_of(record: &[u8; RECORD_LEN]) -> u8 {
    record[VOTE_AT + 4]
}

/// In a sound table a record with nothing joined and no status is all zero:
/// nothing is voted, and no phase allows both.
#[inline]
pub(crate) fn is_blank(record: &[u8; RECORD_LEN]) -> bool {
    u32_at(record, 0) == 0 && status_of(record) == NONE
}

/// The length of a table; 0 for sizes that no table has.
pub fn table_len(n: usize, s: usize) -> usize {
    if good_sizes(n, s) {
        HEAD_LEN + RECORD_LEN * n * s
    } else {
        0
    }
}

/// Refusal 1: setup, copy number and table length.
pub(crate) fn fitting(t: &[u8], n: usize, s: usize, copy: usize) -> Result<Setup, Refusal> {
    let setup = Setup::new(n, s, copy)?;
    if t.len() != table_len(n, s) {
        return Err(refusal::SETUP);
    }
    Ok(setup)
}

/// Refusals 1 and 11.
pub(crate) fn judged(t: &[u8], n: usize, s: usize, copy: usize) -> Result<Setup, Refusal> {
    let setup = fitting(t, n, s, copy)?;
    if sound(&setup, t) {
        Ok(setup)
    } else {
        Err(refusal::UNSOUND)
    }
}

pub fn blank_table(t: &mut [u8], n: usize, s: usize, copy: usize) -> Result<(), Refusal> {
    fitting(t, n, s, copy)?;
    t.fill(0);
    t[..HEAD_LEN].copy_from_slice(&[n as u8, s as u8, copy as u8]);
    Ok(())
}

/// Writes a table of the layout without second keys over as one of this layout: the same records, each second key zero.
/// Refuses 1 and 11, the second for what was no sound table of the old layout; `t` then keeps its contents.
pub fn bring_over(
    t: &mut [u8],
    n: usize,
    s: usize,
    copy: usize,
    old: &[u8],
) -> Result<(), Refusal> {
    let setup = fitting(t, n, s, copy)?;
    if old.len() != old::table_len(n, s) {
        return Err(refusal::SETUP);
    }
    let records = || old::records(old).enumerate();
    let sound = |(place, record)| sound_records(&setup, place / s, &old::brought_over(record));
    if old[..HEAD_LEN] != [n as u8, s as u8, copy as u8] || !records().all(sound) {
        return Err(refusal::UNSOUND);
    }
    t[..HEAD_LEN].copy_from_slice(&old[..HEAD_LEN]);
    for (place, record) in records() {
        *part_mut(t, HEAD_LEN + RECORD_LEN * place) = old::brought_over(record);
    }
    Ok(())
}

pub fn judge_table(t: &[u8], n: usize, s: usize, copy: usize) -> Result<(), Refusal> {
    judged(t, n, s, copy).map(|_| ())
}

/// Offset and length of the record's bytes; both 0 where there is none.
pub fn record_part(
    t: &[u8],
    n: usize,
    s: usize,
    copy: usize,
    o: usize,
    j: usize,
) -> (usize, usize) {
    match fitting(t, n, s, copy) {
        Ok(setup) if setup.has_instance(o, j) => (record_at(&setup, o, j), RECORD_LEN),
        _ => (0, 0),
    }
}

fn sound(setup: &Setup, t: &[u8]) -> bool {
    let (head, rows) = t.split_at(HEAD_LEN);
    head == [setup.n as u8, setup.s as u8, setup.copy as u8]
        && rows
            .chunks_exact(RECORD_LEN * setup.s)
            .enumerate()
            .all(|(owner, row)| sound_records(setup, owner, row))
}

/// Records of one owner, a whole row of them or a single one. The only place that judges a record, so that all of it is
/// compiled into one loop.
#[inline(never)]
pub(crate) fn sound_records(setup: &Setup, owner: usize, records: &[u8]) -> bool {
    records.chunks_exact(RECORD_LEN).all(|r| sound_record(setup, owner, part(r, 0)))
}

#[inline]
fn sound_record(setup: &Setup, owner: usize, r: &[u8; RECORD_LEN]) -> bool {
    let joined = u32_at(r, 0);
    let own = Vote::read(vote_bytes(r));
    let (mark, phase) = (r[MARK_AT], r[PHASE_AT]);
    setup.is_ballot(joined)
        && setup.is_ballot(own.voted)
        && own.voted <= joined
        && own.status <= COMMITTED
        && own.command.in_range()
        && setup.are_deps(&own.deps)
        && (own.status != NONE || zero(vote_bytes(r)))
        && (mark == 0 || (mark == 1 && own.status == COMMITTED))
        && if phase == IDLE {
            zero::<{ RECORD_LEN - SET_AT }>(part(r, SET_AT))
        } else {
            sound_phase(setup, owner, r, joined, &own)
        }
}

/// What a phase other than idle asks, beyond the record's ranges.
fn sound_phase(setup: &Setup, owner: usize, r: &[u8; RECORD_LEN], joined: u32, own: &Vote) -> bool {
    let (phase, set) = (r[PHASE_AT], r[SET_AT]);
    let this_in_set = set >> setup.copy & 1 == 1;
    let leading =
        own.status < COMMITTED && lead(joined, owner) == setup.copy && set >> setup.n == 0;
    let fits = match phase {
        PREPARING => {
            joined >= 8
                && own.voted < joined
                && this_in_set
                && set.count_ones() <= setup.f()
                && reply_bytes(r, setup.copy) == vote_bytes(r)
        }
        PRE_ACCEPTING => {
            matches!(own.status, PRE_ACCEPTED_ADDED | PRE_ACCEPTED)
                && (joined != 0 || own.command.op != NO_OP)
                && own.voted == joined
                && !this_in_set
        }
        ACCEPTING => own.status == ACCEPTED && own.voted == joined && !this_in_set,
        _ => false,
    };
    leading
        && fits
        && (0..MAX_COPIES).all(|q| {
            let reply = reply_bytes(r, q);
            if set >> q & 1 == 0 {
                zero(reply)
            } else {
                sound_reply(setup, phase, joined, reply)
            }
        })
}

/// Would be valid as the phase's reply at the joined ballot.
fn sound_reply(setup: &Setup, phase: u8, joined: u32, reply: &[u8; VOTE_LEN]) -> bool {
    let vote = Vote::read(reply);
    match phase {
        PREPARING => {
            setup.is_ballot(vote.voted)
                && vote.voted < joined
                && vote.status <= ACCEPTED
                && vote.command.in_range()
                && setup.are_deps(&vote.deps)
                && (vote.status != NONE || zero(reply))
        }
        PRE_ACCEPTING => zero::<DEPS_AT>(part(reply, 0)) && setup.are_deps(&vote.deps),
        _ => zero(reply),
    }
}
