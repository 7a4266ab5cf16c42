//! Tables kept from before commands had a second key.
//!
//! Each vote was four bytes shorter then, and a record has eight votes, so that every call refuses such a table 1.
//! [`bring_over`] makes one of today's out of it. Their journals are not read here, and must not be given to
//! [`Setup::replay`]: it refuses them 43, but a last record with less than 32 bytes behind it is shorter than today's
//! entries, so that it is answered as a rest. Before going over, begin the journal anew with the library that wrote it. It
//! has only marks then, whose entries are the same.

use crate::{Instance, Refusal, Setup};

/// How many bytes the records of such a table have.
pub const RECORD_LEN: usize = 263;

const HEAD_LEN: usize = 3;
const OLD_VOTE_LEN: usize = 32;
const VOTE_LEN: usize = 36;
/// Own vote, then mark, phase and set, then the replies of seven copies.
const OWN_AT: usize = 4;
const BETWEEN: usize = 3;
const REPLIES: usize = 7;
const OLD_BETWEEN_AT: usize = OWN_AT + OLD_VOTE_LEN;
const BETWEEN_AT: usize = OWN_AT + VOTE_LEN;
const REPLIES_AT: usize = BETWEEN_AT + BETWEEN;
const NEW_RECORD_LEN: usize = REPLIES_AT + REPLIES * VOTE_LEN;

/// In a vote.
const OP_AT: usize = 5;
const SECOND_AT: usize = 10;
const SECOND_LEN: usize = VOTE_LEN - OLD_VOTE_LEN;

/// No-op, read and write were all there was.
const LAST_OP: u8 = 2;

/// An instance and its record: kind, owner, number in two bytes, record.
const ENTRY_KIND: u8 = 20;
const ENTRY_HEAD: usize = 4;
const ENTRY_LEN: usize = ENTRY_HEAD + NEW_RECORD_LEN;

/// The length that a table of these sizes had; none for sizes that no table has.
pub fn table_len(setup: Setup) -> Option<usize> {
    setup.table_len().map(|_| HEAD_LEN + RECORD_LEN * setup.n * setup.s)
}

/// Writes today's table over the lent one: the records of the old table, with second keys of zero. How many records are
/// not blank.
///
/// The library's own replay puts each record into a blank table, and so judges it. Refused are a setup, length or head that
/// do not fit (1; the lent table stays as it was), and what was no sound table before (11; the lent table is a blank one
/// then, since nothing else can be lent to judge in).
///
/// # Panics
///
/// If in the end a record is not in its place, byte for byte. The proved library does not lose one: another was linked, or
/// one of a later layout, and all that a caller can do about that is to keep the old table.
///
/// ```
/// use pumxaqert::{earlier, Setup};
///
/// let setup = Setup { n: 3, s: 4, copy: 1 };
/// // What a file held: here, no record but blank ones.
/// let mut old = vec![0; earlier::table_len(setup).unwrap()];
/// old[..3].copy_from_slice(&[3, 4, 1]);
///
/// let mut table = vec![0; setup.table_len().unwrap()];
/// assert_eq!(earlier::bring_over(setup, &mut table, &old), Ok(0));
/// assert_eq!(setup.judge(&table), Ok(()));
/// ```
pub fn bring_over(setup: Setup, table: &mut [u8], old: &[u8]) -> Result<usize, Refusal> {
    let head = [setup.n, setup.s, setup.copy];
    if table_len(setup) != Some(old.len()) || old[..HEAD_LEN].iter().map(|&b| b as usize).ne(head) {
        return Err(Refusal::Setup);
    }
    setup.blank(table)?;
    match put_all(setup, table, old) {
        Ok(count) => {
            nothing_lost(table, old);
            Ok(count)
        }
        Err(refusal) => {
            setup.blank(table)?;
            Err(refusal)
        }
    }
}

/// The old records with their instances: owner by owner, number by number.
fn records(setup: Setup, old: &[u8]) -> impl Iterator<Item = (Instance, &[u8])> {
    let instance = move |i| Instance { owner: i / setup.s, number: i % setup.s + 1 };
    let records = old[HEAD_LEN..].chunks_exact(RECORD_LEN).enumerate();
    records.map(move |(i, record)| (instance(i), record))
}

/// One entry at a time, so that room for one is enough. Blank records are there already.
fn put_all(setup: Setup, table: &mut [u8], old: &[u8]) -> Result<usize, Refusal> {
    let mut count = 0;
    for (at, record) in records(setup, old).filter(|(_, r)| r.iter().any(|&byte| byte != 0)) {
        // A rewire without its second key is not sound anyway; an op that some later library knows might be.
        if votes(record).any(|vote| vote[OP_AT] > LAST_OP) {
            return Err(Refusal::Unsound);
        }
        match setup.replay(table, &entry(at, record)) {
            Ok(_) => count += 1,
            Err(Refusal::EntryUnsound { .. }) => return Err(Refusal::Unsound),
            Err(other) => return Err(other),
        }
    }
    Ok(count)
}

/// The votes of an old record: its own, and those of its replies.
fn votes(record: &[u8]) -> impl Iterator<Item = &[u8]> {
    let own = &record[OWN_AT..OLD_BETWEEN_AT];
    core::iter::once(own).chain(record[OLD_BETWEEN_AT + BETWEEN..].chunks_exact(OLD_VOTE_LEN))
}

/// The journal entry of an old record, in today's length.
fn entry(at: Instance, old: &[u8]) -> [u8; ENTRY_LEN] {
    let mut entry = [0; ENTRY_LEN];
    let [low, high] = (at.number as u16).to_le_bytes();
    entry[..ENTRY_HEAD].copy_from_slice(&[ENTRY_KIND, at.owner as u8, low, high]);
    let record = &mut entry[ENTRY_HEAD..];
    record[..OWN_AT].copy_from_slice(&old[..OWN_AT]);
    record[BETWEEN_AT..REPLIES_AT].copy_from_slice(&old[OLD_BETWEEN_AT..][..BETWEEN]);
    let places = core::iter::once(OWN_AT).chain((REPLIES_AT..).step_by(VOTE_LEN));
    for (place, vote) in places.zip(votes(old)) {
        let (before, behind) = vote.split_at(SECOND_AT);
        record[place..][..SECOND_AT].copy_from_slice(before);
        record[place + SECOND_AT + SECOND_LEN..][..behind.len()].copy_from_slice(behind);
    }
    entry
}

/// Goes the other way round, over all bytes and by no instance: whatever went wrong on the way there, in the library or
/// here, shows.
fn nothing_lost(table: &[u8], old: &[u8]) {
    let (head, records) = table.split_at(HEAD_LEN);
    let kept = records.iter().enumerate().filter(|(i, _)| !is_second(i % NEW_RECORD_LEN));
    let all = head.iter().chain(kept.map(|(_, byte)| byte));
    assert!(all.eq(old), "a record was lost on its way into the new table: keep the old one");
}

/// Whether this byte of today's record is one of a second key.
fn is_second(at: usize) -> bool {
    let in_vote = if at < BETWEEN_AT {
        at.checked_sub(OWN_AT)
    } else {
        at.checked_sub(REPLIES_AT).map(|at| at % VOTE_LEN)
    };
    in_vote.is_some_and(|at| (SECOND_AT..SECOND_AT + SECOND_LEN).contains(&at))
}
