//! The layout that records had while no command had a second key.

use crate::bytes::part;
use crate::rules::{Command, DEPS_LEN, SHORT_LEN};
use crate::table::{COMMAND_AT, DEPS_AT, HEAD_LEN, RECORD_LEN, VOTE_LEN};

pub const OLD_RECORD_LEN: usize = 263;
pub const OLD_VOTE_LEN: usize = 32;

const VOTE_AT: usize = 4;
const OLD_MARK_AT: usize = VOTE_AT + OLD_VOTE_LEN;
const MARK_AT: usize = VOTE_AT + VOTE_LEN;
/// Mark, phase and set stand between the own vote and the replies.
const BETWEEN: usize = 3;

/// The length of a table of these sizes, which are good ones.
pub fn table_len(n: usize, s: usize) -> usize {
    HEAD_LEN + OLD_RECORD_LEN * n * s
}

/// The records of a table, row by row.
pub(crate) fn records(t: &[u8]) -> impl Iterator<Item = &[u8; OLD_RECORD_LEN]> {
    t[HEAD_LEN..].chunks_exact(OLD_RECORD_LEN).map(|record| part(record, 0))
}

/// The same record in today's layout.
///
/// An op that was out of range stays so: a rewire whose second key is zero is none. So whatever was not sound before is
/// not sound then, and nobody has to know the old rules.
pub(crate) fn brought_over(old: &[u8; OLD_RECORD_LEN]) -> [u8; RECORD_LEN] {
    let mut record = [0; RECORD_LEN];
    record[..VOTE_AT].copy_from_slice(&old[..VOTE_AT]);
    put_vote(&mut record[VOTE_AT..], &old[VOTE_AT..]);
    record[MARK_AT..MARK_AT + BETWEEN].copy_from_slice(&old[OLD_MARK_AT..OLD_MARK_AT + BETWEEN]);
    let replies = record[MARK_AT + BETWEEN..].chunks_exact_mut(VOTE_LEN);
    let old_replies = old[OLD_MARK_AT + BETWEEN..].chunks_exact(OLD_VOTE_LEN);
    replies.zip(old_replies).for_each(|(vote, old)| put_vote(vote, old));
    record
}

/// Voted ballot and status stand first in both, the dependencies last.
fn put_vote(vote: &mut [u8], old: &[u8]) {
    vote[..COMMAND_AT].copy_from_slice(&old[..COMMAND_AT]);
    let mut command = [0; DEPS_AT - COMMAND_AT];
    Command::read_short(part(old, COMMAND_AT)).write(&mut command);
    vote[COMMAND_AT..DEPS_AT].copy_from_slice(&command);
    let deps = &old[COMMAND_AT + SHORT_LEN..][..DEPS_LEN];
    vote[DEPS_AT..DEPS_AT + DEPS_LEN].copy_from_slice(deps);
}
