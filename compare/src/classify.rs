//! Which of the places one event reached, seen from its record before and after and from what was sent.

use crate::both::Call;
use crate::places::{Place, Places};
use second::broken::body_of;
use second::message::*;
use second::rules::{lead, NO_OP};
use second::table::*;
use second::{read_message, Message};

impl Places {
    /// `records` are before and after the event. Both sides have agreed on it.
    pub fn event(
        &mut self,
        n: usize,
        call: Call,
        owner: usize,
        records: [&Record; 2],
        sent: &[u8],
    ) {
        let [before, after] = records;
        let first = body_of(sent.first().copied().unwrap_or(0));
        let place = match call {
            Call::Request(..) if after.own.deps != [0; 7] => Place::RequestedOver,
            Call::Request(..) => Place::Requested,
            Call::Recover(..) if before.joined > 0 => Place::RecoveredAgain,
            Call::Recover(..) => Place::Recovered,
            Call::Nudge(..) => nudged(before, after, first),
            Call::Message(bytes) => received(n, owner, bytes, before, after, first),
            _ => return,
        };
        self.reach(place);
    }

    /// The event pre-accepted a read that passed over a read of its key.
    pub fn passed_over(&mut self, call: Call) {
        self.reach(match call {
            Call::Request(..) => Place::RequestPassed,
            Call::Message([PRE_ACCEPT, ..]) => Place::PreAcceptPassed,
            _ => Place::AfreshPassed,
        });
    }
}

fn nudged(before: &Record, after: &Record, first: u8) -> Place {
    match first {
        COMMIT => Place::NudgeCommit,
        PREPARE => Place::NudgePrepare,
        PRE_ACCEPT => Place::NudgePreAccept,
        _ if before.phase == PRE_ACCEPTING && after.phase == ACCEPTING => Place::NudgeAccepting,
        _ => Place::NudgeAccept,
    }
}

fn received(
    n: usize,
    owner: usize,
    bytes: &[u8],
    before: &Record,
    after: &Record,
    first: u8,
) -> Place {
    let Ok(m) = read_message(n, MOST, bytes[2] as usize, bytes) else {
        return Place::NothingFits;
    };
    match (m.body(), first) {
        (PRE_ACCEPT | ACCEPT | PREPARE, NACK) => Place::Nacked,
        (PRE_ACCEPT | ACCEPT | PREPARE, COMMIT) => Place::CommitBack,
        (PRE_ACCEPT, 0) => Place::PreAcceptAfterAccept,
        (PRE_ACCEPT, _) if before == after => Place::PreAcceptRepeated,
        (PRE_ACCEPT, _) if after.own.status == PRE_ACCEPTED_ADDED => Place::PreAcceptAdded,
        (PRE_ACCEPT, _) => Place::PreAcceptAsReceived,
        (ACCEPT, _) if before == after => Place::AcceptRepeated,
        (ACCEPT, _) => Place::AcceptTaken,
        (PREPARE, 0) => Place::PrepareVoted,
        (PREPARE, _) => Place::PrepareAnswered,
        (COMMIT, _) if before == after => Place::CommitRepeated,
        (COMMIT, _) if before.phase != IDLE => Place::CommitWhileLeading,
        (COMMIT, _) => Place::CommitTaken,
        (NACK, _) if before != after => Place::NackTaken,
        _ if before == after => Place::NothingFits,
        (PRE_ACCEPT_OK, _) => pre_accept_ok(n, before, after),
        (ACCEPT_OK, _) if after.own.status != COMMITTED => Place::AcceptWaits,
        (ACCEPT_OK, _) if after.own.command.op == NO_OP => Place::AcceptCommitsNoOp,
        (ACCEPT_OK, _) => Place::AcceptCommits,
        _ => prepare_ok(owner, &m, before, after),
    }
}

/// Any S will do to read a message that was taken.
const MOST: usize = 64;

fn pre_accept_ok(n: usize, before: &Record, after: &Record) -> Place {
    match (after.own.status, after.phase) {
        (COMMITTED, _) => Place::FastCommit,
        (_, PRE_ACCEPTING) => Place::PreAcceptWaits,
        _ if before.joined > 0 => Place::HigherAccepting,
        _ if before.set.count_ones() as usize + 2 == n && alike(before) => Place::SlowAll,
        _ => Place::SlowDiffering,
    }
}

/// All replies collected so far are equal.
fn alike(record: &Record) -> bool {
    let mut replies = (0..7).filter(|q| record.set >> q & 1 == 1).map(|q| record.replies[q].deps);
    let first = replies.next();
    replies.all(|deps| Some(deps) == first)
}

fn prepare_ok(owner: usize, m: &Message, before: &Record, after: &Record) -> Place {
    debug_assert_eq!(lead(m.ballot, owner), m.to as usize);
    let collected = (0..7).filter(|q| before.set >> q & 1 == 1).map(|q| &before.replies[q]);
    let votes = || collected.clone().map(|r| (r.status, r.voted)).chain([(m.status, m.voted)]);
    let highest = votes().filter(|v| v.0 > 0).map(|v| v.1).max();
    match (after.phase, highest) {
        (PREPARING, _) => Place::PrepareWaits,
        (_, None) => Place::DecideNoOp,
        (PRE_ACCEPTING, _) => Place::DecideAfresh,
        (_, Some(top)) if votes().any(|v| v == (ACCEPTED, top)) => Place::DecideAccepted,
        _ => Place::DecideMatching,
    }
}
