//! The step for each event. An event reads its one record, changes it, and
//! writes it back; every refusal comes before the first byte is written.

use crate::bytes::part_mut;
use crate::message::{
    encode, kind_of, read, Message, ACCEPT, ACCEPT_OK, COMMIT, NACK, PREPARE, PREPARE_OK,
    PRE_ACCEPT, PRE_ACCEPT_OK, ROOM,
};
use crate::refusal::{self, Refusal};
use crate::rules::{interfere, join, Command, Deps, Interference, NO_OP};
use crate::setup::{Setup, MAX_COPIES};
use crate::table::{
    is_blank, judged, record_at, record_bytes, Record, Vote, ACCEPTED, ACCEPTING, COMMITTED, IDLE,
    NONE, PREPARING, PRE_ACCEPTED, PRE_ACCEPTED_ADDED, PRE_ACCEPTING,
};

/// From this joined ballot on no round is left.
const LAST_ROUND: u32 = 4_294_967_288;

#[derive(Clone, Copy, Debug, PartialEq, Eq)]
pub struct Event {
    pub owner: usize,
    pub number: usize,
    pub written: usize,
}

/// A read, a write or a rewire requested at this copy.
#[allow(clippy::too_many_arguments)]
pub fn request(
    t: &mut [u8],
    n: usize,
    s: usize,
    copy: usize,
    out: &mut [u8],
    op: u8,
    key: u32,
    second: u32,
    edit: u64,
) -> Result<Event, Refusal> {
    request_by(interfere, t, n, s, copy, out, op, key, second, edit)
}

/// The same at a copy that goes by this interference.
#[allow(clippy::too_many_arguments)]
pub fn request_by(
    by: impl Interference,
    t: &mut [u8],
    n: usize,
    s: usize,
    copy: usize,
    out: &mut [u8],
    op: u8,
    key: u32,
    second: u32,
    edit: u64,
) -> Result<Event, Refusal> {
    let setup = entry(t, n, s, copy, out)?;
    let command = Command { op, key, second, edit };
    if op == NO_OP || !command.in_range() {
        return Err(refusal::OP);
    }
    let number =
        (1..=s).find(|&j| is_blank(record_bytes(t, &setup, copy, j))).ok_or(refusal::NO_BLANK)?;
    let mut step = Step::open(setup, t, out, copy, number);
    step.pre_accept_afresh(&command, by);
    Ok(step.close())
}

/// A message received by this copy.
pub fn message(
    t: &mut [u8],
    n: usize,
    s: usize,
    copy: usize,
    out: &mut [u8],
    bytes: &[u8],
) -> Result<Event, Refusal> {
    message_by(interfere, t, n, s, copy, out, bytes)
}

/// The same at a copy that goes by this interference.
pub fn message_by(
    by: impl Interference,
    t: &mut [u8],
    n: usize,
    s: usize,
    copy: usize,
    out: &mut [u8],
    bytes: &[u8],
) -> Result<Event, Refusal> {
    let setup = entry(t, n, s, copy, out)?;
    let m = read(&setup, bytes)?;
    let mut step = Step::open(setup, t, out, m.owner as usize, m.number as usize);
    match m.body() {
        PRE_ACCEPT => step.pre_accept(&m, by),
        PRE_ACCEPT_OK => step.pre_accept_ok(&m),
        ACCEPT => step.accept(&m),
        ACCEPT_OK => step.accept_ok(&m),
        COMMIT => step.commit(&m)?,
        PREPARE => step.prepare(&m),
        PREPARE_OK => step.prepare_ok(&m, by),
        _ => step.nack(&m),
    }
    Ok(step.close())
}

/// The host asks this copy to take over the instance.
pub fn recover(
    t: &mut [u8],
    n: usize,
    s: usize,
    copy: usize,
    out: &mut [u8],
    o: usize,
    j: usize,
) -> Result<Event, Refusal> {
    let setup = entry(t, n, s, copy, out)?;
    if !setup.has_instance(o, j) {
        return Err(refusal::INSTANCE);
    }
    let mut step = Step::open(setup, t, out, o, j);
    if step.committed() {
        return Err(refusal::RECOVER_COMMITTED);
    }
    if step.record.joined >= LAST_ROUND {
        return Err(refusal::BALLOTS_USED_UP);
    }
    step.recover();
    Ok(step.close())
}

/// The host asks for the instance's messages again.
pub fn nudge(
    t: &mut [u8],
    n: usize,
    s: usize,
    copy: usize,
    out: &mut [u8],
    o: usize,
    j: usize,
) -> Result<Event, Refusal> {
    let setup = entry(t, n, s, copy, out)?;
    if !setup.has_instance(o, j) {
        return Err(refusal::INSTANCE);
    }
    let mut step = Step::open(setup, t, out, o, j);
    if !step.committed() && step.record.phase == IDLE {
        return Err(refusal::NUDGE_IDLE);
    }
    step.nudge();
    Ok(step.close())
}

/// Refusals 1, 11 and 2, which every event asks first.
fn entry(t: &[u8], n: usize, s: usize, copy: usize, out: &[u8]) -> Result<Setup, Refusal> {
    let setup = judged(t, n, s, copy)?;
    if out.len() < ROOM {
        return Err(refusal::ROOM);
    }
    Ok(setup)
}

/// How a recovery goes on.
enum Decision {
    Accept(Vote),
    PreAcceptAfresh(Command),
}

/// One event at one instance. Dropped without `close`, it leaves the table be.
struct Step<'a> {
    setup: Setup,
    table: &'a mut [u8],
    out: &'a mut [u8],
    written: usize,
    owner: usize,
    number: usize,
    record: Record,
}

impl<'a> Step<'a> {
    fn open(
        setup: Setup,
        table: &'a mut [u8],
        out: &'a mut [u8],
        owner: usize,
        number: usize,
    ) -> Step<'a> {
        let record = Record::read(record_bytes(table, &setup, owner, number));
        Step { setup, table, out, written: 0, owner, number, record }
    }

    fn close(self) -> Event {
        let at = record_at(&self.setup, self.owner, self.number);
        self.record.write(part_mut(self.table, at));
        Event { owner: self.owner, number: self.number, written: self.written }
    }

    // What messages do.

    fn pre_accept(&mut self, m: &Message, by: impl Interference) {
        if self.turned_away(m) {
            return;
        }
        let own = &self.record.own;
        if own.voted == m.ballot && own.status != NONE {
            // The answer given at this ballot stands; nothing is worked out anew.
            if own.status != ACCEPTED {
                self.answer_pre_accept(m);
            }
            return;
        }
        let command = m.command();
        let deps = join(&m.deps, &self.seen(&command, by));
        let status = if deps == m.deps { PRE_ACCEPTED } else { PRE_ACCEPTED_ADDED };
        self.join_ballot(m.ballot);
        self.record.own = Vote { voted: m.ballot, status, command, deps };
        self.answer_pre_accept(m);
    }

    fn answer_pre_accept(&mut self, m: &Message) {
        let deps = self.record.own.deps;
        self.answer(m, Message { kind: PRE_ACCEPT_OK, deps, ..Message::default() });
    }

    fn pre_accept_ok(&mut self, m: &Message) {
        if !self.awaits(PRE_ACCEPTING, m) {
            return;
        }
        self.collect(m.from, Vote { deps: m.deps, ..Vote::default() });
        let f = self.setup.f();
        let replies = self.replied();
        if m.ballot != 0 {
            if replies >= f {
                self.accept_joined();
            }
        } else if self.equal_to_sent() >= 2 * f - 1 {
            self.commit_and_tell();
        } else if (replies >= f && self.two_differ()) || replies >= 2 * f {
            self.accept_joined();
        }
    }

    fn accept(&mut self, m: &Message) {
        if self.turned_away(m) {
            return;
        }
        self.join_ballot(m.ballot);
        self.record.own =
            Vote { voted: m.ballot, status: ACCEPTED, command: m.command(), deps: m.deps };
        self.answer(m, Message { kind: ACCEPT_OK, ..Message::default() });
    }

    fn accept_ok(&mut self, m: &Message) {
        if !self.awaits(ACCEPTING, m) {
            return;
        }
        self.collect(m.from, Vote::default());
        if self.replied() >= self.setup.f() {
            self.commit_and_tell();
        }
    }

    fn commit(&mut self, m: &Message) -> Result<(), Refusal> {
        let own = &mut self.record.own;
        if own.status == COMMITTED {
            let equal = own.command == m.command() && own.deps == m.deps;
            return if equal { Ok(()) } else { Err(refusal::OTHER_COMMIT) };
        }
        own.command = m.command();
        own.deps = m.deps;
        self.become_committed();
        Ok(())
    }

    fn prepare(&mut self, m: &Message) {
        if self.turned_away(m) || self.record.own.voted == m.ballot {
            return;
        }
        self.join_ballot(m.ballot);
        let own = self.record.own;
        let reply = Message {
            kind: kind_of(PREPARE_OK, own.command.op),
            voted: own.voted,
            status: own.status,
            ..Message::default()
        };
        self.answer(m, reply.with(&own.command, &own.deps));
    }

    fn prepare_ok(&mut self, m: &Message, by: impl Interference) {
        if !self.awaits(PREPARING, m) {
            return;
        }
        let reply = Vote { voted: m.voted, status: m.status, command: m.command(), deps: m.deps };
        self.collect(m.from, reply);
        if self.replied() > self.setup.f() {
            self.decide(by);
        }
    }

    fn nack(&mut self, m: &Message) {
        if !self.committed() && self.record.joined == m.ballot {
            self.join_ballot(m.joined);
        }
    }

    // What the host asks for.

    fn recover(&mut self) {
        let round = self.record.joined / 8 + 1;
        self.join_ballot(8 * round + self.setup.copy as u32);
        self.record.phase = PREPARING;
        self.collect(self.setup.copy as u8, self.record.own);
        self.tell_others(PREPARE, 0);
    }

    fn nudge(&mut self) {
        if self.committed() {
            return self.tell_others(COMMIT, 0);
        }
        let set = self.record.set;
        match self.record.phase {
            PREPARING => self.tell_others(PREPARE, set),
            PRE_ACCEPTING if self.record.joined == 0 && self.replied() >= self.setup.f() => {
                self.accept_joined()
            }
            PRE_ACCEPTING => self.tell_others(PRE_ACCEPT, set),
            _ => self.tell_others(ACCEPT, set),
        }
    }

    // What several of them share.

    fn committed(&self) -> bool {
        self.record.own.status == COMMITTED
    }

    fn seen(&self, command: &Command, by: impl Interference) -> Deps {
        by.seen(&self.setup, self.table, command, self.owner, self.number)
    }

    /// A committed record answers Commit, one that joined a higher ballot Nack.
    fn turned_away(&mut self, m: &Message) -> bool {
        if self.committed() {
            let back = Message { to: m.from, ..self.own_message(COMMIT) };
            self.send(&back);
            true
        } else if m.ballot < self.record.joined {
            let joined = self.record.joined;
            self.answer(m, Message { kind: NACK, joined, ..Message::default() });
            true
        } else {
            false
        }
    }

    /// The copy that leads the joined ballot gets no message from its lead, so
    /// with the ballot unchanged there is no phase here to lose.
    fn join_ballot(&mut self, ballot: u32) {
        self.record.joined = ballot;
        self.clear();
    }

    fn clear(&mut self) {
        self.record.phase = IDLE;
        self.forget_replies();
    }

    fn forget_replies(&mut self) {
        self.record.set = 0;
        self.record.replies = [Vote::default(); MAX_COPIES];
    }

    fn awaits(&self, phase: u8, m: &Message) -> bool {
        let r = &self.record;
        r.phase == phase && r.joined == m.ballot && r.set >> m.from & 1 == 0
    }

    fn collect(&mut self, from: u8, reply: Vote) {
        self.record.set |= 1 << from;
        self.record.replies[from as usize] = reply;
    }

    fn replied(&self) -> u32 {
        self.record.set.count_ones()
    }

    /// The collected replies by rising copy.
    fn collected(&self) -> impl Iterator<Item = &Vote> + Clone {
        let set = self.record.set;
        self.record
            .replies
            .iter()
            .enumerate()
            .filter(move |(q, _)| set >> q & 1 == 1)
            .map(|(_, r)| r)
    }

    fn equal_to_sent(&self) -> u32 {
        let sent = self.record.own.deps;
        self.collected().filter(|r| r.deps == sent).count() as u32
    }

    /// Two replies differ exactly when one differs from the first.
    fn two_differ(&self) -> bool {
        let mut replies = self.collected();
        match replies.next() {
            Some(first) => replies.any(|r| r.deps != first.deps),
            None => false,
        }
    }

    fn pre_accept_afresh(&mut self, command: &Command, by: impl Interference) {
        self.record.own = Vote {
            voted: self.record.joined,
            status: PRE_ACCEPTED,
            command: *command,
            deps: self.seen(command, by),
        };
        self.record.phase = PRE_ACCEPTING;
        self.forget_replies();
        self.tell_others(PRE_ACCEPT, 0);
    }

    fn accept_joined(&mut self) {
        let own = self.record.own;
        let deps = self.collected().fold(own.deps, |all, r| join(&all, &r.deps));
        self.start_accepting(own.command, deps);
    }

    fn start_accepting(&mut self, command: Command, deps: Deps) {
        self.record.own = Vote { voted: self.record.joined, status: ACCEPTED, command, deps };
        self.record.phase = ACCEPTING;
        self.forget_replies();
        self.tell_others(ACCEPT, 0);
    }

    fn become_committed(&mut self) {
        self.record.own.status = COMMITTED;
        self.clear();
    }

    fn commit_and_tell(&mut self) {
        self.become_committed();
        self.tell_others(COMMIT, 0);
    }

    fn decide(&mut self, by: impl Interference) {
        match self.decision() {
            Decision::Accept(vote) => self.start_accepting(vote.command, vote.deps),
            Decision::PreAcceptAfresh(command) => self.pre_accept_afresh(&command, by),
        }
    }

    /// What the collected PrepareOK say may have been chosen before. The lowest
    /// copy's reply comes first everywhere.
    fn decision(&self) -> Decision {
        let votes = self.collected().filter(|r| r.status != NONE);
        let Some(highest) = votes.clone().map(|r| r.voted).max() else {
            return Decision::PreAcceptAfresh(Command::default());
        };
        let mut at_highest = votes.filter(|r| r.voted == highest);
        if let Some(vote) = at_highest.clone().find(|r| r.status == ACCEPTED) {
            return Decision::Accept(*vote);
        }
        // With its owner among the replies the fast commit has not happened.
        let owner_replied = self.record.set >> self.owner & 1 == 1;
        let mut unchanged = at_highest.clone().filter(|r| r.status == PRE_ACCEPTED);
        if highest == 0 && !owner_replied && unchanged.clone().count() as u32 >= self.setup.f() {
            if let Some(vote) = unchanged.next() {
                return Decision::Accept(*vote);
            }
        }
        Decision::PreAcceptAfresh(at_highest.next().map(|r| r.command).unwrap_or_default())
    }

    // What goes out.

    /// From this copy about this instance, at the joined ballot, with what is
    /// stored if the body carries it.
    fn own_message(&self, body: u8) -> Message {
        let bare = Message {
            kind: kind_of(body, self.record.own.command.op),
            from: self.setup.copy as u8,
            owner: self.owner as u8,
            number: self.number as u16,
            ballot: self.record.joined,
            ..Message::default()
        };
        bare.with(&self.record.own.command, &self.record.own.deps)
    }

    /// Sends the body back to where `m` came from, at the ballot of `m`.
    fn answer(&mut self, m: &Message, body: Message) {
        self.send(&Message {
            from: m.to,
            to: m.from,
            owner: m.owner,
            number: m.number,
            ballot: m.ballot,
            ..body
        });
    }

    /// To all others outside the set, by rising destination.
    fn tell_others(&mut self, body: u8, set: u8) {
        let mut m = self.own_message(body);
        for q in 0..self.setup.n {
            if q != self.setup.copy && set >> q & 1 == 0 {
                m.to = q as u8;
                self.send(&m);
            }
        }
    }

    fn send(&mut self, m: &Message) {
        self.written += encode(m, &mut self.out[self.written..]);
    }
}
