//! One event of each kind, on a table that has room for it.

use crate::both::Call;
use crate::make;
use crate::shapes;
use pumxaqert::Setup;
use second::message::*;
use second::rules::{Command, Deps};
use second::table::*;
use second::Message;

/// An event, the record that it meets, and the table around it.
pub struct Case {
    pub name: &'static str,
    pub setup: Setup,
    pub table: Vec<u8>,
    /// Where the record stands that the event changes.
    pub at: usize,
    pub record: [u8; RECORD_LEN],
    pub event: Event,
}

pub enum Event {
    Request(Command),
    Message(Vec<u8>),
    Recover(usize, usize),
    Nudge(usize, usize),
}

impl Event {
    pub fn call(&self) -> Call<'_> {
        match self {
            Event::Request(Command { op, key, second, edit }) => {
                Call::Request(*op as usize, *key, *second, *edit)
            }
            Event::Message(bytes) => Call::Message(bytes),
            Event::Recover(o, j) => Call::Recover(*o, *j),
            Event::Nudge(o, j) => Call::Nudge(*o, *j),
        }
    }
}

/// Interferes with nothing in the tables, so that Seen looks at every record.
const COMMAND: Command = Command { op: 2, key: 7, second: 0, edit: 100 };
const REWIRE: Command = Command { op: 3, key: 7, second: 8, edit: 100 };
const DEPS: Deps = [0; 7];

fn voted(status: u8) -> Vote {
    Vote { voted: 0, status, command: COMMAND, deps: DEPS }
}

fn first(count: usize) -> u8 {
    // Copies 1 to count.
    ((1u32 << (count + 1)) - 2) as u8
}

pub fn message(kind: u8, from: u8, owner: usize, number: usize, ballot: u32) -> Message {
    let (owner, number) = (owner as u8, number as u16);
    let bare = Message { kind, from, to: 0, owner, number, ballot, ..Message::default() };
    let command = if is_long(kind) { REWIRE } else { COMMAND };
    match bare.body() {
        PRE_ACCEPT | ACCEPT | COMMIT => bare.with(&command, &DEPS),
        PREPARE_OK => Message { status: PRE_ACCEPTED_ADDED, ..bare }.with(&command, &DEPS),
        NACK => Message { joined: 8 * (ballot / 8) + 9, ..bare },
        _ => bare,
    }
}

/// Each event at copy 0, about the last own instance where copy 0 leads at ballot 0, else about copy 1's last.
pub fn events(setup: Setup, full: bool) -> Vec<Case> {
    let Setup { n, s, .. } = setup;
    let f = (n - 1) / 2;
    let blank = Record::default();
    let held = Record { own: voted(PRE_ACCEPTED), ..blank };
    let leading = Record { phase: PRE_ACCEPTING, ..held };
    let almost = Record { set: first(2 * f - 2), ..leading };
    let accepting = Record { own: voted(ACCEPTED), phase: ACCEPTING, set: first(f - 1), ..blank };
    let own = voted(PRE_ACCEPTED_ADDED);
    let mut preparing = Record { joined: 8, own, phase: PREPARING, set: 1 | first(f - 1), ..blank };
    preparing.replies[..f].fill(own);
    let last = (n - 1) as u8;
    let sent = |m: Message| Event::Message(written(setup, &m));
    let mine = |name, record: Record, event| case(name, setup, full, 0, &record, event);
    let other = |name, record: Record, event| case(name, setup, full, 1, &record, event);
    vec![
        mine("request", blank, Event::Request(COMMAND)),
        other("PreAccept", blank, sent(message(PRE_ACCEPT, 1, 1, s, 0))),
        mine("PreAcceptOK: fast commit", almost, sent(message(PRE_ACCEPT_OK, last, 0, s, 0))),
        other("Accept", held, sent(message(ACCEPT, 1, 1, s, 0))),
        mine("AcceptOK: commit", accepting, sent(message(ACCEPT_OK, last, 0, s, 0))),
        other("Commit", held, sent(message(COMMIT, 1, 1, s, 0))),
        other("Prepare", held, sent(message(PREPARE, 2, 1, s, 10))),
        other("PrepareOK: decides", preparing, sent(message(PREPARE_OK, last, 1, s, 8))),
        mine("Nack", leading, sent(message(NACK, last, 0, s, 0))),
        other("recover", held, Event::Recover(1, s)),
        mine("nudge: PreAccept", leading, Event::Nudge(0, s)),
        mine("request of a rewire", blank, Event::Request(REWIRE)),
        other("PreAccept of a rewire", blank, sent(message(LONG_PRE_ACCEPT, 1, 1, s, 0))),
    ]
}

fn written(setup: Setup, m: &Message) -> Vec<u8> {
    let mut out = [0; ROOM];
    let length = second::write_message(setup.n, setup.s, 0, &mut out, m).expect("a valid message");
    out[..length].to_vec()
}

fn case(
    name: &'static str,
    setup: Setup,
    full: bool,
    owner: usize,
    record: &Record,
    event: Event,
) -> Case {
    let mut table = if full { shapes::full(setup) } else { make::blank(setup) };
    let at = make::place(setup, owner, setup.s);
    let mut bytes = [0; RECORD_LEN];
    record.write(&mut bytes);
    table[at..at + RECORD_LEN].copy_from_slice(&bytes);
    Case { name, setup, table, at, record: bytes, event }
}

/// A full table whose records are all in a phase with as many replies as they may hold.
pub fn busy(setup: Setup) -> Vec<u8> {
    let mut t = make::blank(setup);
    let own = Vote { voted: 8, ..voted(PRE_ACCEPTED) };
    let record = Record {
        joined: 8,
        own,
        phase: PRE_ACCEPTING,
        set: first(setup.n - 1),
        ..Record::default()
    };
    for o in 0..setup.n {
        for j in 1..=setup.s {
            make::put(&mut t, make::place(setup, o, j), &record);
        }
    }
    t
}

#[cfg(test)]
mod tests {
    use super::*;
    use crate::both::{Answer, Both, Pair};

    /// Each case does what its name says: a request or a changed record, and messages where there are some.
    #[test]
    fn events_happen() {
        for n in [3, 5, 7] {
            for (s, full) in [(1, false), (8, true)] {
                let setup = Setup { n, s, copy: 0 };
                let kinds: Vec<u8> = events(setup, full).iter().map(sent).collect();
                let wanted = [
                    PRE_ACCEPT,
                    PRE_ACCEPT_OK,
                    COMMIT,
                    ACCEPT_OK,
                    COMMIT,
                    0,
                    PREPARE_OK,
                    PRE_ACCEPT,
                    0,
                    PREPARE,
                    PRE_ACCEPT,
                    LONG_PRE_ACCEPT,
                    PRE_ACCEPT_OK,
                ];
                assert_eq!(kinds, wanted, "N = {n}, S = {s}");
            }
        }
    }

    fn sent(case: &Case) -> u8 {
        let mut both = Both::default();
        let mut tables = Pair::of(&case.table);
        let answer = both.call(case.setup, ROOM, case.event.call(), &mut tables).unwrap();
        let Answer::Event(_, _, written) = answer else { panic!("{}: {answer:?}", case.name) };
        let only_sends = case.name.starts_with("nudge");
        assert_eq!(tables.ours == case.table, only_sends, "{}", case.name);
        if written == 0 {
            0
        } else {
            both.ours.out[0]
        }
    }

    #[test]
    fn busy_is_sound() {
        let setup = Setup { n: 7, s: 4, copy: 0 };
        assert_eq!(second::judge_table(&busy(setup), 7, 4, 0), Ok(()));
    }
}
