//! Settled, and the order in which instances are handed out.
//!
//! What an instance covers is a prefix of each owner's row, so all that it
//! reaches is one high-water mark for each owner.

use crate::bytes::part;
use crate::refusal::{self, Refusal};
use crate::rules::{read_deps, Command};
use crate::setup::{Setup, MAX_COPIES, MAX_INSTANCES};
use crate::table::{
    judged, record_at, record_bytes, status_of, vote_bytes, COMMAND_AT, COMMITTED, DEPS_AT,
    MARK_AT, RECORD_LEN,
};

#[derive(Clone, Copy, Debug, PartialEq, Eq)]
pub enum Settled {
    Command { op: u8, key: u32, second: u32, edit: u64 },
    Waits { owner: usize, number: usize },
}

/// One high-water mark for each owner; the eighth place only fills a word.
type Marks = [u8; 8];

#[inline]
fn raise(marks: &mut Marks, by: &Marks) {
    for q in 0..marks.len() {
        marks[q] = marks[q].max(by[q]);
    }
}

/// A record's dependencies. In a sound table each entry is at most 64.
#[inline]
fn entries(record: &[u8; RECORD_LEN]) -> Marks {
    let deps = read_deps(part(vote_bytes(record), DEPS_AT));
    let mut marks = [0; 8];
    for q in 0..MAX_COPIES {
        marks[q] = deps[q] as u8;
    }
    marks
}

/// The search over a table that does not change meanwhile.
struct Search<'a> {
    setup: Setup,
    table: &'a [u8],
    /// At the place of o.j: the join of what o.1 to o.j depend on.
    up_to: [Marks; MAX_INSTANCES],
}

impl<'a> Search<'a> {
    fn new(setup: Setup, table: &'a [u8]) -> Search<'a> {
        let mut up_to = [[0; 8]; MAX_INSTANCES];
        for o in 0..setup.n {
            let mut marks = [0; 8];
            for j in 1..=setup.s {
                raise(&mut marks, &entries(record_bytes(table, &setup, o, j)));
                up_to[setup.index(o, j)] = marks;
            }
        }
        Search { setup, table, up_to }
    }

    /// All that o.j reaches. It may or may not hold o.j itself; no question
    /// asked of it turns on that.
    ///
    /// Each turn that is not the last moves a row's `done` up, so there are no
    /// more joins than instances.
    fn reached(&self, o: usize, j: usize) -> Marks {
        let mut marks = entries(record_bytes(self.table, &self.setup, o, j));
        let mut done = [0; MAX_COPIES];
        loop {
            let mut more = false;
            for q in 0..self.setup.n {
                if marks[q] > done[q] {
                    done[q] = marks[q];
                    raise(&mut marks, &self.up_to[self.setup.index(q, done[q] as usize)]);
                    more = true;
                }
            }
            if !more {
                return marks;
            }
        }
    }
}

pub fn settled(
    t: &[u8],
    n: usize,
    s: usize,
    copy: usize,
    o: usize,
    j: usize,
) -> Result<Settled, Refusal> {
    let setup = judged(t, n, s, copy)?;
    if !setup.has_instance(o, j) {
        return Err(refusal::INSTANCE);
    }
    let reached = Search::new(setup, t).reached(o, j);
    for number in 1..=s {
        for owner in 0..n {
            let asked = number <= reached[owner] as usize || (owner, number) == (o, j);
            if asked && status_of(record_bytes(t, &setup, owner, number)) != COMMITTED {
                return Ok(Settled::Waits { owner, number });
            }
        }
    }
    let Command { op, key, second, edit } =
        Command::read(part(vote_bytes(record_bytes(t, &setup, o, j)), COMMAND_AT));
    Ok(Settled::Command { op, key, second, edit })
}

pub fn hand_out(
    t: &mut [u8],
    n: usize,
    s: usize,
    copy: usize,
    list: &mut [u16],
) -> Result<usize, Refusal> {
    let setup = judged(t, n, s, copy)?;
    let mut waiting = Waiting::new(setup, t);
    let mut count = 0;
    while count < list.len() {
        let Some((o, j)) = waiting.take_lowest() else { break };
        t[record_at(&setup, o, j) + MARK_AT] = 1;
        list[count] = (256 * o + j) as u16;
        count += 1;
    }
    Ok(count)
}

/// A settled instance without a mark, and how far the search for one that it
/// has to wait for has come: all before row.number is marked or reaches back.
/// Marks are only added, so the search never turns round.
#[derive(Clone, Copy, Default)]
struct Unmarked {
    owner: u8,
    number: u8,
    at_row: u8,
    at_number: u8,
}

struct Waiting {
    setup: Setup,
    marked: [bool; MAX_INSTANCES],
    /// Known for the settled instances without a mark; all that such a one
    /// reaches is marked or another of them.
    reached: [Marks; MAX_INSTANCES],
    /// By number, then owner.
    unmarked: [Unmarked; MAX_INSTANCES],
    count: usize,
}

impl Waiting {
    fn new(setup: Setup, t: &[u8]) -> Waiting {
        let mut waiting = Waiting {
            setup,
            marked: [false; MAX_INSTANCES],
            reached: [[0; 8]; MAX_INSTANCES],
            unmarked: [Unmarked::default(); MAX_INSTANCES],
            count: 0,
        };
        // How far each row is committed without a gap.
        let mut committed = [0; MAX_COPIES];
        for o in 0..setup.n {
            let mut whole = true;
            for j in 1..=setup.s {
                let record = record_bytes(t, &setup, o, j);
                waiting.marked[setup.index(o, j)] = record[MARK_AT] == 1;
                whole &= status_of(record) == COMMITTED;
                if whole {
                    committed[o] = j as u8;
                }
            }
        }
        let search = Search::new(setup, t);
        for j in 1..=setup.s {
            for o in 0..setup.n {
                let at = setup.index(o, j);
                let chosen = status_of(record_bytes(t, &setup, o, j)) == COMMITTED;
                if !chosen || waiting.marked[at] {
                    continue;
                }
                let reached = search.reached(o, j);
                if (0..setup.n).all(|q| reached[q] <= committed[q]) {
                    waiting.reached[at] = reached;
                    waiting.unmarked[waiting.count] =
                        Unmarked { owner: o as u8, number: j as u8, at_row: 0, at_number: 1 };
                    waiting.count += 1;
                }
            }
        }
        waiting
    }

    /// The lowest that waits for nothing; it counts as marked from here on.
    fn take_lowest(&mut self) -> Option<(usize, usize)> {
        let place = (0..self.count).find(|&place| self.waits_for_nothing(place))?;
        let Unmarked { owner, number, .. } = self.unmarked[place];
        let (o, j) = (owner as usize, number as usize);
        self.marked[self.setup.index(o, j)] = true;
        self.unmarked.copy_within(place + 1..self.count, place);
        self.count -= 1;
        Some((o, j))
    }

    fn waits_for_nothing(&mut self, place: usize) -> bool {
        let x = &mut self.unmarked[place];
        let (o, j) = (x.owner as usize, x.number as usize);
        let reached = &self.reached[self.setup.index(o, j)];
        while (x.at_row as usize) < self.setup.n {
            let row = x.at_row as usize;
            if x.at_number > reached[row] {
                x.at_row += 1;
                x.at_number = 1;
                continue;
            }
            let at = self.setup.index(row, x.at_number as usize);
            // Standing in its own marks, the instance itself passes here too.
            let reaches_back = self.reached[at][o] as usize >= j;
            if !(self.marked[at] || reaches_back) {
                return false;
            }
            x.at_number += 1;
        }
        true
    }
}
