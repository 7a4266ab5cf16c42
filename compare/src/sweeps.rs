//! Hand-out by the library's method, in Rust: two sweeps over the table find most of what is reached, a row for each
//! instance is closed over it, then one place of the list at a time. The proved hand-out is measured against it.

use second::table::{COMMITTED, HEAD_LEN, RECORD_LEN};
use second::Refusal;

const MOST: usize = 7 * 64;
const STATUS_AT: usize = 8;
const DEPS_AT: usize = 26;
const MARK_AT: usize = 40;

/// How much of each owner's row is reached.
type Marks = [u16; 7];
type Rows = [Marks; MOST];

pub fn hand_out(
    t: &mut [u8],
    n: usize,
    s: usize,
    copy: usize,
    list: &mut [u16],
) -> Result<usize, Refusal> {
    second::judge_table(t, n, s, copy)?;
    let mut beginnings = [[0; 7]; MOST];
    sweep(t, n, s, &mut beginnings, false);
    sweep(t, n, s, &mut beginnings, true);
    let mut next = Next::new(t, n, s, &beginnings);
    let mut count = 0;
    while count < list.len() {
        let Some((o, j)) = next.next_out() else { break };
        next.state[slot(o, j)] = OUT;
        t[record(s, o, j) + MARK_AT] = 1;
        list[count] = (256 * o + j) as u16;
        count += 1;
    }
    Ok(count)
}

fn record(s: usize, o: usize, j: usize) -> usize {
    HEAD_LEN + RECORD_LEN * (o * s + j - 1)
}

fn slot(o: usize, j: usize) -> usize {
    64 * o + j - 1
}

fn deps(t: &[u8], s: usize, o: usize, j: usize) -> Marks {
    let at = record(s, o, j) + DEPS_AT;
    std::array::from_fn(|q| u16::from_le_bytes([t[at + 2 * q], t[at + 2 * q + 1]]))
}

fn join(a: Marks, b: Marks) -> Marks {
    std::array::from_fn(|q| a[q].max(b[q]))
}

/// The marks take in the rows of the beginnings that they name, owner by owner.
fn beyond(n: usize, beginnings: &Rows, marks: Marks) -> Marks {
    let mut row = marks;
    for q in 0..n {
        if row[q] > 0 {
            row = join(row, beginnings[slot(q, row[q] as usize)]);
        }
    }
    row
}

/// Until nothing changes.
fn close(n: usize, beginnings: &Rows, entries: Marks) -> Marks {
    let mut row = entries;
    loop {
        let more = beyond(n, beginnings, row);
        if more == row {
            return row;
        }
        row = more;
    }
}

/// Each beginning of an owner's row: what its instances reach, as far as one way over all instances finds it.
fn sweep(t: &[u8], n: usize, s: usize, beginnings: &mut Rows, back: bool) {
    for i in 0..s {
        let j = if back { s - i } else { i + 1 };
        for i in 0..n {
            let o = if back { n - 1 - i } else { i };
            raise(t, n, s, beginnings, o, j);
        }
    }
}

/// The beginning that ends at o.j takes in the one before, and what o.j reaches.
fn raise(t: &[u8], n: usize, s: usize, beginnings: &mut Rows, o: usize, j: usize) {
    let x = slot(o, j);
    let mut row = join(beginnings[x], beyond(n, beginnings, deps(t, s, o, j)));
    if j > 1 {
        row = join(row, beginnings[x - 1]);
    }
    beginnings[x] = row;
}

/// How far each row is committed without a gap.
fn leads(t: &[u8], n: usize, s: usize) -> Marks {
    let committed = |q, &j: &usize| t[record(s, q, j) + STATUS_AT] == COMMITTED;
    let mut leads = [0; 7];
    for (q, lead) in leads.iter_mut().enumerate().take(n) {
        *lead = (1..=s).take_while(|j| committed(q, j)).count() as u16;
    }
    leads
}

/// States; 0 is one that waits for a commit.
const SETTLED: u8 = 1;
const OUT: u8 = 2;
/// Settled, and known to be let out, or to be held back.
const READY: u8 = 3;
const HELD: u8 = 4;

struct Next {
    n: usize,
    s: usize,
    reached: Rows,
    state: [u8; MOST],
    /// Who holds an instance back.
    held: [u16; MOST],
    /// All below this number are through.
    low: usize,
    /// So many of each row were handed out without a gap.
    out: [usize; 7],
}

impl Next {
    fn new(t: &[u8], n: usize, s: usize, beginnings: &Rows) -> Next {
        let (reached, state) = ([[0; 7]; MOST], [0; MOST]);
        let mut next = Next { n, s, reached, state, held: [0; MOST], low: 1, out: [0; 7] };
        let leads = leads(t, n, s);
        for o in 0..n {
            for j in 1..=s {
                let (x, at) = (slot(o, j), record(s, o, j));
                let row = close(n, beginnings, deps(t, s, o, j));
                let settled = t[at + STATUS_AT] == COMMITTED && (0..n).all(|q| row[q] <= leads[q]);
                next.reached[x] = row;
                next.state[x] = if t[at + MARK_AT] == 1 { OUT } else { settled as u8 * SETTLED };
            }
        }
        next
    }

    /// The lowest that nothing holds back.
    fn next_out(&mut self) -> Option<(usize, usize)> {
        self.pass();
        for j in self.low..=self.s {
            for o in 0..self.n {
                if self.is_next(o, j) {
                    return Some((o, j));
                }
            }
        }
        None
    }

    fn pass(&mut self) {
        for q in 0..self.n {
            while self.out[q] < self.s && self.state[64 * q + self.out[q]] == OUT {
                self.out[q] += 1;
            }
        }
        let through = |j: usize| (0..self.n).all(|o| matches!(self.state[slot(o, j)], 0 | OUT));
        while self.low <= self.s && through(self.low) {
            self.low += 1;
        }
    }

    fn is_next(&mut self, p: usize, k: usize) -> bool {
        let x = slot(p, k);
        match self.state[x] {
            READY => return true,
            SETTLED => {}
            HELD if self.state[self.held[x] as usize] == OUT => {}
            _ => return false,
        }
        let from = if self.state[x] == HELD { self.held[x] as usize } else { 0 };
        if let Some(y) = self.holder(p, k, from) {
            self.held[x] = y as u16;
            self.state[x] = HELD;
            return false;
        }
        self.free(p, k);
        true
    }

    /// The first, from a place on, that is reached, was not handed out and does not reach back.
    fn holder(&self, p: usize, k: usize, from: usize) -> Option<usize> {
        for q in from / 64..self.n {
            let start = self.out[q].max(from.saturating_sub(64 * q));
            for i in start..self.reached[slot(p, k)][q] as usize {
                let y = 64 * q + i;
                if self.state[y] != OUT && self.reached[y][p] < k as u16 {
                    return Some(y);
                }
            }
        }
        None
    }

    /// Nothing holds p.k back: all it reaches that was not handed out reaches back, so that is ready as well.
    fn free(&mut self, p: usize, k: usize) {
        self.state[slot(p, k)] = READY;
        for q in 0..self.n {
            for i in self.out[q]..self.reached[slot(p, k)][q] as usize {
                if self.state[64 * q + i] != OUT {
                    self.state[64 * q + i] = READY;
                }
            }
        }
    }
}
