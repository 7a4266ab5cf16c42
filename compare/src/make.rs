//! Made-up tables and messages: sound ones that no run need reach, and damaged ones.

use crate::random::Random;
use crate::LONGEST;
use pumxaqert::Setup;
use second::broken::{body_of, has_command, has_deps};
use second::message::{is_long, kind_of, NACK, PREPARE_OK};
use second::rules::{lead, Command, REWIRE};
use second::table::{Record, Vote, HEAD_LEN, RECORD_LEN};
use second::{table_len, Message};

pub fn ballot(random: &mut Random, n: usize) -> u32 {
    match random.below(40) {
        0..20 => 0,
        39 => 4_294_967_288 + random.below(n) as u32,
        _ => (8 * random.between(1, 3) + random.below(n)) as u32,
    }
}

fn ballot_below(random: &mut Random, n: usize, below: u32) -> u32 {
    let b = ballot(random, n);
    if b < below {
        b
    } else {
        0
    }
}

fn deps(random: &mut Random, n: usize, s: usize) -> [u16; 7] {
    let mut deps = [0; 7];
    for entry in deps.iter_mut().take(n) {
        *entry = if random.chance(50) { 0 } else { random.between(0, s) as u16 };
    }
    deps
}

fn vote(random: &mut Random, n: usize, s: usize, voted: u32, status: u8) -> Vote {
    if status == 0 {
        return Vote::default();
    }
    let command = command(random);
    Vote { voted, status, command, deps: deps(random, n, s) }
}

/// Any command, of few keys.
fn command(random: &mut Random) -> Command {
    let op = random.below(4) as u8;
    if op == 0 {
        return Command::default();
    }
    let (key, edit) = (random.below(3) as u32, random.below(9) as u64);
    let second = if op == REWIRE { key + random.between(1, 2) as u32 } else { 0 };
    Command { op, key, second, edit }
}

/// Any sound record of this owner at this copy.
pub fn record(random: &mut Random, setup: Setup, owner: usize) -> Record {
    let Setup { n, s, copy } = setup;
    let mut r = Record { phase: random.below(4) as u8, ..Record::default() };
    if r.phase == 0 {
        r.joined = ballot(random, n);
        let status = random.below(5) as u8;
        let voted = ballot_below(random, n, r.joined.saturating_add(1));
        r.own = vote(random, n, s, voted, status);
        r.mark = (status == 4 && random.chance(50)) as u8;
        return r;
    }
    let at_0 = r.phase != 1 && owner == copy && random.chance(60);
    r.joined = if at_0 { 0 } else { (8 * random.between(1, 3) + copy) as u32 };
    let status = match r.phase {
        1 => random.below(4) as u8,
        2 => random.between(1, 2) as u8,
        _ => 3,
    };
    let voted = if r.phase == 1 { ballot_below(random, n, r.joined) } else { r.joined };
    r.own = vote(random, n, s, voted, status);
    if r.phase == 2 && r.joined == 0 && r.own.command.op == 0 {
        r.own.command.op = 1;
    }
    collect(random, setup, &mut r);
    r
}

/// Replies that the record's phase may hold.
fn collect(random: &mut Random, setup: Setup, r: &mut Record) {
    let Setup { n, s, copy } = setup;
    if r.phase == 1 {
        r.set = 1 << copy;
        r.replies[copy] = r.own;
    }
    for q in 0..n {
        let room = r.phase != 1 || (r.set.count_ones() as usize) < (n - 1) / 2;
        if q == copy || !room || random.chance(50) {
            continue;
        }
        r.set |= 1 << q;
        let status = random.below(4) as u8;
        let voted = ballot_below(random, n, r.joined);
        r.replies[q] = match r.phase {
            1 => vote(random, n, s, voted, status),
            2 if random.chance(50) => Vote { deps: r.own.deps, ..Vote::default() },
            2 => Vote { deps: deps(random, n, s), ..Vote::default() },
            _ => Vote::default(),
        };
    }
}

/// The first byte of a record, by its place among all.
pub fn place(setup: Setup, owner: usize, number: usize) -> usize {
    HEAD_LEN + RECORD_LEN * (owner * setup.s + number - 1)
}

pub fn put(t: &mut [u8], at: usize, record: &Record) {
    record.write(t[at..].first_chunk_mut().expect("a whole record"));
}

pub fn get(t: &[u8], at: usize) -> Record {
    Record::read(t[at..].first_chunk().expect("a whole record"))
}

pub fn blank(setup: Setup) -> Vec<u8> {
    let mut t = vec![0; table_len(setup.n, setup.s)];
    second::blank_table(&mut t, setup.n, setup.s, setup.copy).expect("a good setup");
    t
}

/// A sound table with about so many records in a hundred filled.
pub fn fill(random: &mut Random, setup: Setup, t: &mut [u8], percent: usize) {
    for o in 0..setup.n {
        for j in 1..=setup.s {
            if random.chance(percent) {
                put(t, place(setup, o, j), &record(random, setup, o));
            }
        }
    }
}

/// A message to this copy that fits its table more often than chance would have it; mostly valid.
pub fn message(random: &mut Random, setup: Setup, t: &[u8]) -> Message {
    let Setup { n, s, copy } = setup;
    let (o, j) = (random.below(n), random.between(1, s));
    let r = get(t, place(setup, o, j));
    let body = random.between(1, NACK as usize) as u8;
    let mut m = Message {
        kind: body,
        to: copy as u8,
        owner: o as u8,
        number: j as u16,
        ballot: if random.chance(70) { r.joined } else { ballot(random, n) },
        ..Message::default()
    };
    let from_lead = matches!(body, 1 | 3 | 6) && random.chance(80);
    m.from = if from_lead { lead(m.ballot, o) as u8 } else { random.below(n) as u8 };
    let (voted, status) = (ballot_below(random, n, m.ballot), random.below(4) as u8);
    let v = if random.chance(30) { r.own } else { vote(random, n, s, voted, status) };
    if has_command(body) {
        m = m.with(&v.command, &v.deps);
        // Now and then in a kind that does not carry it.
        let op = if random.chance(3) { random.below(4) as u8 } else { m.op };
        m.kind = kind_of(body, op);
    }
    match body {
        2 => m.deps = v.deps,
        7 => (m.voted, m.status) = (v.voted, v.status),
        8 => m.joined = ballot(random, n),
        _ => {}
    }
    m
}

/// Its bytes as they stand, valid or not.
pub fn bytes(m: &Message, out: &mut [u8; LONGEST]) -> usize {
    let mut all = Vec::with_capacity(LONGEST);
    all.extend([m.kind, m.from, m.to, m.owner]);
    all.extend(m.number.to_le_bytes());
    all.extend(m.ballot.to_le_bytes());
    if body_of(m.kind) == PREPARE_OK {
        all.extend(m.voted.to_le_bytes());
        all.push(m.status);
    }
    if has_command(m.kind) {
        all.push(m.op);
        all.extend(m.key.to_le_bytes());
        if is_long(m.kind) {
            all.extend(m.second.to_le_bytes());
        }
        all.extend(m.edit.to_le_bytes());
    }
    if has_deps(m.kind) {
        m.deps.iter().for_each(|entry| all.extend(entry.to_le_bytes()));
    }
    if m.kind == NACK {
        all.extend(m.joined.to_le_bytes());
    }
    out[..all.len()].copy_from_slice(&all);
    all.len()
}

/// Changes one to three bytes, or a bit of one.
pub fn damage(random: &mut Random, bytes: &mut [u8]) {
    if bytes.is_empty() {
        return;
    }
    for _ in 0..random.pick(&[1, 1, 1, 2, 3]) {
        let at = random.below(bytes.len());
        bytes[at] = match random.below(4) {
            0 => random.word() as u8,
            1 => bytes[at] ^ 1 << random.below(8),
            2 => bytes[at].wrapping_add(1),
            _ => random.pick(&[0, 1, 2, 3, 4, 7, 8, 64, 255]),
        };
    }
}
