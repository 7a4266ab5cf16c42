//! Prints test calls at the edges of every rule, each followed by the answer
//! that this library gives, for the proved program `replay` to play.
//!
//! `edges` prints the edge cases, and their count at stderr. `edges FILE`
//! turns the messages of a recorded run into calls of the reader.

use second::broken::{self, body_of, has_command, has_deps, no_op, nothing, ones, takes, valid};
use second::fields::{self, Fields};
use second::message::{is_long, LAST_KIND, PREPARE, PREPARE_OK};
use second::rules::Command;
use second::table::{Record, Vote, RECORD_LEN};
use second::{blank_table, judge_table, read_message, record_part, write_message, Message};
use std::collections::HashSet;
use std::fmt::Write;
use std::process::ExitCode;

const LAST_BALLOTS: u32 = u32::MAX - 7;
/// Lent room before a call, to see what the call leaves alone.
const UNTOUCHED: u8 = 0xee;
/// Stands for an owner where bytes go into the table itself.
const TABLE: usize = 9;

/// The text so far, under one setup at a time; no call stands twice under it.
#[derive(Default)]
struct Script {
    text: String,
    calls: usize,
    n: usize,
    s: usize,
    said: HashSet<String>,
}

impl Script {
    fn run(&mut self, n: usize, s: usize) {
        (self.n, self.s) = (n, s);
        self.said.clear();
        writeln!(self.text, "run {n} {s}").unwrap();
    }

    fn call(&mut self, line: String, answer: impl FnOnce() -> String) {
        if self.said.insert(line.clone()) {
            self.calls += 1;
            writeln!(self.text, "{line}\n= {}", answer()).unwrap();
        }
    }

    fn read(&mut self, c: usize, bytes: &[u8]) {
        let (n, s) = (self.n, self.s);
        self.call(format!("{c} read {}", to_hex(bytes)), || read_answer(n, s, c, bytes));
    }

    fn read_message(&mut self, c: usize, m: &Message) {
        self.read(c, &bytes_of(m));
    }

    fn write(&mut self, c: usize, room: usize, m: &Message) {
        let (n, s) = (self.n, self.s);
        self.call(format!("{c} write {room} {}", words_of(m)), || {
            let mut out = vec![UNTOUCHED; room];
            let told = match write_message(n, s, c, &mut out, m) {
                Ok(count) => format!("written {count}"),
                Err(r) => format!("refused {r}"),
            };
            format!("{told} {}", to_hex(&out))
        });
    }

    /// A table that is blank but for these bytes in the record of o.j.
    fn judge(&mut self, c: usize, len: usize, o: usize, j: usize, at: usize, bytes: &[u8]) {
        let (n, s) = (self.n, self.s);
        self.call(format!("{c} judge {len} {o} {j} {at} {}", to_hex(bytes)), || {
            let mut t = vec![0; len];
            put(&mut t, 0, &[n as u8, s as u8, c as u8]);
            let start = if o == TABLE { at } else { 3 + RECORD_LEN * (o * s + (j - 1)) + at };
            put(&mut t, start, bytes);
            match judge_table(&t, n, s, c) {
                Ok(()) => "sound".into(),
                Err(r) => format!("refused {r}"),
            }
        });
    }

    fn blank(&mut self, c: usize, len: usize) {
        let (n, s) = (self.n, self.s);
        self.call(format!("{c} blank {len}"), || {
            let mut t = vec![UNTOUCHED; len];
            let told = match blank_table(&mut t, n, s, c) {
                Ok(()) => "blank".into(),
                Err(r) => format!("refused {r}"),
            };
            format!("{told} {}", checksum(&t))
        });
    }

    fn part(&mut self, c: usize, len: usize, o: usize, j: usize) {
        let (n, s) = (self.n, self.s);
        self.call(format!("{c} part {len} {o} {j}"), || {
            let t: Vec<u8> = (0..len).map(|i| (i % 251) as u8).collect();
            let (at, length) = record_part(&t, n, s, c, o, j);
            format!("part {length} {}", checksum(&t[at..at + length]))
        });
    }
}

/// What falls outside the table is dropped.
fn put(t: &mut [u8], at: usize, bytes: &[u8]) {
    for (i, &b) in bytes.iter().enumerate() {
        if let Some(place) = t.get_mut(at + i) {
            *place = b;
        }
    }
}

fn read_answer(n: usize, s: usize, c: usize, bytes: &[u8]) -> String {
    match read_message(n, s, c, bytes) {
        Err(r) => format!("refused {r}"),
        Ok(m) => {
            let mut out = [0; 256];
            match write_message(n, s, c, &mut out, &m) {
                Ok(count) => format!("message {} {}", words_of(&m), to_hex(&out[..count])),
                Err(r) => format!("message {} refused {r}", words_of(&m)),
            }
        }
    }
}

fn words_of(m: &Message) -> String {
    let names = [m.kind as u64, m.from as u64, m.to as u64, m.owner as u64, m.number as u64];
    let rest = [m.ballot as u64, m.voted as u64, m.status as u64, m.joined as u64, m.op as u64];
    let last = [m.key as u64, m.second as u64, m.edit];
    let words = names.into_iter().chain(rest).chain(last).chain(m.deps.map(u64::from));
    words.map(|x| x.to_string()).collect::<Vec<_>>().join(" ")
}

fn checksum(bytes: &[u8]) -> u64 {
    bytes.iter().fold(0, |h: u64, &b| h.wrapping_mul(31).wrapping_add(b as u64))
}

fn to_hex(bytes: &[u8]) -> String {
    if bytes.is_empty() {
        return "-".into();
    }
    bytes.iter().map(|b| format!("{b:02x}")).collect()
}

fn from_hex(text: &str) -> Vec<u8> {
    if text == "-" {
        return Vec::new();
    }
    assert!(text.is_ascii() && text.len().is_multiple_of(2), "bad hex {text}");
    let pairs = (0..text.len()).step_by(2);
    pairs.map(|i| u8::from_str_radix(&text[i..i + 2], 16).expect("hex")).collect()
}

/// The bytes as docs/LAYOUT.md says, written without the library's writer,
/// which would refuse most of what is tried here.
fn bytes_of(m: &Message) -> Vec<u8> {
    let mut b = vec![m.kind, m.from, m.to, m.owner];
    b.extend(m.number.to_le_bytes());
    b.extend(m.ballot.to_le_bytes());
    if body_of(m.kind) == PREPARE_OK {
        b.extend(m.voted.to_le_bytes());
        b.push(m.status);
    }
    if m.kind == 8 {
        b.extend(m.joined.to_le_bytes());
    }
    if has_command(m.kind) {
        b.push(m.op);
        b.extend(m.key.to_le_bytes());
        if is_long(m.kind) {
            b.extend(m.second.to_le_bytes());
        }
        b.extend(m.edit.to_le_bytes());
    }
    if has_deps(m.kind) {
        b.extend(m.deps.iter().flat_map(|d| d.to_le_bytes()));
    }
    b
}

/// Ballots at both sides of each bound.
fn ballots(n: usize) -> Vec<u32> {
    let n = n as u32;
    let mut all = vec![0, 1, 7, 8 + n - 1, 8 + n, 15, 16, u32::MAX];
    all.extend(8..8 + n);
    all.extend([24 + n - 1, 24 + n, LAST_BALLOTS, LAST_BALLOTS + n - 1, LAST_BALLOTS + n]);
    all
}

fn few_ballots(n: usize) -> [u32; 7] {
    let n = n as u32;
    [0, 7, 8, 8 + n - 1, 8 + n, 16 + n, LAST_BALLOTS + n - 1]
}

/// One field at a time of a message that was valid.
fn names_changed(n: usize, s: usize, m: Message) -> Vec<Message> {
    let mut all = vec![m];
    let copies = || (0..=n as u8).chain([7, 255]);
    all.extend(copies().map(|from| Message { from, ..m }));
    all.extend([m.from, n as u8, 255].map(|to| Message { to, ..m }));
    all.extend(copies().map(|owner| Message { owner, ..m }));
    let numbers = [0, 1, s as u16, s as u16 + 1, 256, 257, u16::MAX];
    all.extend(numbers.map(|number| Message { number, ..m }));
    all.extend(ballots(n).into_iter().map(|ballot| Message { ballot, ..m }));
    all
}

fn command_changed(m: Message) -> Vec<Message> {
    if !has_command(m.kind) {
        return Vec::new();
    }
    if is_long(m.kind) {
        return keys_changed(m);
    }
    let noops = [(0, 0, 0), (0, 1, 0), (0, 1 << 31, 0), (0, 0, 1), (0, 0, 1 << 63)];
    let others = [(1, 0, 0), (3, 0, 0), (255, 7, 9)];
    let with = |(op, key, edit)| Message { op, key, edit, ..m };
    noops.into_iter().chain(others).map(with).collect()
}

/// Of a message with a rewire: its keys at both sides of each other, every byte of them, and other ops.
fn keys_changed(m: Message) -> Vec<Message> {
    const MOST: u32 = u32::MAX;
    let mut keys = vec![(0, 0), (0, 1), (1, 0), (7, 7), (7, 8), (8, 7)];
    keys.extend([(0, MOST), (MOST - 1, MOST), (MOST, MOST), (MOST, 0), (255, 256), (256, 255)]);
    keys.extend([(1 << 31, 1), (1, 1 << 31), (0x0100_0000, 0x00ff_ffff)]);
    let mut all: Vec<Message> =
        keys.into_iter().map(|(key, second)| Message { key, second, ..m }).collect();
    all.extend([0, 1, 2, 4, 255].map(|op| Message { op, ..m }));
    all.extend([no_op(&m), Message { edit: 0, ..m }, Message { edit: u64::MAX, ..m }]);
    all
}

fn deps_changed(n: usize, s: usize, m: Message) -> Vec<Message> {
    if !has_deps(m.kind) {
        return Vec::new();
    }
    entries(n, s, m.deps).into_iter().map(|deps| Message { deps, ..m }).collect()
}

/// Each entry at both sides of its bound.
fn entries(n: usize, s: usize, base: [u16; 7]) -> Vec<[u16; 7]> {
    let mut all = vec![[0; 7], std::array::from_fn(|q| if q < n { s as u16 } else { 0 })];
    for q in 0..7 {
        let bound = if q < n { s as u16 } else { 0 };
        for x in [bound, bound + 1] {
            let mut deps = base;
            deps[q] = x;
            all.push(deps);
        }
    }
    for q in [0, n - 1] {
        let mut deps = base;
        deps[q] = 256;
        all.push(deps);
    }
    all
}

/// What only kinds 7 and 8 carry.
fn rest_changed(n: usize, m: Message) -> Vec<Message> {
    let mut all = Vec::new();
    if body_of(m.kind) == PREPARE_OK {
        let near = [m.ballot - 1, m.ballot, m.ballot + 1, m.ballot + 8];
        all.extend(ballots(n).into_iter().chain(near).map(|voted| Message { voted, ..m }));
        all.extend([0, 1, 2, 3, 4, 255].map(|status| Message { status, ..m }));
        all.extend(told_nothing(m));
    }
    if m.kind == 8 {
        let near = [m.ballot.saturating_sub(8), m.ballot, m.ballot + 1, m.ballot + 8];
        all.extend(ballots(n).into_iter().chain(near).map(|joined| Message { joined, ..m }));
    }
    all
}

/// Status 0 with all else zero, and with each other thing set.
fn told_nothing(m: Message) -> Vec<Message> {
    let nothing = nothing(&m);
    let mut all = vec![nothing, Message { voted: 0, status: 0, ..m }];
    all.extend([
        Message { voted: 8, ..nothing },
        Message { op: 1, ..nothing },
        Message { op: 2, ..nothing },
    ]);
    all.extend([Message { key: 1, ..nothing }, Message { edit: 1, ..nothing }]);
    for q in 0..7 {
        let mut told = nothing;
        told.deps[q] = 1;
        all.push(told);
    }
    all
}

/// Every sender at every lead, for the rules about who leads.
fn leads_changed(n: usize, m: Message) -> Vec<Message> {
    let mut all = Vec::new();
    for from in 0..n as u8 {
        for q in 0..n as u32 {
            all.push(Message {
                from,
                ballot: 32 + q,
                joined: if m.kind == 8 { 40 } else { 0 },
                ..m
            });
            all.push(Message { from, owner: q as u8, ballot: 0, ..m });
        }
    }
    all
}

fn messages(script: &mut Script, c: usize) {
    let (n, s) = (script.n, script.s);
    for kind in 1..=LAST_KIND {
        let m = valid(n, c, kind, 3);
        let mut all = command_changed(m);
        // A long kind has the rest of a short one: at the first copy alone, so that the calls do not get too many.
        if c == 0 || !is_long(kind) {
            all.extend(names_changed(n, s, m));
            all.extend(deps_changed(n, s, m));
            all.extend(rest_changed(n, m));
        }
        if !matches!(body_of(kind), PREPARE | PREPARE_OK) {
            let first = valid(n, c, kind, 0);
            all.push(first);
            let no_op = no_op(&first);
            all.extend([no_op, Message { op: 1, ..no_op }]);
        }
        if c == n - 1 && s == 1 && (n < 7 || !has_command(kind)) {
            all.extend(leads_changed(n, m));
        }
        for m in &all {
            script.read_message(c, m);
        }
    }
}

/// A known kind at every length, and every kind at some.
fn lengths(script: &mut Script, c: usize) {
    for kind in 1..=LAST_KIND {
        let bytes = bytes_of(&valid(script.n, c, kind, 3));
        for length in 0..=64 {
            let mut cut = bytes.clone();
            cut.resize(length, 0);
            script.read(c, &cut);
        }
    }
}

fn kinds(script: &mut Script, c: usize) {
    for kind in 0..=255 {
        for length in [1, 10, 37, 41, 46] {
            let like = match length {
                10 => 4,
                41 => 9,
                46 => 12,
                _ => 1,
            };
            let mut bytes = bytes_of(&valid(script.n, c, like, 3));
            bytes.resize(length, 0);
            bytes[0] = kind;
            script.read(c, &bytes);
        }
    }
}

fn writer(script: &mut Script, c: usize) {
    let n = script.n;
    for kind in 1..=LAST_KIND {
        let m = valid(n, c, kind, 3);
        script.write(c, 256, &m);
        script.write(c, 0, &m);
        if c > 0 || script.s > 1 {
            continue;
        }
        script.write(c, 255, &m);
        script.write(c, 300, &m);
        for to in [m.from, n as u8, 255] {
            script.write(c, 256, &Message { to, ..m });
        }
        if has_command(kind) {
            script.write(c, 256, &Message { second: m.key, ..m });
            script.write(c, 256, &Message { second: 1, deps: [u16::MAX; 7], ..m });
        }
        for q in [0, 6] {
            let mut beside = m;
            beside.deps[q] += 1;
            script.write(c, 256, &beside);
        }
    }
}

/// Every clause of valid broken alone, and every two together: read, and with S = 1 written where a line can say it,
/// since each answer to a write has the whole room in it.
fn clauses(script: &mut Script, c: usize) {
    let (n, s) = (script.n, script.s);
    broken::each(n, s, c, &mut |case| {
        script.read(c, case.bytes);
        if let Some(m) = case.fields.as_ref().filter(|_| s == 1).and_then(said) {
            script.write(c, 256, &m);
        }
    });
}

/// The message of a line with these numbers. A line has a kind and an op that go together, and beside what the kind
/// carries it can have dependencies, and a second key where it has a first.
fn said(f: &Fields) -> Option<Message> {
    let kind = f[0] as u8;
    if !(1..=LAST_KIND).contains(&kind) {
        return None;
    }
    let m = fields::cut(f, kind);
    let carried = (has_command(kind) || m.command() == Command::default())
        && (body_of(kind) == PREPARE_OK || (m.voted, m.status) == (0, 0));
    (takes(kind, f[8]) && carried).then_some(m)
}

/// A record, and where it stands.
#[derive(Clone, Copy)]
struct Case {
    owner: usize,
    record: Record,
}

fn write_command() -> Command {
    Command { op: 2, key: 7, second: 0, edit: 9 }
}

fn voted_at(n: usize, voted: u32, status: u8) -> Vote {
    Vote { voted, status, command: write_command(), deps: ones(n) }
}

/// A sound record in a phase at a ballot that this copy leads. Ballot 0 is led
/// by the owner, so the record is an own one there.
fn leading(n: usize, c: usize, phase: u8, joined: u32) -> Case {
    let owner = if joined == 0 { c } else { (c + 1) % n };
    let mut r = Record { joined, phase, ..Record::default() };
    let other = (c + 1) % n;
    match phase {
        1 => {
            r.own = voted_at(n, joined.saturating_sub(8), 2);
            r.set = 1 << c;
            r.replies[c] = r.own;
        }
        2 => {
            r.own = voted_at(n, joined, 2);
            r.set = 1 << other;
            r.replies[other].deps = ones(n);
        }
        _ => {
            r.own = voted_at(n, joined, 3);
            r.set = 1 << other;
        }
    }
    Case { owner, record: r }
}

/// Cases of one kind, made by changing a sound one.
struct Cases {
    all: Vec<Case>,
    base: Case,
}

impl Cases {
    fn of(base: Case) -> Cases {
        Cases { all: vec![base], base }
    }

    fn with(&mut self, change: impl FnOnce(&mut Case)) {
        let mut case = self.base;
        change(&mut case);
        self.all.push(case);
    }

    /// The own vote changed; in phase 1 the own reply with it.
    fn with_own(&mut self, c: usize, change: impl FnOnce(&mut Vote)) {
        self.with(|x| {
            change(&mut x.record.own);
            if x.record.phase == 1 {
                x.record.replies[c] = x.record.own;
            }
        });
    }
}

const fn command(op: u8, key: u32, second: u32, edit: u64) -> Command {
    Command { op, key, second, edit }
}

/// Each op with keys and an edit at both sides of what it may have.
const COMMANDS: [Command; 20] = [
    command(0, 0, 0, 0),
    command(0, 1, 0, 0),
    command(0, 0, 1, 0),
    command(0, 0, 0, 1),
    command(1, 0, 0, 0),
    command(1, 7, 0, 9),
    command(1, 0, 1, 0),
    command(1, 7, 8, 9),
    command(2, 1, 0, 1),
    command(2, 0, 1 << 31, 0),
    command(2, 7, 8, 9),
    command(3, 0, 0, 0),
    command(3, 0, 1, 0),
    command(3, 7, 8, 9),
    command(3, 7, 7, 9),
    command(3, 8, 7, 9),
    command(3, 0xff, 0x100, 0),
    command(3, u32::MAX - 1, u32::MAX, u64::MAX),
    command(4, 7, 8, 9),
    command(255, 0, 1, 0),
];

/// What is asked of every record, whatever its phase.
fn ranges(cases: &mut Cases, n: usize, c: usize) {
    for b in few_ballots(n) {
        cases.with(|x| x.record.joined = b);
        cases.with_own(c, |v| v.voted = b);
    }
    let joined = cases.base.record.joined;
    for b in [joined.saturating_sub(1), joined, joined + 1, joined.saturating_sub(8), joined + 8] {
        cases.with_own(c, |v| v.voted = b);
    }
    for status in [0, 1, 2, 3, 4, 5] {
        cases.with_own(c, |v| v.status = status);
        cases.with(|x| (x.record.own.status, x.record.mark) = (status, 1));
    }
    for command in COMMANDS {
        cases.with_own(c, |v| v.command = command);
    }
    for mark in [1, 2, 255] {
        cases.with(|x| x.record.mark = mark);
    }
    for phase in [0, 1, 2, 3, 4, 255] {
        cases.with(|x| x.record.phase = phase);
    }
}

/// Each dependency entry of the own vote, and of a reply that is collected.
fn all_entries(cases: &mut Cases, n: usize, s: usize, c: usize) {
    let q = (c + 1) % n;
    for deps in entries(n, s, ones(n)) {
        cases.with_own(c, |v| v.deps = deps);
        if cases.base.record.phase != 0 {
            cases.with(|x| x.record.replies[q].deps = deps);
        }
    }
}

/// These copies have replied, each with what the phase collects.
fn collected(case: &mut Case, set: u8) {
    let own = case.record.own;
    case.record.set = set;
    for q in 0..7 {
        case.record.replies[q] = match case.record.phase {
            1 if set >> q & 1 == 1 => own,
            2 if set >> q & 1 == 1 => Vote { deps: own.deps, ..Vote::default() },
            _ => Vote::default(),
        };
    }
}

/// Who has replied: nobody, one, this copy and one, the first k with and
/// without this copy, bits that no copy has.
fn sets(cases: &mut Cases, n: usize, c: usize) {
    for q in 0..8 {
        cases.with(|x| collected(x, 1 << q));
        cases.with(|x| collected(x, 1 << q | 1 << c));
    }
    for k in 0..=n {
        let first = ((1u16 << k) - 1) as u8;
        cases.with(|x| collected(x, first & !(1 << c)));
        cases.with(|x| collected(x, first | 1 << c));
    }
}

/// The sets at the bounds that depend on this copy.
fn few_sets(cases: &mut Cases, n: usize, c: usize) {
    let f = (n - 1) / 2;
    cases.with(|x| collected(x, 0));
    cases.with(|x| collected(x, 1 << c));
    for k in [f - 1, f, n - 1] {
        let others = (0..n).filter(|&q| q != c).take(k).fold(0, |set, q| set | 1 << q);
        cases.with(|x| collected(x, others));
        cases.with(|x| collected(x, others | 1 << c));
    }
}

/// One reply with each of its fields changed.
fn replies(cases: &mut Cases, n: usize, q: usize) {
    let joined = cases.base.record.joined;
    for b in few_ballots(n).into_iter().chain([joined, joined.saturating_sub(8)]) {
        cases.with(|x| x.record.replies[q].voted = b);
    }
    for status in [0, 1, 2, 3, 4, 255] {
        cases.with(|x| x.record.replies[q].status = status);
    }
    for command in COMMANDS {
        cases.with(|x| x.record.replies[q].command = command);
    }
    cases.with(|x| x.record.replies[q].deps[0] ^= 1);
    cases.with(|x| x.record.replies[q] = Vote::default());
    for vote in [Vote { voted: 8, ..Vote::default() }, Vote { deps: ones(n), ..Vote::default() }] {
        cases.with(|x| x.record.replies[q] = vote);
    }
}

/// Status 0 with each other thing set.
fn nothing_voted(cases: &mut Cases, c: usize) {
    cases.with_own(c, |v| *v = Vote::default());
    cases.with_own(c, |v| *v = Vote { voted: 8, ..Vote::default() });
    for command in COMMANDS {
        cases.with_own(c, |v| *v = Vote { command, ..Vote::default() });
    }
    for q in [0, 2, 6] {
        cases.with_own(c, |v| {
            *v = Vote::default();
            v.deps[q] = 1;
        });
    }
}

/// The lead of the joined ballot: the owner at ballot 0, else by the ballot.
fn led_by(cases: &mut Cases, n: usize) {
    for q in 0..n {
        cases.with(|x| {
            if x.record.joined == 0 {
                x.owner = q;
                return;
            }
            x.record.joined = 24 + q as u32;
            if x.record.phase > 1 {
                x.record.own.voted = x.record.joined;
            }
        });
    }
}

/// Sound records of every phase, at a ballot of round 2 and at ballot 0.
fn sound_records(n: usize, c: usize) -> Vec<Case> {
    let b = 16 + c as u32;
    let idle = |status, joined, voted| {
        let record = Record { joined, own: voted_at(n, voted, status), ..Record::default() };
        Case { owner: (c + 1) % n, record }
    };
    let mut all = vec![idle(1, 16 + n as u32 - 1, 16), idle(4, 16, 8)];
    all.extend([leading(n, c, 1, b), leading(n, c, 2, b), leading(n, c, 3, b)]);
    all.extend([leading(n, c, 2, 0), leading(n, c, 3, 0), preparing_with_another(n, c, b)]);
    all
}

/// Phase 1 with another copy's reply: sound where F allows two.
fn preparing_with_another(n: usize, c: usize, b: u32) -> Case {
    let q = (c + 1) % n;
    let mut case = leading(n, c, 1, b);
    case.record.set |= 1 << q;
    case.record.replies[q] = voted_at(n, 8, 3);
    case
}

/// Phase 1 with nothing voted: the own reply is all zero, so that only the set
/// says whether it was collected.
fn preparing_unvoted(n: usize, c: usize) -> Vec<Case> {
    let mut base = leading(n, c, 1, 16 + c as u32);
    base.record.own = Vote::default();
    let other = (c + 1) % n;
    let sets = [0, 1 << c, 1 << other, 1 << c | 1 << other];
    let with = |set| {
        let mut case = base;
        collected(&mut case, set);
        case
    };
    sets.map(with).to_vec()
}

/// Sound records with one thing changed: every clause.
fn record_cases(n: usize, s: usize, c: usize) -> Vec<Case> {
    let mut all = vec![Case { owner: 0, record: Record::default() }, leading(n, c, 1, 0)];
    all.extend(preparing_unvoted(n, c));
    for base in sound_records(n, c) {
        let Record { phase, joined, own, .. } = base.record;
        let mut cases = Cases::of(base);
        ranges(&mut cases, n, c);
        nothing_voted(&mut cases, c);
        if joined != 0 && own.status != 4 {
            all_entries(&mut cases, n, s, c);
            sets(&mut cases, n, c);
            replies(&mut cases, n, (c + 1) % n);
        }
        if phase != 0 {
            led_by(&mut cases, n);
        }
        if phase == 1 {
            replies(&mut cases, n, c);
        }
        cases.with(|x| x.record.replies[(c + 2) % n].deps[0] = 1);
        cases.with(|x| x.record.replies[6].deps[6] = 1);
        all.extend(cases.all);
    }
    all
}

/// The clauses that depend on this copy, or on S.
fn few_cases(n: usize, s: usize, c: usize) -> Vec<Case> {
    let mut all = vec![leading(n, c, 1, 0)];
    all.extend(preparing_unvoted(n, c));
    for base in sound_records(n, c) {
        let mut cases = Cases::of(base);
        if base.record.phase != 0 {
            led_by(&mut cases, n);
        }
        if base.record.phase != 0 && base.record.joined != 0 {
            few_sets(&mut cases, n, c);
        }
        if s > 1 && c == 0 {
            all_entries(&mut cases, n, s, c);
        }
        all.extend(cases.all);
    }
    all
}

fn table_length(n: usize, s: usize) -> usize {
    3 + RECORD_LEN * n * s
}

fn record_bytes(r: &Record) -> Vec<u8> {
    let mut bytes = [0; RECORD_LEN];
    r.write(&mut bytes);
    let used = bytes.iter().rposition(|&b| b != 0).map_or(0, |last| last + 1);
    bytes[..used].to_vec()
}

fn judged(script: &mut Script, c: usize, cases: &[Case]) {
    let (n, s) = (script.n, script.s);
    let len = table_length(n, s);
    for (i, case) in cases.iter().enumerate() {
        let j = [1, s, s / 2 + 1][i % 3];
        script.judge(c, len, case.owner, j, 0, &record_bytes(&case.record));
    }
}

/// Head bytes, lengths, and one bad record at every place.
fn whole_tables(script: &mut Script, c: usize) {
    let (n, s) = (script.n, script.s);
    let len = table_length(n, s);
    script.judge(c, len, TABLE, 1, 0, &[]);
    for (at, right) in [n, s, c].into_iter().enumerate() {
        for wrong in [right + 1, right + 255, 0, 255] {
            script.judge(c, len, TABLE, 1, at, &[wrong as u8]);
        }
    }
    for length in [0, 1, 2, 3, len - 1, len + 1, len - RECORD_LEN, len + RECORD_LEN] {
        if length <= table_length(7, 64) {
            script.judge(c, length, TABLE, 1, 0, &[]);
            script.blank(c, length);
            script.part(c, length, 0, 1);
        }
    }
    script.blank(c, len);
    for (o, j) in
        [(0, 0), (0, 1), (n, 1), (n, 0), (0, s), (0, s + 1), (n - 1, s), (n - 1, s + 1), (c, 1)]
    {
        script.part(c, len, o, j);
    }
    script.part(c, len, u32::MAX as usize, 1);
    script.part(c, len, 1, u32::MAX as usize);
}

fn every_place(script: &mut Script, c: usize) {
    let len = table_length(script.n, script.s);
    for o in 0..script.n {
        for j in 1..=script.s {
            script.judge(c, len, o, j, if j % 2 == 0 { 0 } else { RECORD_LEN - 1 }, &[1]);
        }
    }
    script.judge(c, len, script.n, 1, 0, &[1]);
}

/// Every byte of one record by itself.
fn every_byte(script: &mut Script, c: usize) {
    let len = table_length(script.n, script.s);
    for at in 0..RECORD_LEN {
        script.judge(c, len, script.n - 1, script.s, at, &[1]);
    }
}

/// Setups and copy numbers that are refused, and good ones beside them.
fn setups(script: &mut Script) {
    let big = u32::MAX as usize;
    let bad = [0, 1, 2, 4, 6, 8, 259, big].map(|n| (n, 1));
    let numbers =
        [(3, 0), (3, 65), (7, 65), (5, 257), (3, big), (big, big), (3, 1), (5, 64), (7, 64)];
    for (n, s) in bad.into_iter().chain(numbers) {
        script.run(n, s);
        for c in [0, 1, n.saturating_sub(1), n, n + 1, 256, big] {
            one_setup(script, c);
        }
    }
}

fn one_setup(script: &mut Script, c: usize) {
    let len = script.n.saturating_mul(script.s).saturating_mul(RECORD_LEN).saturating_add(3);
    let m = valid(3, 0, 1, 3);
    script.read_message(c, &m);
    script.read_message(c, &valid(3, 0, 4, 3));
    script.read(c, &[]);
    script.write(c, 0, &m);
    if c == script.n || c == 0 {
        script.write(c, 256, &m);
    }
    for length in [len, 3, table_length(3, 1), 0] {
        if length <= table_length(7, 64) {
            script.judge(c, length, 0, 1, 0, &[]);
            script.blank(c, length);
            script.part(c, length, 0, 1);
        }
    }
}

/// Lines that the program cannot read: what it says of them is its own.
fn bad_lines(script: &mut Script) {
    let fields = "1 0 1 0 1 0 0 0 0 2 7 0 9 0 0 0 0 0 0 0";
    let rewire = "9 0 1 0 1 0 0 0 0 3 7 8 9 0 0 0 0 0 0 0";
    let hex = "00".repeat(301);
    let lines = [
        "x read -".into(),
        "18446744073709551616 read -".into(),
        "0".into(),
        "0 reads -".into(),
        "0 read".into(),
        "0 read 0".into(),
        "0 read 0G".into(),
        "0 read 00 00".into(),
        format!("0 read {hex}"),
        format!("0 write 301 {fields}"),
        format!("0 write 256 {fields} 0"),
        format!("0 write {fields}"),
        format!("0 write 256 {}", fields.replacen('1', "13", 1)),
        format!("0 write 256 {}", fields.replacen('1', "0", 1)),
        format!("0 write 256 {}", fields.replace(" 2 ", " 3 ")),
        format!("0 write 256 {}", fields.replacen('1', "9", 1)),
        format!("0 write 256 {}", rewire.replacen('9', "1", 1)),
        format!("0 write 256 {}", rewire.replace(" 3 ", " 4 ")),
        format!("0 write 256 {}", rewire.replace(" 8 ", " 4294967296 ")),
        format!("0 write 256 {}", fields.replace(" 7 ", " 4294967296 ")),
        format!("0 write 256 {}", fields.replace(" 9 ", " 18446744073709551616 ")),
        format!("0 judge {} 0 1 0 -", table_length(7, 64) + 1),
        "0 judge 3 0 1 0".into(),
        format!("0 blank {}", table_length(7, 64) + 1),
        "0 part 3 1".into(),
    ];
    for line in lines {
        script.call(line, || "bad line".into());
    }
}

fn edges() -> Script {
    let mut script = Script::default();
    script.run(3, 1);
    bad_lines(&mut script);
    setups(&mut script);
    for n in [3, 5, 7] {
        for s in [1, 64] {
            script.run(n, s);
            for c in 0..n {
                messages(&mut script, c);
                writer(&mut script, c);
                whole_tables(&mut script, c);
                if s == 1 && c == 0 {
                    judged(&mut script, c, &record_cases(n, s, c));
                } else if s == 1 || c == 0 || c == n - 1 {
                    judged(&mut script, c, &few_cases(n, s, c));
                }
            }
            every_place(&mut script, 0);
            if matches!((n, s), (3, 1) | (7, 64)) {
                clauses(&mut script, 1);
            }
            // None of these asks for S.
            if s == 1 {
                lengths(&mut script, 1);
                kinds(&mut script, n - 1);
                every_byte(&mut script, 1);
            }
        }
    }
    script
}

/// The messages of a recorded run as calls of the reader.
fn recorded(text: &str) -> Script {
    let mut script = Script::default();
    for line in text.lines() {
        let words: Vec<&str> = line.split_whitespace().collect();
        match words[..] {
            ["run", n, s, ..] => script.run(n.parse().expect("N"), s.parse().expect("S")),
            [c, "message", bytes] => script.read(c.parse().expect("copy"), &from_hex(bytes)),
            _ => {}
        }
    }
    script
}

fn main() -> ExitCode {
    let script = match std::env::args().nth(1) {
        None => edges(),
        Some(path) => match std::fs::read_to_string(&path) {
            Ok(text) => recorded(&text),
            Err(e) => {
                eprintln!("{path}: {e}");
                return ExitCode::from(2);
            }
        },
    };
    print!("{}", script.text);
    eprintln!("{} calls, {} bytes", script.calls, script.text.len());
    ExitCode::SUCCESS
}
