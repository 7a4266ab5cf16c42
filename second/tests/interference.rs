//! Which commands interfere, and what a copy sees by it: requests 4/12 and 5/12,
//! and beside them the wider rule of document 01.

mod common;
use common::*;
use second::rules::{interfere, same_object, Command, NO_OP, READ, REWIRE, WRITE};
use second::*;

type Rule = fn(&Command, &Command) -> bool;

/// Every op, with two keys each; a no-op has key 0 alone.
fn commands() -> Vec<Command> {
    let with = |op, key| Command { op, key, second: 0, edit: 0 };
    vec![with(NO_OP, 0), with(READ, 0), with(READ, 7), with(WRITE, 0), with(WRITE, 7)]
}

/// The pairs of `commands` for which the rule holds, by their places.
fn pairs(rule: Rule) -> Vec<(usize, usize)> {
    let all = commands();
    let places = || 0..all.len();
    let every = places().flat_map(|a| places().map(move |b| (a, b)));
    every.filter(|&(a, b)| rule(&all[a], &all[b])).collect()
}

#[test]
fn every_pair() {
    // Reads at 1 and 2, writes at 3 and 4; key 0 at 1 and 3, key 7 at 2 and 4.
    assert_eq!(pairs(interfere), [(1, 3), (2, 4), (3, 1), (3, 3), (4, 2), (4, 4)]);
    let reads = [(1, 1), (2, 2)];
    let mut wider = [&pairs(interfere)[..], &reads].concat();
    wider.sort();
    assert_eq!(pairs(same_object), wider);
}

#[test]
fn symmetric() {
    for rule in [interfere as Rule, same_object] {
        let mut turned: Vec<_> = pairs(rule).into_iter().map(|(a, b)| (b, a)).collect();
        turned.sort();
        assert_eq!(turned, pairs(rule));
    }
}

#[test]
fn not_transitive() {
    let [read, write] = [READ, WRITE].map(|op| Command { op, key: 7, second: 0, edit: 0 });
    assert!(interfere(&read, &write) && interfere(&write, &read));
    assert!(!interfere(&read, &read));
    // Writes alone do not make it so either: a rewire stands between two that share nothing.
    let [low, high] = [7, 8].map(|key| Command { key, ..write });
    let between = rewired(7, 8);
    assert!(interfere(&low, &between) && interfere(&between, &high) && !interfere(&low, &high));
    let [left, right] = [rewired(6, 7), rewired(8, 9)];
    assert!(interfere(&left, &between) && interfere(&between, &right) && !interfere(&left, &right));
}

fn rewired(key: u32, second: u32) -> Command {
    Command { op: REWIRE, key, second, edit: 0 }
}

/// The objects that a command touches, as a list.
fn objects(c: &Command) -> Vec<u32> {
    match c.op {
        NO_OP => vec![],
        REWIRE => vec![c.key, c.second],
        _ => vec![c.key],
    }
}

/// Every op beside every other, with every key and every two of them, against the lists of what they touch. Among the
/// keys is 0, which the second of a command with one key is not.
#[test]
fn every_pair_of_lists() {
    let keys = [0, 1, 2, 7];
    let mut all = vec![Command::default()];
    for key in keys {
        all.extend([READ, WRITE].map(|op| Command { op, key, second: 0, edit: 3 }));
        all.extend(keys.iter().filter(|&&second| key < second).map(|&second| rewired(key, second)));
    }
    let (mut met, mut passed) = (0, 0);
    for a in &all {
        for b in &all {
            let shared = objects(a).iter().any(|key| objects(b).contains(key));
            let written = [a, b].iter().any(|c| matches!(c.op, WRITE | REWIRE));
            assert_eq!(same_object(a, b), shared, "{a:?} {b:?}");
            assert_eq!(interfere(a, b), shared && written, "{a:?} {b:?}");
            met += (shared && written) as usize;
            passed += (shared && !written) as usize;
        }
    }
    assert_eq!((all.len(), met, passed), (15, 90, 4));
}

/// The nine pairs of ops that touch something, each with one object in common and with none; a rewire's common object is
/// its first or its second.
#[test]
fn nine_pairs() {
    let of = |op, key| match op {
        REWIRE => vec![rewired(key, 90), rewired(1, key)],
        _ => vec![Command { op, key, second: 0, edit: 0 }],
    };
    for a in [READ, WRITE, REWIRE] {
        for b in [READ, WRITE, REWIRE] {
            let reads = a == READ && b == READ;
            for first in of(a, 7) {
                assert!(of(b, 7).iter().all(|other| interfere(&first, other) != reads));
                assert!(of(b, 7).iter().all(|other| same_object(&first, other)));
                let alone = Command { key: first.key + 30, second: first.second + 40, ..first };
                let alone = if a == REWIRE { alone } else { Command { second: 0, ..alone } };
                assert!(of(b, 7).iter().all(|other| !same_object(&alone, other)));
            }
        }
    }
}

/// The edit does not matter, and a key counts to its last byte.
#[test]
fn what_is_asked_of_key_and_edit() {
    let write = |key, edit| Command { op: WRITE, key, second: 0, edit };
    assert!(interfere(&write(u32::MAX, 1), &write(u32::MAX, 2)));
    for bit in 0..32 {
        let near = 0x7000_0007 ^ 1 << bit;
        assert!(!interfere(&write(0x7000_0007, 1), &write(near, 1)));
        assert!(!interfere(&write(near, 1), &rewired(1, 0x7000_0007)));
        assert!(!interfere(&rewired(0x7000_0007, u32::MAX), &write(near, 1)));
    }
}

/// Copy 0 of three, with 1.1 to 1.4 committed: a write of key 7, two reads of
/// it, and a read of key 8.
fn met() -> Copy {
    let mut c = Copy::blank(3, 4, 0);
    for (j, (op, key)) in (1..).zip([(WRITE, 7), (READ, 7), (READ, 7), (READ, 8)]) {
        c.put(1, j, &Rec { own: vote(0, 4, op, key, 1, &[]), ..Rec::default() });
    }
    c
}

/// An op and a key, and the entry that they see of row 1 there: by 4/12, and
/// by document 01.
const CASES: [(u8, u32, u16, u16); 4] =
    [(READ, 7, 1, 3), (WRITE, 7, 3, 3), (READ, 8, 0, 4), (WRITE, 8, 4, 4)];

/// The dependencies of a request.
fn requested(mut c: Copy, rule: Rule, op: u8, key: u32) -> [u16; 7] {
    request_by(rule, &mut c.t, c.n, c.s, c.copy, &mut [0; 256], op, key, 0, 9).unwrap();
    c.get(0, 1).own.deps
}

#[test]
fn a_request_passes_over_reads() {
    for (op, key, narrow, wide) in CASES {
        assert_eq!(requested(met(), interfere, op, key), deps(&[0, narrow]));
        assert_eq!(requested(met(), same_object, op, key), deps(&[0, wide]));
        let mut c = met();
        assert!(c.request(op, key, 9).unwrap().1.iter().all(|m| m.deps == deps(&[0, narrow])));
    }
}

/// Status 2 says that nothing was added to what the owner had seen, which is
/// 1.1.
#[test]
fn a_pre_accept_passes_over_reads() {
    for (op, key, narrow, wide) in CASES {
        for (rule, entry) in [(interfere as Rule, narrow), (same_object, wide)] {
            let mut c = met();
            let bytes = pre_accept(op, key);
            message_by(rule, &mut c.t, 3, 4, 0, &mut [0; 256], &bytes).unwrap();
            let status = if entry > 1 { 1 } else { 2 };
            assert_eq!(c.get(2, 1).own, vote(0, status, op, key, 9, &[0, entry.max(1)]));
        }
        let mut c = met();
        message(&mut c.t, 3, 4, 0, &mut [0; 256], &pre_accept(op, key)).unwrap();
        assert_eq!(c.get(2, 1).own.deps, deps(&[0, narrow.max(1)]));
    }
}

/// From copy 2 to copy 0 about 2.1, whose owner has seen 1.1.
fn pre_accept(op: u8, key: u32) -> Vec<u8> {
    let names = Message { kind: 1, from: 2, to: 0, owner: 2, number: 1, ..Message::default() };
    let m = Message { op, key, edit: 9, deps: deps(&[0, 1]), ..names };
    let mut bytes = [0; 256];
    let length = write_message(3, 4, 0, &mut bytes, &m).unwrap();
    bytes[..length].to_vec()
}

/// A recovery that begins a read afresh passes over reads too.
#[test]
fn afresh_passes_over_reads() {
    for (op, entry) in [(READ, 1), (WRITE, 3)] {
        let mut c = met();
        c.put(2, 1, &Rec { own: vote(0, 1, op, 7, 9, &[0, 4]), ..Rec::default() });
        c.recover(2, 1).unwrap();
        let told = Message { kind: 7, from: 1, to: 0, owner: 2, number: 1, ..Message::default() };
        let sent = c.message(&Message { ballot: 8, ..told }).unwrap().1;
        assert!(sent.iter().all(|m| m.kind == 1 && m.deps == deps(&[0, entry])));
        assert_eq!(sent.len(), 2);
    }
}

/// Copy 0 of three, with 1.1 to 1.4 committed: a write of key 7, a rewire of 7
/// and 8, a read of key 8, and a write of key 0.
fn rewired_before() -> Copy {
    let mut c = Copy::blank(3, 4, 0);
    c.put(1, 1, &Rec { own: vote(0, 4, WRITE, 7, 1, &[]), ..Rec::default() });
    c.put(1, 2, &Rec { own: rewire(0, 4, 7, 8, 1, &[]), ..Rec::default() });
    c.put(1, 3, &Rec { own: vote(0, 4, READ, 8, 1, &[]), ..Rec::default() });
    c.put(1, 4, &Rec { own: vote(0, 4, WRITE, 0, 1, &[]), ..Rec::default() });
    c
}

/// A rewire sees what touches either key; one with a single key sees the rewire by
/// either; a zero that stands for no second key meets nothing.
#[test]
fn what_a_rewire_meets() {
    for (key, second, entry) in [(7, 9, 2), (8, 9, 3), (6, 7, 2), (6, 8, 3), (0, 5, 4), (5, 9, 0)] {
        let (_, sent) = rewired_before().rewire(key, second, 9).unwrap();
        assert_eq!(sent.len(), 2);
        for m in sent {
            assert_eq!((m.kind, m.op, m.key, m.second, m.edit), (9, 3, key, second, 9));
            assert_eq!(m.deps, deps(&[0, entry]));
        }
    }
    for (op, key, entry) in [(READ, 7, 2), (READ, 8, 2), (WRITE, 8, 3), (READ, 0, 4), (WRITE, 9, 0)]
    {
        let (_, sent) = rewired_before().request(op, key, 9).unwrap();
        assert!(sent.iter().all(|m| m.kind == 1 && m.second == 0 && m.deps == deps(&[0, entry])));
    }
}

/// Through every step: pre-accepted, told to who prepares, decided on by a recovery, accepted and committed.
#[test]
fn a_rewire_through_all_steps() {
    let [mut zero, mut one, mut two] = [0, 1, 2].map(|copy| Copy::blank(3, 4, copy));
    one.request(WRITE, 8, 1).unwrap();
    let (_, sent) = zero.rewire(7, 8, 100).unwrap();
    let (_, answer) = one.message(&sent[0]).unwrap();
    assert_eq!((answer[0].kind, answer[0].deps), (2, deps(&[0, 1])));
    assert_eq!(one.get(0, 1).own, rewire(0, 1, 7, 8, 100, &[0, 1]));
    two.message(&sent[1]).unwrap();
    let (_, asked) = two.recover(0, 1).unwrap();
    assert_eq!(two.get(0, 1).replies[2], rewire(0, 2, 7, 8, 100, &[]));
    let (_, told) = one.message(&asked[1]).unwrap();
    let named = (told[0].kind, told[0].status, told[0].op, told[0].key, told[0].second);
    assert_eq!(named, (12, 1, 3, 7, 8));
    let (_, accept) = two.message(&told[0]).unwrap();
    assert!(accept.iter().all(|m| m.kind == 10 && m.second == 8 && m.ballot == 10));
    let (_, ok) = one.message(&accept[1]).unwrap();
    let (_, commit) = two.message(&ok[0]).unwrap();
    assert!(commit.iter().all(|m| (m.kind, m.key, m.second, m.edit) == (11, 7, 8, 100)));
    one.message(&commit[1]).unwrap();
    one.message(&commit[1]).unwrap();
    assert_eq!(one.message(&Message { second: 9, ..commit[1] }), Err(refused(10)));
    let settled = Settled::Command { op: 3, key: 7, second: 8, edit: 100 };
    assert_eq!((one.settled(0, 1), two.settled(0, 1)), (Ok(settled), Ok(settled)));
    assert_eq!(one.nudge(0, 1).unwrap().1[0].kind, 11);
}

fn has_keys(op: u8, key: u32, second: u32) -> bool {
    match op {
        1 | 2 => second == 0,
        3 => key < second,
        _ => false,
    }
}

/// What a request is refused 4 for: another op, or keys that its op does not have. After too little room, and before a
/// full row.
#[test]
fn keys_of_a_request() {
    for op in [0, 1, 2, 3, 4, 255] {
        for (key, second) in [0, 1, 7, u32::MAX]
            .into_iter()
            .flat_map(|key| [0, 1, 7, 8, u32::MAX].into_iter().map(move |second| (key, second)))
        {
            let good = has_keys(op, key, second);
            let blank = Copy::blank(3, 1, 0);
            let mut full = blank.clone();
            full.put(0, 1, &Rec::committed(1, &[]));
            let asked = |c: &Copy, room: usize| {
                let (mut t, mut out) = (c.t.clone(), [0xa5; 256]);
                let got = request(&mut t, 3, 1, 0, &mut out[..room], op, key, second, 5);
                assert!(got.is_ok() || (t == c.t && out == [0xa5; 256]));
                got.map(|e| e.written)
            };
            let written = if op == 3 { 82 } else { 74 };
            let wanted = if good { Ok(written) } else { Err(refused(4)) };
            assert_eq!(asked(&blank, 256), wanted, "{op} {key} {second}");
            assert_eq!(asked(&full, 256), Err(refused(if good { 5 } else { 4 })));
            assert_eq!(asked(&blank, 255), Err(refused(2)));
        }
    }
}
