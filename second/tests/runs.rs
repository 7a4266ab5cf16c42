//! Events over random sound tables, and whole runs: what holds for every
//! event is asked in common, the thresholds and repeats here.

mod common;
use common::*;
use second::*;

fn ballot(random: &mut Random, n: usize, below: u32) -> u32 {
    let r = random.below(4) as u32;
    let b = if r == 0 { 0 } else { 8 * r + random.below(n as u64) as u32 };
    if b < below {
        b
    } else {
        0
    }
}

fn some_vote(random: &mut Random, n: usize, s: usize, voted: u32, status: u8) -> Vote {
    if status == 0 {
        return Vote::default();
    }
    let op = random.below(4) as u8;
    let (key, edit) = if op == 0 { (0, 0) } else { (random.below(3) as u32, random.below(9)) };
    let second = if op == 3 { key + 1 + random.below(2) as u32 } else { 0 };
    let mut d = [0; 7];
    for entry in d.iter_mut().take(n) {
        *entry = if random.chance(50) { 0 } else { random.below(s as u64 + 1) as u16 };
    }
    Vote { voted, status, op, key, second, edit, deps: d }
}

/// Any sound record, also such as no run reaches.
fn some_record(random: &mut Random, n: usize, s: usize, copy: usize, o: usize) -> Rec {
    let f = (n as u32 - 1) / 2;
    let mut r = Rec { phase: random.below(4) as u8, ..Rec::default() };
    if r.phase == 0 {
        r.joined = ballot(random, n, u32::MAX);
        let status = random.below(5) as u8;
        let voted = if status == 0 { 0 } else { ballot(random, n, r.joined + 1) };
        r.own = some_vote(random, n, s, voted, status);
        r.mark = (status == 4 && random.chance(50)) as u8;
        return r;
    }
    r.joined = 8 * (1 + random.below(3) as u32) + copy as u32;
    if r.phase != 1 && o == copy && random.chance(60) {
        r.joined = 0;
    }
    let status = match r.phase {
        1 => random.below(4) as u8,
        2 => 1 + random.below(2) as u8,
        _ => 3,
    };
    let voted = if r.phase == 1 { ballot(random, n, r.joined) } else { r.joined };
    r.own = some_vote(random, n, s, if status == 0 { 0 } else { voted }, status);
    if r.phase == 2 && r.joined == 0 && r.own.op == 0 {
        r.own.op = 1;
    }
    for q in 0..n {
        let room = r.phase != 1 || r.set.count_ones() + ((q < copy) as u32) < f;
        if q == copy && r.phase == 1 {
            r.set |= 1 << q;
            r.replies[q] = r.own;
        } else if q != copy && room && random.chance(40) {
            r.set |= 1 << q;
            let status = random.below(4) as u8;
            let voted = ballot(random, n, r.joined);
            let v = some_vote(random, n, s, voted, status);
            r.replies[q] = match r.phase {
                1 => v,
                2 if random.chance(50) => Vote { deps: r.own.deps, ..Vote::default() },
                2 => Vote { deps: v.deps, ..Vote::default() },
                _ => Vote::default(),
            };
        }
    }
    r
}

fn some_message(random: &mut Random, c: &Copy) -> Option<Message> {
    let (n, s) = (c.n, c.s);
    let o = random.below(n as u64) as usize;
    let j = 1 + random.below(s as u64) as usize;
    let r = c.get(o, j);
    let mut m = Message {
        kind: 1 + random.below(12) as u8,
        from: random.below(n as u64) as u8,
        to: c.copy as u8,
        owner: o as u8,
        number: j as u16,
        ballot: if random.chance(60) { r.joined } else { ballot(random, n, u32::MAX) },
        ..Message::default()
    };
    let status = random.below(4) as u8;
    let voted = ballot(random, n, m.ballot);
    let v = if random.chance(30) { r.own } else { some_vote(random, n, s, voted, status) };
    let with_command = matches!(m.kind, 1 | 3 | 5 | 7 | 9..);
    if with_command {
        (m.op, m.key, m.second, m.edit) = (v.op, v.key, v.second, v.edit);
    }
    if with_command || m.kind == 2 {
        m.deps = v.deps;
    }
    if matches!(m.kind, 7 | 12) {
        (m.voted, m.status) = (v.voted, v.status);
    }
    if m.kind == 8 {
        m.joined = ballot(random, n, u32::MAX);
    }
    write_message(n, s, c.copy, &mut [0; 256], &m).ok().map(|_| m)
}

/// A copy whose table holds records of every sort.
fn some_copy(random: &mut Random) -> Copy {
    let n = [3, 5, 7][random.below(3) as usize];
    let s = 1 + random.below(3) as usize;
    let copy = random.below(n as u64) as usize;
    let mut c = Copy::blank(n, s, copy);
    for o in 0..n {
        for j in 1..=s {
            if random.chance(80) {
                let r = some_record(random, n, s, copy, o);
                c.put(o, j, &r);
            }
        }
    }
    assert_eq!(c.judge(), Ok(()));
    c
}

/// A nudge, a recovery or a request, taken or refused as the table says.
fn some_call(random: &mut Random, c: &mut Copy) {
    let (n, s, copy) = (c.n, c.s, c.copy);
    let (o, j) = (random.below(n as u64) as usize, 1 + random.below(s as u64) as usize);
    let r = c.get(o, j);
    match random.below(4) {
        0 => {
            let got = c.nudge(o, j).map(|_| ());
            let idle = r.own.status != 4 && r.phase == 0;
            assert_eq!(got, if idle { Err(refused(9)) } else { Ok(()) });
        }
        1 => {
            let got = c.recover(o, j).map(|_| ());
            assert_eq!(got, if r.own.status == 4 { Err(refused(8)) } else { Ok(()) });
        }
        2 => {
            let blank = (1..=s).find(|&j| c.get(copy, j) == Rec::default());
            let got = c.request(2, 1, 1).map(|(e, _)| (e.owner, e.number));
            assert_eq!(got, blank.map(|j| (copy, j)).ok_or(refused(5)));
        }
        _ => {}
    }
}

#[test]
fn random_tables() {
    let mut random = Random(4);
    let mut taken = [0; 13];
    for _ in 0..20_000 {
        let mut c = some_copy(&mut random);
        for _ in 0..10 {
            if let Some(m) = some_message(&mut random, &c) {
                let before = c.clone();
                match c.message(&m) {
                    Ok(_) => taken[m.kind as usize] += (c != before) as u32,
                    Err(r) => assert!(r == refused(10) && matches!(m.kind, 5 | 11)),
                }
            }
            some_call(&mut random, &mut c);
        }
    }
    assert!(taken[1..].iter().all(|&t| t > 100), "{taken:?}");
}

/// An event at some copy: a call, or a message that arrives, is lost or stays on the way too. What it sends.
fn some_event(random: &mut Random, copies: &mut [Copy], flying: &mut Vec<Message>) -> Vec<Message> {
    let (n, s) = (copies.len(), copies[0].s);
    let q = random.below(n as u64) as usize;
    let (o, j) = (random.below(n as u64) as usize, 1 + random.below(s as u64) as usize);
    let sent = match random.below(20) {
        0 => copies[q].request(1 + random.below(2) as u8, random.below(3) as u32, 1),
        1 => {
            let key = random.below(2) as u32;
            copies[q].rewire(key, key + 1 + random.below(2) as u32, 1)
        }
        2 if random.chance(30) => copies[q].recover(o, j),
        3 => copies[q].nudge(o, j),
        _ if flying.is_empty() => return Vec::new(),
        _ => {
            let at = random.below(flying.len() as u64) as usize;
            let m = if random.chance(10) { flying[at] } else { flying.swap_remove(at) };
            if random.chance(5) {
                return Vec::new();
            }
            let got = copies[m.to as usize].message(&m);
            assert!(got.is_ok(), "{got:?}");
            got
        }
    };
    sent.map(|(_, sent)| sent).unwrap_or_default()
}

/// How many instances are committed somewhere; wherever one is, it is with the same command and dependencies.
fn agreed(copies: &[Copy]) -> usize {
    let mut committed = 0;
    for o in 0..copies.len() {
        for j in 1..=copies[0].s {
            let held = |c: &Copy| c.get(o, j).own;
            let all: Vec<_> = copies.iter().map(held).filter(|v| v.status == 4).collect();
            let chosen = |v: &Vote| (v.op, v.key, v.second, v.edit, v.deps);
            assert!(all.iter().all(|v| chosen(v) == chosen(&all[0])), "{o}.{j}");
            committed += !all.is_empty() as usize;
        }
    }
    committed
}

/// Messages lost, repeated and late; in the end every copy that committed an
/// instance holds the same command and dependencies.
#[test]
fn runs_agree() {
    let mut random = Random(5);
    let mut committed = 0;
    for _ in 0..400 {
        let n = [3, 5, 7][random.below(3) as usize];
        let s = 1 + random.below(4) as usize;
        let mut copies: Vec<Copy> = (0..n).map(|q| Copy::blank(n, s, q)).collect();
        let mut flying = Vec::new();
        for _ in 0..600 {
            let sent = some_event(&mut random, &mut copies, &mut flying);
            flying.extend(sent);
        }
        committed += agreed(&copies);
    }
    assert!(committed > 1000, "{committed}");
}

fn pre_accept(from: u8, to: u8, ballot: u32, d: &[u16]) -> Message {
    Message {
        kind: 1,
        from,
        to,
        owner: 0,
        number: 1,
        ballot,
        op: 2,
        key: 7,
        edit: 100,
        deps: deps(d),
        ..Message::default()
    }
}

#[test]
fn a_repeated_pre_accept_is_answered_as_before() {
    let mut c = Copy::blank(3, 4, 1);
    let m = pre_accept(0, 1, 0, &[]);
    let first = c.message(&m).unwrap().1;
    assert_eq!(first[0].deps, [0; 7]);
    c.request(2, 7, 1).unwrap();
    assert_eq!(c.message(&m).unwrap().1, first);
    // At a higher ballot it is worked out anew.
    let again = c.message(&pre_accept(2, 1, 10, &[])).unwrap().1;
    assert_eq!((again[0].ballot, again[0].deps), (10, deps(&[0, 1])));
    // Accepted at that ballot: nothing.
    c.message(&Message { kind: 3, ..pre_accept(2, 1, 10, &[]) }).unwrap();
    assert_eq!(c.message(&pre_accept(2, 1, 10, &[])).unwrap().1, []);
    // Below: Nack with both ballots.
    let nack = c.message(&m).unwrap().1;
    assert_eq!((nack[0].kind, nack[0].ballot, nack[0].joined), (8, 0, 10));
}

#[test]
fn prepare_ok_reports_the_voted_ballot() {
    let mut c = Copy::blank(3, 4, 1);
    c.message(&pre_accept(0, 1, 0, &[])).unwrap();
    let prepare =
        Message { kind: 6, from: 2, to: 1, owner: 0, number: 1, ballot: 10, ..Message::default() };
    for _ in 0..2 {
        let sent = c.message(&prepare).unwrap().1;
        assert_eq!((sent[0].kind, sent[0].ballot, sent[0].voted, sent[0].status), (7, 10, 0, 2));
    }
    c.message(&pre_accept(2, 1, 10, &[])).unwrap();
    assert_eq!(c.message(&prepare).unwrap().1, []);
}

/// N=5: three equal to what was sent commit; agreeing among themselves is not
/// enough; all four go on.
#[test]
fn thresholds_at_ballot_0() {
    let ok = |from: u8, d: &[u16]| Message {
        kind: 2,
        from,
        to: 0,
        owner: 0,
        number: 1,
        deps: deps(d),
        ..Message::default()
    };
    let mut c = Copy::blank(5, 4, 0);
    c.request(2, 7, 100).unwrap();
    let start = c.clone();
    for from in 1..=2 {
        assert_eq!(c.message(&ok(from, &[])).unwrap().1, []);
        assert_eq!(c.message(&ok(from, &[0, 1])).unwrap().1, [], "a second reply is not collected");
    }
    let kinds = |sent: Vec<Message>| sent.iter().map(|m| m.kind).collect::<Vec<_>>();
    let mut two = c.clone();
    assert_eq!(kinds(c.message(&ok(3, &[])).unwrap().1), [5; 4]);
    assert_eq!(kinds(two.clone().message(&ok(3, &[0, 1])).unwrap().1), [3; 4]);
    assert_eq!(kinds(two.nudge(0, 1).unwrap().1), [3; 4]);

    let mut c = start.clone();
    for from in 1..=3 {
        assert_eq!(c.message(&ok(from, &[0, 1])).unwrap().1, []);
    }
    assert_eq!(kinds(c.message(&ok(4, &[0, 1])).unwrap().1), [3; 4]);
    assert_eq!(c.get(0, 1).own.deps, deps(&[0, 1]));

    let mut c = start.clone();
    c.message(&ok(2, &[])).unwrap();
    let sent = c.nudge(0, 1).unwrap().1;
    assert_eq!(sent.iter().map(|m| (m.kind, m.to)).collect::<Vec<_>>(), [(1, 1), (1, 3), (1, 4)]);
}

#[test]
fn a_commit_that_differs() {
    let mut c = Copy::blank(3, 4, 1);
    let m = Message { kind: 5, ballot: 10, ..pre_accept(0, 1, 0, &[0, 0, 1]) };
    assert_eq!(c.message(&m).unwrap().1, []);
    assert_eq!(c.get(0, 1), Rec { own: vote(0, 4, 2, 7, 100, &[0, 0, 1]), ..Rec::default() });
    assert_eq!(c.message(&Message { ballot: 8, ..m }).unwrap().1, []);
    assert_eq!(c.message(&Message { deps: [0; 7], ..m }), Err(refused(10)));
    assert_eq!(c.message(&Message { edit: 101, ..m }), Err(refused(10)));
    // What asks now is told the commit, at the joined ballot.
    let back = c.message(&pre_accept(2, 1, 10, &[])).unwrap().1;
    assert_eq!(back, [Message { kind: 5, from: 1, to: 2, ballot: 0, ..m }]);
}

#[test]
fn a_nack_ends_the_phase() {
    let mut c = Copy::blank(3, 4, 0);
    c.request(2, 7, 100).unwrap();
    let nack =
        Message { kind: 8, from: 1, to: 0, owner: 0, number: 1, joined: 10, ..Message::default() };
    assert_eq!(c.message(&nack).unwrap().1, []);
    let r = c.get(0, 1);
    assert_eq!((r.joined, r.phase, r.own.voted, r.own.status), (10, 0, 0, 2));
    assert_eq!(c.message(&Message { joined: 18, ..nack }).unwrap().1, []);
    assert_eq!(c.get(0, 1).joined, 10);
    assert_eq!(c.nudge(0, 1), Err(refused(9)));
}

/// A record that only joined a ballot is not blank.
#[test]
fn request_passes_over_joined_records() {
    let mut c = Copy::blank(3, 2, 0);
    c.put(0, 1, &Rec { joined: 9, ..Rec::default() });
    assert_eq!(c.request(2, 7, 1).unwrap().0.number, 2);
    assert_eq!(c.request(2, 7, 1), Err(refused(5)));
}

/// N=7: two that differ are not yet F.
#[test]
fn two_different_wait_for_f() {
    let mut c = Copy::blank(7, 4, 0);
    c.request(2, 7, 100).unwrap();
    let mut kinds = Vec::new();
    for from in 1..=3u8 {
        let deps = deps(&[0, from as u16]);
        let ok = Message { kind: 2, from, to: 0, owner: 0, number: 1, deps, ..Message::default() };
        kinds.push(c.message(&ok).unwrap().1.iter().map(|m| m.kind).collect::<Vec<_>>());
    }
    assert_eq!(kinds, [vec![], vec![], vec![3; 6]]);
    assert_eq!(c.get(0, 1).own.deps, deps(&[0, 3]));
}

/// Sound though no run reaches it: F replies at another ballot than 0. Nudge
/// repeats the phase's message there.
#[test]
fn nudge_goes_to_accepting_at_ballot_0_only() {
    let mut c = Copy::blank(3, 4, 0);
    let own = vote(8, 2, 2, 7, 100, &[]);
    c.put(0, 1, &Rec { joined: 8, own, phase: 2, set: 2, ..Rec::default() });
    let sent = c.nudge(0, 1).unwrap().1;
    assert_eq!(sent.iter().map(|m| (m.kind, m.to, m.ballot)).collect::<Vec<_>>(), [(1, 2, 8)]);
    // At ballot 0 it goes on even where the replies would have committed.
    let own = Vote { voted: 0, ..own };
    c.put(0, 1, &Rec { joined: 0, own, phase: 2, set: 2, ..Rec::default() });
    let sent = c.nudge(0, 1).unwrap().1;
    assert_eq!(sent.iter().map(|m| (m.kind, m.to)).collect::<Vec<_>>(), [(3, 1), (3, 2)]);
}
