//! The reader and the writer: lengths, kinds, every bound of every field.

mod common;
use common::*;
use second::fields::{self, Fields};
use second::*;

const SIZES: [(usize, usize); 6] = [(3, 1), (3, 64), (5, 1), (5, 64), (7, 1), (7, 64)];

/// The field that begins at this byte is to blame.
fn wrong(offset: usize) -> Refusal {
    Refusal::wrong_field(offset)
}

/// The kind with the same body and no rewire in it.
fn body(kind: u8) -> u8 {
    match kind {
        9 => 1,
        10 => 3,
        11 => 5,
        12 => 7,
        _ => kind,
    }
}

fn has_command(kind: u8) -> bool {
    matches!(body(kind), 1 | 3 | 5 | 7)
}

/// The bytes as docs/LAYOUT.md says, written without the library.
fn bytes_of(m: &Message) -> Vec<u8> {
    let mut b = vec![m.kind, m.from, m.to, m.owner];
    b.extend(m.number.to_le_bytes());
    b.extend(m.ballot.to_le_bytes());
    if body(m.kind) == 7 {
        b.extend(m.voted.to_le_bytes());
        b.push(m.status);
    }
    if m.kind == 8 {
        b.extend(m.joined.to_le_bytes());
    }
    if has_command(m.kind) {
        b.push(m.op);
        b.extend(m.key.to_le_bytes());
        if m.kind > 8 {
            b.extend(m.second.to_le_bytes());
        }
        b.extend(m.edit.to_le_bytes());
    }
    if has_command(m.kind) || m.kind == 2 {
        for d in m.deps {
            b.extend(d.to_le_bytes());
        }
    }
    b
}

/// A valid message to copy 1 about 2.1 at a ballot of round 3.
fn valid(kind: u8) -> Message {
    let mut m = Message { kind, from: 0, to: 1, owner: 2, number: 1, ..Message::default() };
    m.ballot = if matches!(body(kind), 1 | 3 | 6) { 24 } else { 25 };
    if has_command(kind) {
        (m.op, m.key, m.edit) = (2, 0x0403_0201, 0x0c0b_0a09_0807_0605);
    }
    if kind > 8 {
        (m.op, m.second) = (3, 0x100f_0e0d);
    }
    if has_command(kind) || kind == 2 {
        m.deps = deps(&[1, 0, 1]);
    }
    match body(kind) {
        7 => (m.voted, m.status) = (18, 3),
        8 => m.joined = 26,
        _ => {}
    }
    m
}

/// Reader at copy 1 and writer agree with what is wanted, and in what they answer to the rest.
fn check(n: usize, s: usize, m: &Message, wanted: bool) {
    let b = bytes_of(m);
    let got = read_message(n, s, 1, &b);
    assert_eq!(got.is_ok(), wanted, "reader N={n} S={s} {m:?}");
    assert!(got.is_ok_and(|read| read == *m) || got.is_err_and(|r| (31..=35).contains(&r.number)));
    if m.to != 1 {
        return;
    }
    for copy in 0..n {
        let mut out = [0xa5; 256];
        let written = write_message(n, s, copy, &mut out, m);
        let mut then = [0xa5; 256];
        if wanted {
            then[..b.len()].copy_from_slice(&b);
        }
        assert_eq!(written, got.map(|_| b.len()), "writer N={n} S={s} {m:?}");
        assert_eq!(out, then);
    }
}

fn each(mut f: impl FnMut(usize, usize, Message)) {
    for (n, s) in SIZES {
        for kind in 1..=12 {
            f(n, s, valid(kind));
        }
    }
}

#[test]
fn lengths_and_kinds() {
    for (n, s) in SIZES {
        for kind in 0..=255u8 {
            let known = (1..=12).contains(&kind);
            let base = bytes_of(&valid(if known { kind } else { 12 }));
            for length in 0..=64 {
                let mut b = base.clone();
                b.resize(length, 0);
                if length > 0 {
                    b[0] = kind;
                }
                let wanted = length > 0 && known && length == LENGTHS[kind as usize];
                assert_eq!(
                    read_message(n, s, 1, &b).is_ok(),
                    wanted,
                    "kind {kind} length {length}"
                );
                if !wanted {
                    let unknown = length == 0 || !known;
                    let reason = refused(if unknown { 31 } else { 32 });
                    assert_eq!(read_message(n, s, 1, &b), Err(reason));
                }
            }
        }
    }
}

#[test]
fn the_kind_in_the_writer() {
    for kind in [0, 13, 14, 128, 255] {
        let m = Message { kind, ..valid(4) };
        let mut out = [0xa5; 256];
        assert_eq!(write_message(3, 4, 0, &mut out, &m), Err(refused(31)));
        assert_eq!(out, [0xa5; 256]);
    }
}

#[test]
fn from_and_to() {
    each(|n, s, m| {
        check(n, s, &m, true);
        let from_lead = matches!(body(m.kind), 1 | 3 | 6);
        for from in [0, 1, 2, n as u8 - 1, n as u8, 7, 8, 255] {
            let wanted = if from_lead { from == 0 } else { from != 1 && (from as usize) < n };
            check(n, s, &Message { from, ..m }, wanted);
        }
        for to in [0, 2, n as u8 - 1, n as u8, 255] {
            check(n, s, &Message { to, ..m }, false);
        }
    });
}

/// The writer judges for the copy named in `to`, which has to be one.
#[test]
fn to_in_the_writer() {
    for (n, s) in SIZES {
        for to in 0..=255u8 {
            let from = if to == 0 { 1 } else { 0 };
            let m = Message { from, to, ..valid(5) };
            let got = write_message(n, s, 0, &mut [0; 256], &m);
            let wanted = if (to as usize) < n { Ok(37) } else { Err(wrong(2)) };
            assert_eq!(got, wanted);
        }
    }
}

#[test]
fn owner_and_number() {
    each(|n, s, m| {
        for owner in [0, n as u8 - 1, n as u8, n as u8 + 1, 255] {
            check(n, s, &Message { owner, ..m }, (owner as usize) < n);
        }
        let s16 = s as u16;
        for number in [0, 1, s16, s16 + 1, 256, 257, 65535] {
            check(n, s, &Message { number, ..m }, 1 <= number && number <= s16);
        }
    });
}

#[test]
fn ballots() {
    each(|n, s, m| {
        let lead = (m.ballot % 8) as u8;
        for ballot in [
            0,
            1,
            2,
            3,
            6,
            7,
            8,
            9,
            10,
            8 + n as u32 - 1,
            8 + n as u32,
            15,
            0xffff_fff8,
            0xffff_fff9,
            u32::MAX,
        ] {
            let is_ballot = ballot == 0 || (ballot >= 8 && ballot % 8 < n as u32);
            for owner in 0..3u8 {
                let leads = if ballot == 0 { owner } else { (ballot % 8) as u8 };
                let wanted = is_ballot
                    && (body(m.kind) == 5 || leads == lead)
                    && (!matches!(body(m.kind), 6 | 7) || ballot >= 8)
                    && (body(m.kind) != 7 || 8 < ballot)
                    && (m.kind != 8 || ballot < 0xffff_fffa);
                let joined = if m.kind == 8 { 0xffff_fffa } else { 0 };
                let voted = if body(m.kind) == 7 { 8 } else { 0 };
                check(n, s, &Message { ballot, owner, joined, voted, ..m }, wanted);
            }
        }
    });
}

#[test]
fn ballot_zero_and_no_op() {
    for (n, s) in SIZES {
        // Led by the owner; copy 0 for kinds 1 and 3, copy 1 for the answers.
        for (kind, wanted) in [(1, false), (3, true), (5, true)] {
            let m = Message { ballot: 0, owner: 0, op: 0, key: 0, edit: 0, ..valid(kind) };
            check(n, s, &m, wanted);
            check(n, s, &Message { op: 1, ..m }, true);
            check(n, s, &Message { ballot: 24, ..m }, true);
        }
        for (kind, wanted) in [(2, true), (4, true), (8, true), (7, false)] {
            let mut m = Message { ballot: 0, owner: 1, ..valid(kind) };
            if kind == 7 {
                (m.voted, m.status, m.op, m.key, m.edit, m.deps) = (0, 0, 0, 0, 0, [0; 7]);
            }
            check(n, s, &m, wanted);
        }
        check(n, s, &Message { ballot: 0, owner: 0, ..valid(6) }, false);
        check(n, s, &Message { ballot: 8, ..valid(6) }, true);
    }
}

#[test]
fn commands() {
    each(|n, s, m| {
        if !matches!(m.kind, 1 | 3 | 5 | 7) {
            return;
        }
        for op in [0, 1, 2, 3, 4, 128, 255] {
            for (key, edit) in
                [(0, 0), (1, 0), (0, 1), (u32::MAX, 0), (0, u64::MAX), (1 << 31, 1 << 63)]
            {
                let wanted = op <= 2 && (op != 0 || (key == 0 && edit == 0));
                check(n, s, &Message { op, key, edit, ..m }, wanted);
            }
        }
    });
}

#[test]
fn rewires() {
    let keys = [0, 1, 2, 255, 256, 257, 1 << 24, 1 << 31, u32::MAX - 1, u32::MAX];
    each(|n, s, m| {
        if m.kind <= 8 {
            return;
        }
        for (key, second) in keys.into_iter().flat_map(|key| keys.map(|second| (key, second))) {
            check(n, s, &Message { key, second, ..m }, key < second);
        }
        for edit in [0, 1, 1 << 63, u64::MAX] {
            check(n, s, &Message { edit, ..m }, true);
        }
        for op in [0, 1, 2, 3, 4, 128, 255] {
            check(n, s, &Message { op, ..m }, op == 3);
            check(n, s, &Message { op, key: 0, second: 0, edit: 0, ..m }, false);
        }
    });
}

#[test]
fn dependencies() {
    each(|n, s, m| {
        if !has_command(m.kind) && m.kind != 2 {
            return;
        }
        for q in 0..7 {
            for d in [0, 1, s as u16, s as u16 + 1, 64, 65, 256, 65535] {
                let mut m = m;
                m.deps[q] = d;
                check(n, s, &m, d as usize <= if q < n { s } else { 0 });
            }
        }
    });
}

#[test]
fn prepare_ok_fields() {
    for (n, s) in SIZES {
        let m = valid(7);
        for voted in [0, 1, 7, 8, 8 + n as u32 - 1, 8 + n as u32, 15, 18, 24, 25, 26, 32, u32::MAX]
        {
            let wanted = voted == 0 || (voted >= 8 && voted % 8 < n as u32 && voted < m.ballot);
            check(n, s, &Message { voted, ..m }, wanted);
        }
        for status in [0, 1, 2, 3, 4, 5, 255] {
            check(n, s, &Message { status, ..m }, (1..=3).contains(&status));
        }
        let none = Message { voted: 0, status: 0, op: 0, key: 0, edit: 0, deps: [0; 7], ..m };
        check(n, s, &none, true);
        check(n, s, &Message { voted: 8, ..none }, false);
        check(n, s, &Message { op: 1, ..none }, false);
        check(n, s, &Message { key: 1, ..none }, false);
        check(n, s, &Message { edit: 1, ..none }, false);
        for q in 0..7 {
            let mut m = none;
            m.deps[q] = 1;
            check(n, s, &m, false);
        }
        // A no-op that was voted for is no "status 0".
        check(n, s, &Message { status: 2, ..none }, true);
    }
}

#[test]
fn nack_joined() {
    for (n, s) in SIZES {
        let m = valid(8);
        for joined in
            [0, 1, 8, 24, 25, 26, 24 + n as u32 - 1, 24 + n as u32, 31, 32, 0xffff_fff8, u32::MAX]
        {
            let wanted = joined > 25 && joined % 8 < n as u32;
            check(n, s, &Message { joined, ..m }, wanted);
        }
        check(n, s, &Message { ballot: 0, owner: 1, joined: 8, ..m }, true);
        check(n, s, &Message { ballot: 0, owner: 1, joined: 1, ..m }, false);
    }
}

#[test]
fn fields_not_carried_are_refused_by_the_writer() {
    for (n, s) in SIZES {
        for kind in 1..=12u8 {
            let m = valid(kind);
            let (command, vote) = (has_command(kind), body(kind) == 7);
            let op = if kind > 8 { 3 } else { 1 };
            let all = [
                (Message { voted: 8, ..m }, vote),
                (Message { status: 1, ..m }, vote),
                (Message { joined: 32, ..m }, kind == 8),
                (Message { op, ..m }, command),
                (Message { op, key: 5, ..m }, command),
                (Message { second: u32::MAX, ..m }, kind > 8),
                (Message { second: 1, op: 9, deps: [9; 7], ..m }, false),
                (Message { op, edit: 5, ..m }, command),
                (Message { deps: deps(&[0, 0, 1]), ..m }, command || kind == 2),
            ];
            // A rewire has a place for each of these.
            let all = all.into_iter().filter(|(m, _)| kind <= 8 || m.op == 3);
            for (m, carried) in all {
                let mut out = [0xa5; 256];
                let got = write_message(n, s, 0, &mut out, &m);
                if carried {
                    assert_eq!(got, Ok(LENGTHS[kind as usize]));
                } else {
                    assert_eq!((got, out), (Err(refused(32)), [0xa5; 256]), "{m:?}");
                }
            }
        }
    }
}

#[test]
fn setup_and_room() {
    let m = valid(5);
    let b = bytes_of(&m);
    for (n, s, copy) in [
        (0, 4, 0),
        (1, 4, 0),
        (2, 4, 1),
        (4, 4, 1),
        (6, 4, 1),
        (8, 4, 1),
        (9, 4, 1),
        (3, 0, 1),
        (3, 65, 1),
        (3, 4, 3),
        (7, 64, 7),
        (usize::MAX, 4, 1),
        (3, usize::MAX, 1),
        (3, 4, usize::MAX),
        (3, 4, 257),
        (259, 4, 1),
        (3, 260, 1),
    ] {
        assert_eq!(read_message(n, s, copy, &b), Err(refused(1)));
        assert_eq!(read_message(n, s, copy, &[]), Err(refused(1)));
        let mut out = [0xa5; 256];
        assert_eq!(write_message(n, s, copy, &mut out, &m), Err(refused(1)));
        assert_eq!(write_message(n, s, copy, &mut out[..9], &m), Err(refused(1)));
        assert_eq!(out, [0xa5; 256]);
    }
    let wrong = Message { kind: 0, ..m };
    for room in [0, 10, 37, 255] {
        let mut out = vec![0xa5; room];
        assert_eq!(write_message(3, 4, 0, &mut out, &m), Err(refused(2)));
        assert_eq!(write_message(3, 4, 0, &mut out, &wrong), Err(refused(2)));
        assert!(out.iter().all(|&b| b == 0xa5));
    }
    let mut out = [0xa5; 257];
    assert_eq!(write_message(3, 4, 0, &mut out, &m), Ok(37));
    assert!(out[37..].iter().all(|&b| b == 0xa5));
}

/// Whatever bytes are read are written back the same, and only valid ones are
/// read: each byte of a valid message is set to many values.
#[test]
fn round_trips() {
    let mut random = Random(1);
    let (mut read, mut refused) = (0, 0);
    for _ in 0..200_000 {
        let (n, s) = SIZES[random.below(6) as usize];
        let mut b = bytes_of(&valid(1 + random.below(12) as u8));
        for _ in 0..random.below(4) {
            let at = random.below(b.len() as u64) as usize;
            b[at] = if random.chance(70) { random.below(9) as u8 } else { random.next() as u8 };
        }
        match read_message(n, s, 1, &b) {
            Ok(m) => {
                let mut out = [0xa5; 256];
                assert_eq!(write_message(n, s, 0, &mut out, &m), Ok(b.len()));
                assert_eq!(out[..b.len()], b);
                assert_eq!(bytes_of(&m), b);
                read += 1;
            }
            Err(r) => {
                assert!((31..=35).contains(&r.number), "{r}");
                refused += 1;
            }
        }
    }
    assert!(read > 20_000 && refused > 20_000, "{read} {refused}");
}

/// A message at copy 1 of N = 3, S = 4, and what is answered to it.
#[track_caller]
fn answered(m: Message, reason: Refusal) {
    assert_eq!(read_message(3, 4, 1, &bytes_of(&m)), Err(reason), "{m:?}");
}

fn with_entry(m: Message, q: usize, entry: u16) -> Message {
    let mut changed = m;
    changed.deps[q] = entry;
    changed
}

/// Each clause about the head by itself, for every kind.
#[test]
fn reasons_of_the_head() {
    for kind in 1..=12 {
        let m = valid(kind);
        answered(Message { from: 3, ..m }, wrong(1));
        answered(Message { to: 3, ..m }, wrong(2));
        answered(Message { owner: 3, ..m }, wrong(3));
        answered(Message { number: 0, ..m }, wrong(4));
        answered(Message { number: 5, ..m }, wrong(4));
        answered(Message { ballot: 7, ..m }, wrong(6));
        answered(Message { ballot: 27, ..m }, wrong(6));
        answered(Message { to: 2, ..m }, refused(33));
        answered(Message { from: 1, ..m }, refused(33));
        let other_lead = Message { ballot: 26, joined: 2 * m.joined, ..m };
        match body(kind) {
            5 => assert!(read_message(3, 4, 1, &bytes_of(&other_lead)).is_ok()),
            _ => answered(other_lead, refused(34)),
        }
        match body(kind) {
            5 => {}
            6 | 7 => answered(Message { ballot: 0, owner: 1, ..m }, wrong(6)),
            _ => answered(Message { ballot: 0, owner: 2, ..m }, refused(34)),
        }
    }
}

/// Each clause about a command or dependencies by itself, with the offsets of the kind.
#[test]
fn reasons_of_commands_and_dependencies() {
    for (kind, at) in [(1, 10), (3, 10), (5, 10), (7, 15)] {
        let m = valid(kind);
        let no_op = Message { op: 0, key: 0, edit: 0, ..m };
        answered(Message { op: 3, ..m }, wrong(at));
        answered(Message { key: 1, ..no_op }, wrong(at + 1));
        answered(Message { edit: 1, ..no_op }, wrong(at + 5));
        answered(Message { op: 0, ..m }, wrong(at + 1));
        answered(Message { op: 0, key: 0, ..m }, wrong(at + 5));
    }
    let no_op = Message { op: 0, key: 0, edit: 0, ..valid(1) };
    answered(Message { ballot: 0, owner: 0, ..no_op }, wrong(10));
    answered(Message { ballot: 0, owner: 0, key: 1, ..no_op }, wrong(10));
    let first_entries = [(1, 23), (2, 10), (3, 23), (5, 23), (7, 28)];
    for (kind, at) in first_entries.into_iter().chain([(9, 27), (10, 27), (11, 27), (12, 32)]) {
        for q in 0..7 {
            let above = if q < 3 { 5 } else { 1 };
            answered(with_entry(valid(kind), q, above), wrong(at + 2 * q));
            let two = with_entry(with_entry(valid(kind), 6, 1), q, above);
            answered(two, wrong(at + 2 * q));
        }
    }
}

/// A rewire's op is no other; its keys rise, and the second is to blame if they do not; its edit is never wrong.
#[test]
fn reasons_of_rewires() {
    for (kind, at) in [(9, 10), (10, 10), (11, 10), (12, 15)] {
        let m = valid(kind);
        for op in [0, 1, 2, 4, 255] {
            answered(Message { op, ..m }, wrong(at));
            answered(Message { op, key: 9, second: 9, ..m }, wrong(at));
            answered(Message { op, key: 0, second: 0, edit: 0, ..m }, wrong(at));
        }
        answered(Message { second: m.key, ..m }, wrong(at + 5));
        answered(Message { second: m.key - 1, ..m }, wrong(at + 5));
        answered(Message { key: m.second, ..m }, wrong(at + 5));
        answered(Message { second: 0, deps: [9; 7], ..m }, wrong(at + 5));
        answered(Message { second: 0, to: 2, ..m }, refused(33));
        // At ballot 0 too, where only a no-op may not stand.
        let first = Message { ballot: 0, owner: 0, ..m };
        match kind {
            12 => answered(first, wrong(6)),
            _ => assert!(read_message(3, 4, 1, &bytes_of(&first)).is_ok()),
        }
    }
    // A vote for nothing has no command, and a rewire is one: the op is to blame, whatever stands there.
    let m = Message { voted: 0, status: 0, ..valid(12) };
    for op in [0, 1, 2, 3, 4] {
        answered(Message { op, ..m }, wrong(15));
        answered(Message { op, key: 0, second: 0, edit: 0, deps: [0; 7], ..m }, wrong(15));
    }
    answered(Message { voted: 8, ..m }, wrong(14));
}

/// The clauses that only kinds 7 and 8 have.
#[test]
fn reasons_of_votes() {
    let m = valid(7);
    let none = Message { voted: 0, status: 0, op: 0, key: 0, edit: 0, deps: [0; 7], ..m };
    for voted in [7, 19, 25, 26, u32::MAX] {
        answered(Message { voted, ..m }, wrong(10));
        answered(Message { voted, ..none }, wrong(10));
    }
    answered(Message { status: 4, ..m }, wrong(14));
    answered(Message { status: 0, ..m }, wrong(14));
    answered(Message { status: 0, voted: 0, ..m }, wrong(15));
    answered(Message { voted: 8, ..none }, wrong(14));
    answered(Message { op: 1, ..none }, wrong(15));
    answered(Message { key: 1, ..none }, wrong(16));
    answered(Message { edit: 1, ..none }, wrong(20));
    for q in 0..7 {
        answered(with_entry(none, q, 1), wrong(28 + 2 * q));
    }
    for joined in [0, 7, 25, 27, u32::MAX] {
        answered(Message { joined, ..valid(8) }, wrong(10));
    }
}

/// Each reason before the next, all of the later ones holding too.
#[test]
fn order_of_reasons() {
    let mut b = bytes_of(&Message { op: 0, key: 0, edit: 0, ..valid(7) });
    let wrongs: [(usize, &[u8]); 12] = [
        (40, &[9]),
        (28, &[9]),
        (20, &[1]),
        (16, &[1]),
        (15, &[9]),
        (14, &[9]),
        (10, &[7, 0, 0, 0]),
        (6, &[26]),
        (6, &[27]),
        (4, &[9]),
        (3, &[9]),
        (2, &[9]),
    ];
    for (at, bytes) in wrongs {
        b[at..at + bytes.len()].copy_from_slice(bytes);
        let reason = if bytes == [26] { refused(34) } else { wrong(at) };
        assert_eq!(read_message(3, 4, 1, &b), Err(reason), "at {at}");
    }
    b[1] = 9;
    assert_eq!(read_message(3, 4, 1, &b), Err(wrong(1)));
    b.push(0);
    assert_eq!(read_message(3, 4, 1, &b), Err(refused(32)));
    b[0] = 13;
    assert_eq!(read_message(3, 4, 1, &b), Err(refused(31)));
    let m = Message { from: 1, ballot: 26, ..valid(7) };
    answered(m, refused(33));
    answered(Message { number: 0, ..m }, wrong(4));
    answered(Message { voted: 7, ..m }, refused(33));
}

/// Every clause alone and every two together, beside the reasons that the generator gives; the writer answers the same
/// of what goes to that copy, but for an op that its kind does not take.
#[test]
fn pairs_of_clauses() {
    let mut count = 0;
    for (n, s) in SIZES {
        for copy in 0..n {
            broken::each(n, s, copy, &mut |case| {
                count += 1;
                let got = read_message(n, s, copy, case.bytes);
                assert_eq!(got, Err(case.reason), "N={n} S={s} copy {copy} {:?}", case.bytes);
                let Some(f) = case.fields.filter(|f| f[2] == copy as u64 && takes(f)) else {
                    return;
                };
                let mut out = [0xa5; 256];
                let got = fields::write(n, s, 0, &mut out, &f);
                assert_eq!((got, out), (Err(case.reason), [0xa5; 256]), "N={n} S={s} {f:?}");
            });
        }
    }
    assert!(count > 100_000, "{count}");
}

/// The op is one of those that travel in the kind; an unknown kind has none.
fn takes(f: &Fields) -> bool {
    f[0] > 12 || broken::takes(f[0] as u8, f[8])
}

fn written(f: &Fields) -> Result<usize, Refusal> {
    fields::write(3, 4, 0, &mut [0; 256], f)
}

/// A number that its place cannot hold: after kind and length, before all else, the first in the order of the numbers.
#[test]
fn numbers_too_large() {
    let (byte, two, four) = (255, 65_535, u32::MAX as u64);
    let most = [byte, byte, byte, two, four, four, byte, 3, four, four, u64::MAX];
    let most = most.into_iter().chain([two; 7]);
    let offsets = [1, 2, 3, 4, 6, 10, 14, 15, 16, 20, 24, 32, 34, 36, 38, 40, 42, 44];
    let whole = fields::fields(&valid(12));
    for (at, (offset, most)) in (1..19).zip(offsets.into_iter().zip(most)) {
        let Some(above) = most.checked_add(1) else { continue };
        for value in [above, u64::MAX] {
            let mut f = whole;
            f[at] = value;
            assert_eq!(written(&f), Err(wrong(offset)));
            f[1] = f[1].max(200);
            assert_eq!(written(&f), Err(wrong(offset)), "before a sender out of range");
            f[18] = u64::MAX;
            assert_eq!(written(&f), Err(wrong(offset)), "the first of two");
            for kind in [1, 7, 9] {
                f[0] = kind;
                assert_eq!(written(&f), Err(refused(32)), "after a number beside");
            }
            f[0] = 256 + 12;
            assert_eq!(written(&f), Err(refused(31)));
        }
    }
}

/// Which ops the op's place holds is up to the kind; which number of two is to blame is not.
#[test]
fn ops_of_kinds() {
    for kind in [1, 3, 5, 7, 9, 10, 11, 12] {
        let at = if body(kind) == 7 { 15 } else { 10 };
        for op in [0, 1, 2, 3, 4, 255, 256, 256 + 3, u64::MAX] {
            let mut f = fields::fields(&valid(kind));
            f[8] = op;
            let held = if kind > 8 { op == 3 } else { op <= 2 };
            assert_eq!(written(&f) != Err(wrong(at)), held, "kind {kind} op {op}");
            f[1] = 200;
            assert_eq!(written(&f), Err(wrong(if held { 1 } else { at })));
            f[10] = 1;
            let beside = Err(if kind > 8 { wrong(if held { 1 } else { at }) } else { refused(32) });
            assert_eq!(written(&f), beside);
            f[5] = u64::MAX;
            assert_eq!(written(&f), if kind > 8 { Err(wrong(6)) } else { Err(refused(32)) });
        }
    }
}
