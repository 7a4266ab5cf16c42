//! Blank tables, lengths, the record's part, and each clause of soundness.

mod common;
use common::*;
use second::*;

const SIZES: [(usize, usize); 6] = [(3, 1), (3, 64), (5, 1), (5, 64), (7, 1), (7, 64)];

const BAD_SETUPS: [(usize, usize, usize); 16] = [
    (0, 4, 0),
    (1, 4, 0),
    (2, 4, 1),
    (4, 4, 1),
    (6, 4, 1),
    (8, 4, 1),
    (9, 4, 1),
    (3, 0, 1),
    (3, 65, 1),
    (3, 4, 3),
    (7, 64, 7),
    (usize::MAX, 4, 1),
    (3, usize::MAX, 1),
    (3, 4, usize::MAX),
    (259, 4, 1),
    (3, 260, 1),
];

#[test]
fn lengths() {
    for n in [3, 5, 7] {
        for s in 1..=64 {
            assert_eq!(table_len(n, s), 3 + RECORD * n * s);
            for copy in 0..n {
                let mut t = vec![0xa5; table_len(n, s)];
                assert_eq!(blank_table(&mut t, n, s, copy), Ok(()));
                assert_eq!(t[..3], [n as u8, s as u8, copy as u8]);
                assert!(t[3..].iter().all(|&b| b == 0));
                assert_eq!(judge_table(&t, n, s, copy), Ok(()));
            }
        }
    }
    for (n, s) in SIZES {
        for len in [0, 2, 3, table_len(n, s) - 1, table_len(n, s) + 1] {
            let mut t = vec![0xa5; len];
            assert_eq!(blank_table(&mut t, n, s, 0), Err(refused(1)));
            assert!(t.iter().all(|&b| b == 0xa5));
            assert_eq!(judge_table(&t, n, s, 0), Err(refused(1)));
            assert_eq!(record_part(&t, n, s, 0, 0, 1), (0, 0));
        }
    }
}

/// Refusal 1 comes first everywhere, and touches nothing.
#[test]
fn wrong_setups() {
    for (n, s, c) in BAD_SETUPS {
        let mut t = Copy::blank(3, 4, 1).t;
        let (before, mut out, mut list) = (t.clone(), [0xa5; 9], [7; 3]);
        assert_eq!(judge_table(&t, n, s, c), Err(refused(1)));
        assert_eq!(blank_table(&mut t, n, s, c), Err(refused(1)));
        assert_eq!(record_part(&t, n, s, c, 0, 1), (0, 0));
        assert_eq!(request(&mut t, n, s, c, &mut out, 0, 0, 0, 0), Err(refused(1)));
        assert_eq!(message(&mut t, n, s, c, &mut out, &[]), Err(refused(1)));
        assert_eq!(recover(&mut t, n, s, c, &mut out, 9, 9), Err(refused(1)));
        assert_eq!(nudge(&mut t, n, s, c, &mut out, 9, 9), Err(refused(1)));
        assert_eq!(settled(&t, n, s, c, 9, 9), Err(refused(1)));
        assert_eq!(hand_out(&mut t, n, s, c, &mut list), Err(refused(1)));
        assert_eq!((t, out, list), (before, [0xa5; 9], [7; 3]));
    }
}

/// Refusals 11, 2, 3, 4, 6 in their order.
#[test]
fn order_of_refusals() {
    let mut t = Copy::blank(3, 4, 1).t;
    t[3 + 40] = 1;
    let before = t.clone();
    let mut out = [0xa5; 255];
    let mut list = [7; 3];
    assert_eq!(request(&mut t, 3, 4, 1, &mut out, 0, 0, 0, 0), Err(refused(11)));
    assert_eq!(message(&mut t, 3, 4, 1, &mut out, &[]), Err(refused(11)));
    assert_eq!(recover(&mut t, 3, 4, 1, &mut out, 9, 9), Err(refused(11)));
    assert_eq!(nudge(&mut t, 3, 4, 1, &mut out, 9, 9), Err(refused(11)));
    assert_eq!(settled(&t, 3, 4, 1, 9, 9), Err(refused(11)));
    assert_eq!(hand_out(&mut t, 3, 4, 1, &mut list), Err(refused(11)));
    assert_eq!(record_part(&t, 3, 4, 1, 2, 4), (3 + RECORD * 11, RECORD));
    assert_eq!((&t, list), (&before, [7; 3]));

    let mut t = Copy::blank(3, 4, 1).t;
    let before = t.clone();
    assert_eq!(request(&mut t, 3, 4, 1, &mut out, 0, 0, 0, 0), Err(refused(2)));
    assert_eq!(message(&mut t, 3, 4, 1, &mut out, &[]), Err(refused(2)));
    assert_eq!(recover(&mut t, 3, 4, 1, &mut out, 9, 9), Err(refused(2)));
    assert_eq!(nudge(&mut t, 3, 4, 1, &mut out, 9, 9), Err(refused(2)));
    assert_eq!(out, [0xa5; 255]);

    let mut out = [0xa5; 256];
    assert_eq!(message(&mut t, 3, 4, 1, &mut out, &[]), Err(refused(31)));
    for op in [0, 3, 255] {
        assert_eq!(request(&mut t, 3, 4, 1, &mut out, op, 0, 0, 0), Err(refused(4)));
    }
    for (o, j) in [(3, 1), (0, 0), (0, 5), (usize::MAX, 1), (0, usize::MAX), (256, 1), (0, 257)] {
        assert_eq!(recover(&mut t, 3, 4, 1, &mut out, o, j), Err(refused(6)));
        assert_eq!(nudge(&mut t, 3, 4, 1, &mut out, o, j), Err(refused(6)));
        assert_eq!(settled(&t, 3, 4, 1, o, j), Err(refused(6)));
        assert_eq!(record_part(&t, 3, 4, 1, o, j), (0, 0));
    }
    assert_eq!(nudge(&mut t, 3, 4, 1, &mut out, 0, 1), Err(refused(9)));
    assert_eq!((&t, out), (&before, [0xa5; 256]));

    // A committed record at the last round: 8 before 7. Op 0 with no blank: 4 before 5.
    let mut c = Copy::blank(3, 1, 1);
    c.put(1, 1, &Rec { joined: 4_294_967_288, ..Rec::committed(1, &[]) });
    assert_eq!(c.recover(1, 1), Err(refused(8)));
    assert_eq!(c.request(0, 0, 0), Err(refused(4)));
    assert_eq!(c.request(1, 0, 0), Err(refused(5)));
}

#[test]
fn parts() {
    for (n, s) in SIZES {
        let c = Copy::blank(n, s, n - 1);
        let mut next = 3;
        for o in 0..n {
            for j in 1..=s {
                assert_eq!(record_part(&c.t, n, s, n - 1, o, j), (next, RECORD));
                next += RECORD;
            }
        }
        assert_eq!(next, c.t.len());
        for (o, j) in [(n, 1), (0, 0), (0, s + 1), (usize::MAX, 1), (0, usize::MAX)] {
            assert_eq!(record_part(&c.t, n, s, n - 1, o, j), (0, 0));
        }
    }
}

#[test]
fn the_head() {
    let t = Copy::blank(3, 4, 1).t;
    for at in 0..3 {
        for value in 0..=255 {
            let mut t = t.clone();
            let same = t[at] == value;
            t[at] = value;
            assert_eq!(judge_table(&t, 3, 4, 1), if same { Ok(()) } else { Err(refused(11)) });
        }
    }
    assert_eq!(judge_table(&t, 3, 4, 2), Err(refused(11)));
}

/// Sound or not, the record standing at owner o, first and last number.
fn is_sound(n: usize, s: usize, copy: usize, o: usize, r: &Rec) -> bool {
    let mut answers = Vec::new();
    for j in [1, s] {
        let mut c = Copy::blank(n, s, copy);
        c.put(o, j, r);
        answers.push(match c.judge() {
            Ok(()) => true,
            Err(r) => {
                assert_eq!(r, refused(11));
                false
            }
        });
    }
    assert_eq!(answers[0], answers[1]);
    answers[0]
}

/// Records of every status and phase, sound at copy 1 with owner 1.
fn sound_records(n: usize) -> Vec<Rec> {
    let v = |voted, status| vote(voted, status, 2, 7, 9, &[1, 0, 1]);
    let mut all = vec![
        Rec::default(),
        Rec { joined: 8, ..Rec::default() },
        Rec { own: v(0, 4), ..Rec::default() },
        Rec { joined: 10, own: v(8, 4), mark: 1, ..Rec::default() },
        // Nothing voted, committed by message.
        Rec { joined: 10, own: vote(0, 4, 0, 0, 0, &[]), ..Rec::default() },
    ];
    for status in 1..=3 {
        all.push(Rec { own: v(0, status), ..Rec::default() });
        all.push(Rec { joined: 17, own: v(9, status), ..Rec::default() });
        all.push(Rec { joined: 9, own: v(9, status), ..Rec::default() });
    }
    for own in [Vote::default(), v(0, 1), v(8, 2), v(16, 3)] {
        let mut r = Rec { joined: 17, own, phase: 1, set: 2, ..Rec::default() };
        r.replies[1] = own;
        all.push(r);
        if n >= 5 {
            r.set |= 4;
            all.push(r);
            r.replies[2] = v(10, 3);
            all.push(r);
        }
    }
    for joined in [0, 9] {
        for status in [1, 2] {
            let mut r = Rec { joined, own: v(joined, status), phase: 2, ..Rec::default() };
            all.push(r);
            r.set = 5;
            r.replies[2] = reply_deps(&[1, 1, 1]);
            all.push(r);
            r.set = (1 << n) - 1 - 2;
            all.push(r);
        }
        let mut r = Rec { joined, own: v(joined, 3), phase: 3, ..Rec::default() };
        all.push(r);
        r.set = (1 << n) - 1 - 2;
        all.push(r);
    }
    all.push(Rec { joined: 9, own: vote(9, 2, 0, 0, 0, &[]), phase: 2, ..Rec::default() });
    all.push(Rec { own: vote(0, 3, 0, 0, 0, &[]), phase: 3, ..Rec::default() });
    all
}

#[test]
fn sound_ones_are_taken() {
    for (n, s) in SIZES {
        for r in sound_records(n) {
            assert!(is_sound(n, s, 1, 1, &r), "N={n} S={s} {r:?}");
        }
    }
}

type Command = (u8, u32, u32, u64);

/// Op, key, second key and edit, and whether a vote may be for them.
fn commands() -> Vec<(Command, bool)> {
    let mut all = Vec::new();
    for op in [0, 1, 2, 3, 4, 255] {
        for key in [0, 1, 7, 256, u32::MAX] {
            for second in [0, 1, 8, 255, u32::MAX] {
                for edit in [0, 1, 1 << 63] {
                    let wanted = match op {
                        0 => (key, second, edit) == (0, 0, 0),
                        1 | 2 => second == 0,
                        3 => key < second,
                        _ => false,
                    };
                    all.push(((op, key, second, edit), wanted));
                }
            }
        }
    }
    all
}

fn with(v: Vote, (op, key, second, edit): Command) -> Vote {
    Vote { op, key, second, edit, ..v }
}

#[test]
fn ranges() {
    for (n, s) in SIZES {
        let base = Rec { joined: 0xffff_fff8, own: vote(0, 4, 2, 7, 9, &[]), ..Rec::default() };
        for b in [0, 1, 7, 8, 8 + n as u32 - 1, 8 + n as u32, 15, 16, 0xffff_fff8, u32::MAX] {
            let is_ballot = b == 0 || (b >= 8 && b % 8 < n as u32);
            assert_eq!(is_sound(n, s, 1, 1, &Rec { joined: b, ..base }), is_ballot);
            let mut r = base;
            r.own.voted = b;
            assert_eq!(is_sound(n, s, 1, 1, &r), is_ballot);
        }
        for (command, wanted) in commands() {
            let r = Rec { own: with(base.own, command), ..base };
            assert_eq!(is_sound(n, s, 1, 1, &r), wanted, "{command:?}");
        }
        for status in 0..=255 {
            let mut r = base;
            r.own.status = status;
            assert_eq!(is_sound(n, s, 1, 1, &r), (1..=4).contains(&status));
        }
        for q in 0..7 {
            for d in [0, 1, s as u16, s as u16 + 1, 256, 65535] {
                let mut r = base;
                r.own.deps[q] = d;
                assert_eq!(is_sound(n, s, 1, 1, &r), d as usize <= if q < n { s } else { 0 });
            }
        }
        for mark in 0..=255 {
            assert_eq!(is_sound(n, s, 1, 1, &Rec { mark, ..base }), mark <= 1);
        }
        for phase in 1..=255 {
            assert!(!is_sound(n, s, 1, 1, &Rec { phase, ..base }));
        }
    }
}

#[test]
fn voted_and_joined() {
    let own = vote(16, 3, 2, 7, 9, &[]);
    for (joined, wanted) in [(0, false), (10, false), (16, true), (17, true)] {
        assert_eq!(is_sound(3, 4, 1, 1, &Rec { joined, own, ..Rec::default() }), wanted);
    }
}

#[test]
fn status_0_is_empty() {
    let r = Rec { joined: 16, ..Rec::default() };
    assert!(is_sound(3, 4, 1, 1, &r));
    for own in [
        vote(8, 0, 0, 0, 0, &[]),
        vote(0, 0, 1, 0, 0, &[]),
        vote(0, 0, 0, 1, 0, &[]),
        rewire(0, 0, 7, 8, 9, &[]),
        Vote { second: 1, ..Vote::default() },
        vote(0, 0, 0, 0, 1, &[]),
        vote(0, 0, 0, 0, 0, &[1]),
        vote(0, 0, 0, 0, 0, &[0, 0, 1]),
    ] {
        assert!(!is_sound(3, 4, 1, 1, &Rec { own, ..r }));
    }
}

#[test]
fn the_mark_is_only_on_status_4() {
    for r in sound_records(5) {
        assert_eq!(is_sound(5, 4, 1, 1, &Rec { mark: 1, ..r }), r.own.status == 4);
    }
}

#[test]
fn phase_0_has_nothing_collected() {
    for (n, s) in SIZES {
        for r in sound_records(n).iter().filter(|r| r.phase == 0) {
            for bit in 0..8 {
                assert!(!is_sound(n, s, 1, 1, &Rec { set: 1 << bit, ..*r }));
            }
            let bytes = r.bytes();
            for at in REPLIES..RECORD {
                let mut c = Copy::blank(n, s, 1);
                let mut bytes = bytes.clone();
                bytes[at] = 1;
                c.put(1, 1, &Rec::from(&bytes));
                assert_eq!(c.judge(), Err(refused(11)));
            }
        }
    }
}

#[test]
fn a_phase_is_led_here() {
    for (n, s) in SIZES {
        for r in sound_records(n).iter().filter(|r| r.phase != 0) {
            // Ballot 0 is led by the owner, any other by its own lead.
            for o in 0..n {
                assert_eq!(is_sound(n, s, 1, o, r), r.joined != 0 || o == 1);
            }
            let mut other = *r;
            other.joined = 26;
            if r.phase != 1 {
                other.own.voted = 26;
            }
            assert!(!is_sound(n, s, 1, 1, &other));
            let mut committed = *r;
            committed.own.status = 4;
            assert!(!is_sound(n, s, 1, 1, &committed));
            for phase in 4..=255 {
                assert!(!is_sound(n, s, 1, 1, &Rec { phase, ..*r }));
            }
        }
    }
}

#[test]
fn preparing() {
    for n in [3usize, 5, 7] {
        let f = (n - 1) / 2;
        let own = vote(16, 2, 2, 7, 9, &[1]);
        let mut base = Rec { joined: 17, own, phase: 1, set: 2, ..Rec::default() };
        base.replies[1] = own;
        assert!(is_sound(n, 4, 1, 1, &base));
        // Joined at least 8, voted below it.
        let mut r = base;
        (r.joined, r.own.voted, r.replies[1].voted) = (0, 0, 0);
        assert!(!is_sound(n, 4, 1, 1, &r));
        let mut r = base;
        (r.own.voted, r.replies[1].voted) = (17, 17);
        assert!(!is_sound(n, 4, 1, 1, &r));
        // The set holds this copy and at most F members, all of them copies.
        for set in 0..=255u8 {
            let mut r = Rec { set, ..base };
            if set & 2 == 0 {
                r.replies[1] = Vote::default();
            }
            let wanted = set & 2 != 0 && set.count_ones() as usize <= f && set >> n == 0;
            assert_eq!(is_sound(n, 4, 1, 1, &r), wanted, "N={n} set {set}");
            // Also where the own reply is all zero.
            let r = Rec { joined: 17, phase: 1, set, ..Rec::default() };
            assert_eq!(is_sound(n, 4, 1, 1, &r), wanted, "N={n} set {set}");
        }
        // The own reply is the record's.
        for at in 0..VOTE {
            let mut bytes = base.bytes();
            bytes[REPLIES + VOTE + at] ^= 1;
            assert!(!is_sound(n, 4, 1, 1, &Rec::from(&bytes)));
        }
        // Places outside the set are zero.
        for q in (0..7).filter(|&q| q != 1) {
            for at in 0..VOTE {
                let mut bytes = base.bytes();
                bytes[REPLIES + VOTE * q + at] = 1;
                assert!(!is_sound(n, 4, 1, 1, &Rec::from(&bytes)));
            }
        }
    }
}

/// Copy 1 prepares at ballot 17: whether this, collected from copy 2, makes a sound record.
fn collected(n: usize, s: usize, v: Vote) -> bool {
    let mut r = Rec { joined: 17, phase: 1, set: 6, ..Rec::default() };
    r.replies[2] = v;
    is_sound(n, s, 1, 1, &r)
}

#[test]
fn collected_prepare_ok() {
    for (n, s) in [(5, 1), (5, 64), (7, 1), (7, 64)] {
        let v = vote(16, 3, 2, 7, 9, &[1]);
        let judge = |v: Vote, wanted: bool| assert_eq!(collected(n, s, v), wanted, "{v:?}");
        judge(v, true);
        judge(Vote::default(), true);
        for voted in [0, 1, 7, 8, 8 + n as u32 - 1, 8 + n as u32, 15, 16, 17, 18, 24] {
            let wanted = voted == 0 || (voted >= 8 && voted % 8 < n as u32 && voted < 17);
            judge(Vote { voted, ..v }, wanted);
        }
        for status in 0..=255 {
            judge(Vote { status, ..v }, (1..=3).contains(&status));
        }
        for (command, wanted) in commands() {
            judge(with(v, command), wanted);
        }
        for q in 0..7 {
            for d in [0, s as u16, s as u16 + 1, 256] {
                let mut v = v;
                v.deps[q] = d;
                judge(v, d as usize <= if q < n { s } else { 0 });
            }
        }
    }
}

#[test]
fn collected_without_a_vote() {
    for v in [
        vote(8, 0, 0, 0, 0, &[]),
        vote(0, 0, 1, 0, 0, &[]),
        vote(0, 0, 0, 1, 0, &[]),
        rewire(0, 0, 7, 8, 9, &[]),
        Vote { second: 1, ..Vote::default() },
        vote(0, 0, 0, 0, 1, &[]),
        vote(0, 0, 0, 0, 0, &[1]),
    ] {
        for (n, s) in [(5, 1), (5, 64), (7, 1), (7, 64)] {
            assert!(!collected(n, s, v), "{v:?}");
        }
    }
}

/// Setups and joined ballots, with a record of copy 1 that pre-accepts.
fn pre_accepting_records() -> Vec<(usize, usize, Rec)> {
    let mut all = Vec::new();
    for n in [3, 5, 7] {
        for joined in [0, 9] {
            for s in [1, 64] {
                let own = vote(joined, 2, 2, 7, 9, &[1]);
                all.push((n, s, Rec { joined, own, phase: 2, set: 4, ..Rec::default() }));
            }
        }
    }
    all
}

#[test]
fn pre_accepting() {
    for (n, s, base) in pre_accepting_records() {
        for status in 0..=4 {
            let mut r = base;
            r.own.status = status;
            assert_eq!(is_sound(n, s, 1, 1, &r), status == 1 || status == 2);
        }
        let mut r = base;
        (r.own.op, r.own.key, r.own.edit) = (0, 0, 0);
        assert_eq!(is_sound(n, s, 1, 1, &r), base.joined != 0);
        if base.joined != 0 {
            let mut r = base;
            r.own.voted = 8;
            assert!(!is_sound(n, s, 1, 1, &r));
        }
        for set in 0..=255u8 {
            let wanted = set & 2 == 0 && set >> n == 0;
            assert_eq!(is_sound(n, s, 1, 1, &Rec { set, ..base }), wanted);
        }
    }
}

/// A reply holds dependencies only, in range, and those of a member.
#[test]
fn pre_accepting_replies() {
    for (n, s, base) in pre_accepting_records() {
        for at in 0..22 {
            let mut bytes = base.bytes();
            bytes[REPLIES + 2 * VOTE + at] = 1;
            assert!(!is_sound(n, s, 1, 1, &Rec::from(&bytes)));
        }
        for q in 0..7 {
            for d in [0, s as u16, s as u16 + 1, 256] {
                let mut r = base;
                r.replies[2].deps[q] = d;
                let wanted = d as usize <= if q < n { s } else { 0 };
                assert_eq!(is_sound(n, s, 1, 1, &r), wanted);
                r.set = 0;
                assert_eq!(is_sound(n, s, 1, 1, &r), d == 0);
            }
        }
    }
}

#[test]
fn accepting() {
    for n in [3usize, 5, 7] {
        for joined in [0, 9] {
            let own = vote(joined, 3, 2, 7, 9, &[1]);
            let base = Rec { joined, own, phase: 3, set: 4, ..Rec::default() };
            for status in 0..=4 {
                let mut r = base;
                r.own.status = status;
                assert_eq!(is_sound(n, 4, 1, 1, &r), status == 3);
            }
            if joined != 0 {
                let mut r = base;
                r.own.voted = 8;
                assert!(!is_sound(n, 4, 1, 1, &r));
            }
            for set in 0..=255u8 {
                let wanted = set & 2 == 0 && set >> n == 0;
                assert_eq!(is_sound(n, 4, 1, 1, &Rec { set, ..base }), wanted);
            }
            for at in REPLIES..RECORD {
                let mut bytes = base.bytes();
                bytes[at] = 1;
                assert!(!is_sound(n, 4, 1, 1, &Rec::from(&bytes)));
            }
        }
    }
}

/// Every record is judged, wherever it stands.
#[test]
fn every_place_is_judged() {
    for (n, s) in SIZES {
        let blank = Copy::blank(n, s, 1);
        for o in 0..n {
            for j in 1..=s {
                let mut c = blank.clone();
                c.put(o, j, &Rec { mark: 1, ..Rec::default() });
                assert_eq!(c.judge(), Err(refused(11)));
            }
        }
    }
}

/// A record as it stood before commands had a second key.
fn old_bytes(r: &Rec) -> Vec<u8> {
    let whole = r.bytes();
    let vote = |at: usize| [&whole[at..at + 10], &whole[at + 14..at + VOTE]].concat();
    let mut b = [&whole[..4], &vote(4), &whole[40..REPLIES]].concat();
    (0..7).for_each(|q| b.extend(vote(REPLIES + VOTE * q)));
    assert_eq!(b.len(), 263);
    b
}

/// Copy 1's table in the old layout, blank but for this record in the first place of a row.
fn old_table(n: usize, s: usize, o: usize, r: &Rec) -> Vec<u8> {
    let mut t = vec![0; 3 + 263 * n * s];
    t[..3].copy_from_slice(&[n as u8, s as u8, 1]);
    let at = 3 + 263 * o * s;
    t[at..at + 263].copy_from_slice(&old_bytes(r));
    t
}

/// What was sound comes over with every field where it was; what was not is refused, and nothing is touched.
#[test]
fn brought_over() {
    for (n, s) in SIZES {
        for r in sound_records(n) {
            let old = old_table(n, s, 1, &r);
            let mut t = vec![0xa5; table_len(n, s)];
            assert_eq!(bring_over(&mut t, n, s, 1, &old), Ok(()));
            let mut wanted = Copy::blank(n, s, 1);
            wanted.put(1, 1, &r);
            assert_eq!(t, wanted.t);
            for at in (0..3).chain(3 + 263 * s..3 + 263 * s + 263) {
                let mut damaged = old.clone();
                damaged[at] ^= 3;
                let mut t = vec![0xa5; table_len(n, s)];
                let got = bring_over(&mut t, n, s, 1, &damaged);
                match got {
                    Ok(()) => assert_eq!(judge_table(&t, n, s, 1), Ok(())),
                    Err(r) => assert!(r == refused(11) && t.iter().all(|&byte| byte == 0xa5)),
                }
            }
        }
    }
}

#[test]
fn not_brought_over() {
    let r = Rec { own: vote(0, 4, 2, 7, 9, &[]), ..Rec::default() };
    let old = old_table(3, 2, 0, &r);
    let mut t = vec![0xa5; table_len(3, 2)];
    let whole = t.len();
    for (n, s, c) in [(4, 2, 1), (3, 0, 1), (3, 2, 3), (3, 3, 1), (5, 2, 1)] {
        assert_eq!(bring_over(&mut t, n, s, c, &old), Err(refused(1)));
    }
    assert_eq!(bring_over(&mut t[..whole - 1], 3, 2, 1, &old), Err(refused(1)));
    assert_eq!(bring_over(&mut t, 3, 2, 1, &old[1..]), Err(refused(1)));
    assert_eq!(bring_over(&mut t, 3, 2, 2, &old), Err(refused(11)));
    for op in 3..=255 {
        for key in [0, 7] {
            let own = vote(0, 4, op, key, 9, &[]);
            let old = old_table(3, 2, 0, &Rec { own, ..Rec::default() });
            assert_eq!(bring_over(&mut t, 3, 2, 1, &old), Err(refused(11)));
        }
    }
    let mut reply = Rec { joined: 17, phase: 1, set: 6, ..Rec::default() };
    for (op, wanted) in [(2, Ok(())), (3, Err(refused(11)))] {
        reply.replies[2] = vote(8, 2, op, 7, 9, &[]);
        let mut t = vec![0xa5; table_len(5, 1)];
        assert_eq!(bring_over(&mut t, 5, 1, 1, &old_table(5, 1, 1, &reply)), wanted);
    }
    assert!(t.iter().all(|&byte| byte == 0xa5));
}
