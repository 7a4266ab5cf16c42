//! W1 to W10 of the paper, and the lines below them.

mod common;
use common::*;
use second::*;

fn hex(text: &str) -> Vec<u8> {
    text.split_whitespace().map(|b| u8::from_str_radix(b, 16).unwrap()).collect()
}

fn ok(from: u8, to: u8, d: &[u16]) -> Message {
    Message { kind: 2, from, to, owner: to, number: 1, deps: deps(d), ..Message::default() }
}

fn w1() -> Copy {
    let mut c = Copy::blank(3, 4, 0);
    c.request(2, 7, 100).unwrap();
    c
}

#[test]
fn w1_request() {
    let mut c = Copy::blank(3, 4, 0);
    let mut out = [0; 256];
    let e = request(&mut c.t, 3, 4, 0, &mut out, 2, 7, 0, 100).unwrap();
    assert_eq!(e, Event { owner: 0, number: 1, written: 74 });
    let mut first = hex("01 00 01 00 01 00 00 00 00 00 02 07 00 00 00 64");
    first.extend([0; 21]);
    assert_eq!(out[..37], first);
    first[2] = 2;
    assert_eq!(out[37..74], first);
    let expected = Rec { own: vote(0, 2, 2, 7, 100, &[]), phase: 2, ..Rec::default() };
    assert_eq!(c.get(0, 1), expected);
}

#[test]
fn w2_one_equal_answer_commits() {
    let mut c = w1();
    let (e, sent) = c.message(&ok(1, 0, &[])).unwrap();
    assert_eq!((e.owner, e.number, e.written), (0, 1, 74));
    assert!(sent.iter().all(|m| m.kind == 5 && m.key == 7 && m.edit == 100 && m.ballot == 0));
    assert_eq!(c.get(0, 1), Rec { own: vote(0, 4, 2, 7, 100, &[]), ..Rec::default() });
}

#[test]
fn w3_a_different_answer_waits() {
    let mut c = w1();
    let mut one = Copy::blank(3, 4, 1);
    one.request(2, 7, 5).unwrap();
    let pre_accept = Message {
        kind: 1,
        from: 0,
        to: 1,
        owner: 0,
        number: 1,
        op: 2,
        key: 7,
        edit: 100,
        ..Message::default()
    };
    let (_, sent) = one.message(&pre_accept).unwrap();
    assert_eq!(sent, [ok(1, 0, &[0, 1, 0])]);
    assert_eq!(one.get(0, 1).own.status, 1);
    let (e, _) = c.message(&sent[0]).unwrap();
    assert_eq!(e.written, 0);
    assert_eq!(c.get(0, 1).phase, 2);
    let (e, sent) = c.message(&ok(2, 0, &[0, 0, 0])).unwrap();
    assert_eq!(e.written, 74);
    assert!(sent.iter().all(|m| m.kind == 5 && m.deps == [0; 7]));
    assert_eq!(c.get(0, 1).own, vote(0, 4, 2, 7, 100, &[0, 0, 0]));
}

#[test]
fn w4_two_different_answers() {
    let mut c = w1();
    assert_eq!(c.message(&ok(1, 0, &[0, 1, 0])).unwrap().1, []);
    let (_, sent) = c.message(&ok(2, 0, &[0, 0, 1])).unwrap();
    assert_eq!(sent.len(), 2);
    assert!(sent.iter().all(|m| m.kind == 3 && m.deps == deps(&[0, 1, 1])));
    let expected = Rec { own: vote(0, 3, 2, 7, 100, &[0, 1, 1]), phase: 3, ..Rec::default() };
    assert_eq!(c.get(0, 1), expected);
}

#[test]
fn w5_ballots_of_recovery() {
    for (joined, wanted) in [(0, Ok(10)), (13, Ok(18)), (4_294_967_288, Err(refused(7)))] {
        let mut c = Copy::blank(7, 4, 2);
        c.put(3, 2, &Rec { joined, ..Rec::default() });
        let got = c.recover(3, 2).map(|(_, sent)| {
            assert_eq!(sent.len(), 6);
            assert!(sent.iter().all(|m| m.kind == 6 && m.ballot == c.get(3, 2).joined));
            c.get(3, 2).joined
        });
        assert_eq!(got, wanted);
    }
    let mut c = Copy::blank(7, 4, 2);
    c.put(3, 2, &Rec { joined: 4_294_967_286, ..Rec::default() });
    c.recover(3, 2).unwrap();
    assert_eq!(c.get(3, 2).joined, 4_294_967_290);
}

/// Copy 1 recovers 0.1 (N=5) holding `own`; two PrepareOK then come in.
fn recovered(own: Vote, replies: [(u8, Vote); 2]) -> (Rec, Vec<Message>) {
    let mut c = Copy::blank(5, 4, 1);
    c.put(0, 1, &Rec { joined: own.voted, own, ..Rec::default() });
    c.recover(0, 1).unwrap();
    let ballot = c.get(0, 1).joined;
    let mut last = Vec::new();
    for (from, v) in replies {
        assert_eq!(last, []);
        last = c
            .message(&Message {
                kind: 7,
                from,
                to: 1,
                owner: 0,
                number: 1,
                ballot,
                voted: v.voted,
                status: v.status,
                op: v.op,
                key: v.key,
                second: v.second,
                edit: v.edit,
                deps: v.deps,
                ..Message::default()
            })
            .unwrap()
            .1;
    }
    assert_eq!(last.len(), 4);
    (c.get(0, 1), last)
}

#[test]
fn w6_recovery_at_ballot_0() {
    let none = Vote::default();
    let as_received = vote(0, 2, 2, 7, 100, &[0, 3]);
    let added = vote(0, 1, 2, 7, 100, &[0, 4]);

    let (r, sent) = recovered(none, [(2, as_received), (3, as_received)]);
    assert_eq!((r.own, r.phase), (vote(9, 3, 2, 7, 100, &[0, 3]), 3));
    assert!(sent.iter().all(|m| m.kind == 3 && m.ballot == 9));

    let (r, sent) = recovered(none, [(2, as_received), (3, added)]);
    assert_eq!((r.own, r.phase), (vote(9, 2, 2, 7, 100, &[]), 2));
    assert!(sent.iter().all(|m| m.kind == 1 && m.ballot == 9));

    let (r, _) = recovered(as_received, [(0, as_received), (3, as_received)]);
    assert_eq!((r.own, r.phase), (vote(9, 2, 2, 7, 100, &[]), 2));

    let (r, sent) = recovered(none, [(2, none), (3, none)]);
    assert_eq!((r.own, r.phase), (vote(9, 2, 0, 0, 0, &[]), 2));
    assert!(sent.iter().all(|m| m.kind == 1 && m.op == 0));
}

/// Of several candidates the lowest copy's reply counts; copy 1 is the own.
#[test]
fn the_lowest_copy_counts() {
    let v = |voted, status, edit| vote(voted, status, 2, 7, edit, &[edit as u16]);
    let none = Vote::default();
    // Accepted at one ballot.
    let (r, _) = recovered(v(8, 3, 1), [(3, v(8, 3, 3)), (2, v(8, 3, 2))]);
    assert_eq!(r.own, v(17, 3, 1));
    let (r, _) = recovered(v(8, 2, 1), [(3, v(8, 3, 3)), (2, v(8, 3, 2))]);
    assert_eq!(r.own, v(17, 3, 2));
    let (r, _) = recovered(v(8, 3, 1), [(3, v(8, 3, 3)), (0, v(8, 3, 4))]);
    assert_eq!(r.own, v(17, 3, 4));
    // Pre-accepted as received at ballot 0; a lower one with status 1 is none.
    let (r, _) = recovered(none, [(3, v(0, 2, 3)), (2, v(0, 2, 2))]);
    assert_eq!(r.own, v(9, 3, 2));
    let (r, _) = recovered(v(0, 1, 1), [(3, v(0, 2, 3)), (2, v(0, 2, 2))]);
    assert_eq!(r.own, v(9, 3, 2));
    // Afresh: any status at the highest ballot.
    let (r, _) = recovered(none, [(3, v(0, 2, 3)), (2, v(0, 1, 2))]);
    assert_eq!((r.own, r.phase), (vote(9, 2, 2, 7, 2, &[]), 2));
    let (r, _) = recovered(v(8, 2, 1), [(3, v(0, 2, 3)), (2, v(0, 3, 2))]);
    assert_eq!((r.own, r.phase), (vote(17, 2, 2, 7, 1, &[]), 2));
    // F of status 2 count at ballot 0 only.
    let (r, _) = recovered(v(8, 2, 1), [(3, v(8, 2, 3)), (2, v(8, 2, 2))]);
    assert_eq!((r.own, r.phase), (vote(17, 2, 2, 7, 1, &[]), 2));
}

#[test]
fn w7_the_highest_voted_ballot() {
    let low = vote(10, 3, 2, 7, 100, &[1]);
    let high = vote(17, 3, 2, 8, 200, &[2]);
    let own = vote(12, 2, 2, 9, 300, &[]);
    for replies in [[(2, low), (3, high)], [(2, high), (3, low)]] {
        // Joined 18 at copies that report votes at 17 and below: ballot 25.
        let mut c = Copy::blank(5, 4, 1);
        c.put(0, 1, &Rec { joined: 18, own, ..Rec::default() });
        c.recover(0, 1).unwrap();
        for (from, v) in replies {
            let m = Message {
                kind: 7,
                from,
                to: 1,
                owner: 0,
                number: 1,
                ballot: 25,
                voted: v.voted,
                status: v.status,
                op: v.op,
                key: v.key,
                second: v.second,
                edit: v.edit,
                deps: v.deps,
                ..Message::default()
            };
            c.message(&m).unwrap();
        }
        let r = c.get(0, 1);
        assert_eq!((r.own, r.phase), (vote(25, 3, 2, 8, 200, &[2]), 3));
    }
}

fn w8() -> Copy {
    let mut c = Copy::blank(3, 4, 0);
    c.put(0, 1, &Rec::committed(7, &[0, 1, 0])).put(1, 1, &Rec::committed(7, &[1, 0, 0]));
    c
}

#[test]
fn w8_each_covers_the_other() {
    let mut c = w8();
    assert_eq!(c.hand_out(9), [1, 257]);
    assert_eq!((c.get(0, 1).mark, c.get(1, 1).mark), (1, 1));
    assert_eq!(c.hand_out(9), []);
    let mut c = w8();
    assert_eq!((c.hand_out(1), c.hand_out(1), c.hand_out(1)), (vec![1], vec![257], vec![]));
}

#[test]
fn w9_what_is_covered_comes_first() {
    let mut c = Copy::blank(3, 4, 0);
    c.put(0, 1, &Rec::committed(7, &[0, 0, 1])).put(2, 1, &Rec::committed(7, &[0, 0, 0]));
    assert_eq!(c.hand_out(9), [513, 1]);
}

#[test]
fn w10_an_uncommitted_one_is_named() {
    let mut c = w8();
    c.put(2, 1, &Rec::committed(7, &[2, 1, 0]));
    assert_eq!(c.settled(2, 1), Ok(Settled::Waits { owner: 0, number: 2 }));
    assert_eq!(c.settled(0, 1), Ok(Settled::Command { op: 2, key: 7, second: 0, edit: 1 }));
    assert_eq!(c.hand_out(9), [1, 257]);
}

#[test]
fn below_the_examples() {
    let mut c = Copy::blank(3, 1, 0);
    c.request(2, 7, 100).unwrap();
    assert_eq!(c.request(2, 7, 100), Err(refused(5)));
    assert_eq!(w8().hand_out(0), []);
    let mut c = Copy::blank(3, 4, 0);
    let before = c.clone();
    let mut out = [0xa5; 255];
    assert_eq!(request(&mut c.t, 3, 4, 0, &mut out, 2, 7, 0, 100), Err(refused(2)));
    assert_eq!((c, out), (before.clone(), [0xa5; 255]));
    let mut c = before;
    assert!(request(&mut c.t, 3, 4, 0, &mut [0; 256], 2, 7, 0, 100).is_ok());
}
