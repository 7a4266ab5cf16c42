//! Settled and hand-out against the paper's words taken one by one.

mod common;
use common::*;
use second::rules::covers;
use second::*;
use std::time::Instant;

type Instance = (usize, usize);

/// Everything reached from x, by following what each instance covers.
fn reached(c: &Copy, x: Instance) -> Vec<Instance> {
    let mut found: Vec<Instance> = Vec::new();
    let mut open = vec![x];
    while let Some((o, j)) = open.pop() {
        let d = c.get(o, j).own.deps;
        for p in 0..c.n {
            for i in 1..=c.s {
                if covers(&d, o, j, p, i) && !found.contains(&(p, i)) {
                    found.push((p, i));
                    open.push((p, i));
                }
            }
        }
    }
    found
}

/// All instances by number, then owner.
fn instances(c: &Copy) -> Vec<Instance> {
    (1..=c.s).flat_map(|j| (0..c.n).map(move |o| (o, j))).collect()
}

fn settled_by_words(c: &Copy, x: Instance) -> Settled {
    let found = reached(c, x);
    for (owner, number) in instances(c) {
        let asked = (owner, number) == x || found.contains(&(owner, number));
        if asked && c.get(owner, number).own.status != 4 {
            return Settled::Waits { owner, number };
        }
    }
    let Vote { op, key, second, edit, .. } = c.get(x.0, x.1).own;
    Settled::Command { op, key, second, edit }
}

fn hand_out_by_words(c: &mut Copy, room: usize) -> Vec<u16> {
    let all = instances(c);
    let found: Vec<Vec<Instance>> = all.iter().map(|&x| reached(c, x)).collect();
    let reached = |x: Instance| &found[all.iter().position(|&y| y == x).unwrap()];
    let mut list = Vec::new();
    while list.len() < room {
        let next = all.iter().copied().find(|&x| {
            let settled = matches!(settled_by_words(c, x), Settled::Command { .. });
            settled
                && c.get(x.0, x.1).mark == 0
                && reached(x)
                    .iter()
                    .all(|&y| y == x || reached(y).contains(&x) || c.get(y.0, y.1).mark == 1)
        });
        let Some((o, j)) = next else { break };
        let r = c.get(o, j);
        c.put(o, j, &Rec { mark: 1, ..r });
        list.push((256 * o + j) as u16);
    }
    list
}

/// Mostly committed, with dependencies near the instance's own number, and
/// marks anywhere on what is committed.
fn random_table(random: &mut Random, n: usize, s: usize) -> Copy {
    let mut c = Copy::blank(n, s, random.below(n as u64) as usize);
    let uncommitted = [0, 2, 10, 40][random.below(4) as usize];
    let marks = [0, 0, 30, 80][random.below(4) as usize];
    let zeros = random.below(100);
    for o in 0..n {
        for j in 1..=s {
            let status = if random.chance(uncommitted) { 1 + random.below(3) as u8 } else { 4 };
            let mut d = [0; 7];
            for entry in d.iter_mut().take(n) {
                let near = (j as u64 + random.below(3)).saturating_sub(1).min(s as u64);
                *entry = match random.below(20) {
                    0 => random.below(s as u64 + 1) as u16,
                    _ if random.chance(zeros) => 0,
                    _ => near as u16,
                };
            }
            let op = random.below(4) as u8;
            let (key, edit) =
                if op == 0 { (0, 0) } else { (random.next() as u32 / 2, random.next()) };
            let second = if op == 3 { key + 1 + random.below(9) as u32 } else { 0 };
            let own = Vote { voted: 0, status, op, key, second, edit, deps: d };
            let mark = (status == 4 && random.chance(marks)) as u8;
            c.put(o, j, &Rec { own, mark, ..Rec::default() });
            if random.chance(uncommitted / 4) {
                c.put(o, j, &Rec::default());
            }
        }
    }
    assert_eq!(c.judge(), Ok(()));
    c
}

#[test]
fn as_the_words_say() {
    let mut random = Random(2);
    let mut listed = 0;
    for round in 0..3000 {
        let n = [3, 5, 7][random.below(3) as usize];
        let s = 1 + random.below(5) as usize;
        let mut c = random_table(&mut random, n, s);
        for x in instances(&c) {
            assert_eq!(c.settled(x.0, x.1), Ok(settled_by_words(&c, x)), "round {round} {x:?}");
        }
        let mut words = c.clone();
        let room = if random.chance(30) { random.below(6) as usize } else { 3 * n * s };
        let codes = c.hand_out(room);
        assert_eq!(codes, hand_out_by_words(&mut words, room), "round {round}");
        assert_eq!(c, words);
        listed += codes.len();
    }
    assert!(listed > 5000, "{listed}");
}

/// Places asked for one at a time come in the order of one long list.
#[test]
fn one_place_at_a_time() {
    let mut random = Random(3);
    for _ in 0..300 {
        let mut c = random_table(&mut random, 5, 6);
        let mut single = c.clone();
        let codes = c.hand_out(100);
        let mut singles = Vec::new();
        loop {
            let next = single.hand_out(1);
            if next.is_empty() {
                break;
            }
            singles.extend(next);
        }
        assert_eq!((codes, c), (singles, single));
    }
}

/// The largest table, each instance covering all before it, all of its round,
/// or everything: quick enough that no cube can hide in it.
#[test]
fn the_largest_table() {
    for shape in 0..4 {
        let mut c = Copy::blank(7, 64, 0);
        for o in 0..7 {
            for j in 1..=64u16 {
                let before = if shape == 3 { 64 - j } else { j - 1 };
                let d = match shape {
                    0 => [before; 7],
                    1 => [j; 7],
                    2 => [64; 7],
                    _ => deps(&[if o == 0 { 0 } else { before }]),
                };
                c.put(o, j as usize, &Rec::committed(1, &d));
            }
        }
        let start = Instant::now();
        let codes = c.hand_out(1000);
        assert!(start.elapsed().as_millis() < 1000);
        assert_eq!(codes.len(), 448);
        if shape < 3 {
            let by_number: Vec<u16> =
                (1..=64).flat_map(|j| (0..7).map(move |o| 256 * o + j)).collect();
            assert_eq!(codes, by_number);
        }
        assert_eq!(c.hand_out(1000), []);
    }
}
