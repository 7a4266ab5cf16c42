//! Tables of committed instances whose dependencies have a shape.

use crate::make;
use crate::random::Random;
use pumxaqert::Setup;
use second::rules::Command;
use second::table::{Record, Vote};

/// Committed, with a command that interferes with no other's.
fn committed(setup: Setup, o: usize, j: usize, deps: [u16; 7]) -> Record {
    let key = (1000 + o * setup.s + j) as u32;
    let command = Command { op: 2, key, second: 0, edit: 1 };
    Record { own: Vote { voted: 0, status: 4, command, deps }, ..Record::default() }
}

fn table(setup: Setup, mut deps: impl FnMut(usize, usize) -> [u16; 7]) -> Vec<u8> {
    let mut t = make::blank(setup);
    for o in 0..setup.n {
        for j in 1..=setup.s {
            let record = committed(setup, o, j, deps(o, j));
            make::put(&mut t, make::place(setup, o, j), &record);
        }
    }
    t
}

/// Every instance committed; no edges.
pub fn full(setup: Setup) -> Vec<u8> {
    table(setup, |_, _| [0; 7])
}

/// Depends on the instance before it and on nothing else.
fn on_the_one_before(n: usize, o: usize, j: usize) -> [u16; 7] {
    let mut deps = [0; 7];
    match o {
        0 => deps[n - 1] = j as u16 - 1,
        _ => deps[o - 1] = j as u16,
    }
    deps
}

/// Each entry on its own, from the instance's number.
fn random_table(setup: Setup, entry: impl Fn(&mut Random, usize) -> usize) -> Vec<u8> {
    let mut random = Random(7);
    table(setup, |_, j| {
        let mut deps = [0; 7];
        deps[..setup.n].fill_with(|| entry(&mut random, j).min(setup.s) as u16);
        deps
    })
}

/// Full tables by the name of their shape.
pub fn orders(setup: Setup) -> Vec<(&'static str, Vec<u8>)> {
    let Setup { n, s, .. } = setup;
    let last = s as u16;
    let cycle = |o, j| match (o, j) {
        (0, 1) => {
            let mut deps = [0; 7];
            deps[n - 1] = last;
            deps
        }
        _ => on_the_one_before(n, o, j),
    };
    let against = |o: usize, j: usize| {
        let mut deps = [0; 7];
        if o + 1 < n {
            deps[o + 1] = j as u16;
        }
        deps
    };
    // 0.2, 1.1, 0.3, 1.2, ..: each way round is one number on, and all are one cycle but the first.
    let saw = |o: usize, j: usize| {
        let mut deps = [0; 7];
        match o {
            0 => deps[1] = j as u16 - 1,
            1 => deps[0] = (j as u16 + 2).min(last),
            _ => {}
        }
        deps
    };
    // Four rows reach each other and all the rest, which goes out first.
    let over = |o: usize, _| match o {
        0..4 => [last; 7],
        _ => [0; 7],
    };
    vec![
        ("chain", table(setup, |o, j| on_the_one_before(n, o, j))),
        ("one cycle", table(setup, cycle)),
        ("no edges", full(setup)),
        ("random", random_table(setup, |random, _| random.between(0, s))),
        (
            "random, near in number",
            random_table(setup, |random, j| (j + random.below(3)).saturating_sub(2)),
        ),
        ("rows against the order", table(setup, against)),
        ("a saw of two rows", table(setup, saw)),
        ("four rows over three", table(setup, over)),
    ]
}

/// Mostly committed, with marks anywhere on what is committed.
pub fn random_order(random: &mut Random, setup: Setup) -> Vec<u8> {
    let Setup { n, s, .. } = setup;
    let uncommitted = random.pick(&[0, 2, 10, 40]);
    let marks = random.pick(&[0, 0, 30, 80]);
    let zeros = random.below(100);
    let mut t = make::blank(setup);
    for o in 0..n {
        for j in 1..=s {
            let mut deps = [0; 7];
            for entry in deps.iter_mut().take(n) {
                let near = (j + random.below(3)).saturating_sub(1).min(s);
                *entry = match random.below(20) {
                    0 => random.between(0, s) as u16,
                    _ if random.chance(zeros) => 0,
                    _ => near as u16,
                };
            }
            let mut record = committed(setup, o, j, deps);
            if random.chance(uncommitted) {
                record.own.status = random.between(1, 3) as u8;
            } else {
                record.mark = random.chance(marks) as u8;
            }
            make::put(&mut t, make::place(setup, o, j), &record);
        }
    }
    t
}
