//! The search for interfering edits, by itself and in a whole request, on full tables: each owner's row is looked at from its
//! highest number down, beside the second program's search from the top and from number 1 up.

use super::{keep, lent, time};
use compare::both::{library_side, second_side, upward_side, Call, OUT};
use compare::measure::Rounds;
use compare::{make, shapes};
use pumxaqert::Setup;
use second::rules::{interfere, Command, Deps, Interference, Upward};
use second::setup::Setup as Sizes;
use second::table::{Record, RECORD_LEN};
use std::hint::black_box;

extern "C" {
    /// `crates/seen_c/src/lib.rt`: the table is one of n copies and s numbers, or more is read than was lent.
    fn seen_alone(
        table: *const u8,
        length: usize,
        n: usize,
        s: usize,
        c: usize,
        o: usize,
        j: usize,
        op: u8,
        key: u32,
        second: u32,
        deps: *mut Deps,
    );
}

/// The request that is made, at copy 0, which takes number 1.
const COMMAND: Command = Command { op: 2, key: 7, second: 0, edit: 100 };
const BLANK: [u8; RECORD_LEN] = [0; RECORD_LEN];

#[derive(Clone, Copy)]
enum Match {
    Top,
    Middle,
    Nowhere,
}

/// Each owner's row full, with one record that interferes; but for 0.1, which the request takes.
fn table(setup: Setup, place: Match) -> Vec<u8> {
    let mut t = shapes::full(setup);
    let number = match place {
        Match::Top => setup.s,
        Match::Middle => setup.s.div_ceil(2),
        Match::Nowhere => 0,
    };
    for o in 0..setup.n {
        if number > 0 {
            let at = make::place(setup, o, number);
            let mut record = make::get(&t, at);
            record.own.command = COMMAND;
            make::put(&mut t, at, &record);
        }
    }
    make::put(&mut t, make::place(setup, 0, 1), &Record::default());
    t
}

/// What the request sees, in a table that `table` made for this setup.
#[inline]
fn library_seen(setup: Setup, t: &[u8], deps: &mut Deps) {
    let (Setup { n, s, copy }, Command { op, key, second, .. }) = (setup, COMMAND);
    // SAFETY: the table has the length of its sizes, and the dependencies are seven.
    unsafe { seen_alone(t.as_ptr(), t.len(), n, s, copy, 0, 1, op, key, second, deps) };
}

/// The second program's, called as the library is: not inlined, a command as numbers, the dependencies into lent memory.
#[inline(never)]
#[allow(clippy::too_many_arguments)]
fn second_seen(
    by: impl Interference,
    sizes: &Sizes,
    t: &[u8],
    o: usize,
    j: usize,
    op: u8,
    key: u32,
    second: u32,
    edit: u64,
    deps: &mut Deps,
) {
    *deps = by.seen(sizes, t, &Command { op, key, second, edit }, o, j);
}

/// Library, second program from the top, second program from number 1 up.
fn alone(rounds: &Rounds, setup: Setup, t: &[u8]) -> [f64; 3] {
    let sizes = &Sizes::new(setup.n, setup.s, setup.copy).expect("good sizes");
    let Command { op, key, second, edit } = COMMAND;
    let (mut ours, mut down, mut up) = ([9; 7], [8; 7], [7; 7]);
    let times = rounds.medians(&mut [
        &mut || library_seen(black_box(setup), black_box(t), black_box(&mut ours)),
        &mut || {
            let (sizes, t, deps) = black_box((sizes, t, &mut down));
            second_seen(interfere, sizes, t, 0, 1, op, key, second, edit, deps);
        },
        &mut || {
            let (sizes, t, deps) = black_box((sizes, t, &mut up));
            second_seen(Upward(interfere), sizes, t, 0, 1, op, key, second, edit, deps);
        },
    ]);
    assert!(ours == down && ours == up);
    [times[0], times[1], times[2]]
}

/// The same of a request; then judging alone, by the library.
fn request(rounds: &Rounds, setup: Setup, t: &[u8]) -> [f64; 4] {
    let Command { op, key, second, edit } = COMMAND;
    let call = Call::Request(op as usize, key, second, edit);
    let mut tables = vec![t.to_vec(); 5];
    let [ours, theirs, others, judged, bare] = &mut tables[..] else { unreachable!("five tables") };
    let (mut a, mut b, mut c, mut d) = (lent(), lent(), lent(), lent());
    let at = make::place(setup, 0, 1);
    let back = |t: &mut [u8]| t[at..at + RECORD_LEN].copy_from_slice(black_box(&BLANK));
    let times = rounds.medians(&mut [
        &mut || {
            keep(library_side(setup, OUT, black_box(call), theirs, &mut a));
            back(theirs);
        },
        &mut || {
            keep(second_side(setup, OUT, black_box(call), ours, &mut b));
            back(ours);
        },
        &mut || {
            keep(upward_side(setup, OUT, black_box(call), others, &mut c));
            back(others);
        },
        &mut || keep(library_side(setup, OUT, Call::Judge, black_box(&mut *judged), &mut d)),
        &mut || back(black_box(bare)),
    ]);
    let [library, down, up] = [0, 1, 2].map(|at| times[at] - times[4]);
    [library, down, up, times[3]]
}

/// Every table with its name; a match at the top first, and nowhere last.
fn tables() -> impl Iterator<Item = (Setup, &'static str, Vec<u8>)> {
    let sizes = [3, 5, 7].into_iter().flat_map(|n| [1, 8, 64].map(|s| Setup { n, s, copy: 0 }));
    sizes.flat_map(|setup| {
        [("top", Match::Top), ("middle", Match::Middle), ("nowhere", Match::Nowhere)]
            .map(|(name, place)| (setup, name, table(setup, place)))
    })
}

pub fn searches(rounds: &Rounds) {
    let [first, last] =
        ["library | second, from the top | ratio", "second, from number 1 up | ratio"];
    println!("\n## The search for interfering edits by itself, on full tables\n");
    println!("| N | S | match | {first} (at most 1) | {last} |\n|{}", "---|".repeat(8));
    let mut at_the_top = f64::MAX;
    for (setup, name, t) in tables() {
        let times = alone(rounds, setup, &t);
        println!("| {} | {} | {name} | {} |", setup.n, setup.s, cells(times));
        match (setup.s, name) {
            (64, "top") => at_the_top = times[0],
            // A tenth or less is measured; one that went on would take as long.
            (64, "nowhere") => assert!(2.0 * at_the_top < times[0], "goes on behind a match"),
            _ => {}
        }
    }
    println!("\n## A request on the same tables\n");
    println!(
        "| N | S | match | {first} | {last} | library, beyond judging |\n|{}",
        "---|".repeat(9)
    );
    for (setup, name, t) in tables() {
        let [library, down, up, judging] = request(rounds, setup, &t);
        let (cells, beyond) = (cells([library, down, up]), time(library - judging));
        println!("| {} | {} | {name} | {cells} | {beyond} |", setup.n, setup.s);
    }
}

fn cells([library, down, up]: [f64; 3]) -> String {
    let [beside_down, beside_up] = [library / down, library / up];
    format!("{} | {} | {beside_down:.2} | {} | {beside_up:.2}", time(library), time(down), time(up))
}
