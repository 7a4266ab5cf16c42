//! sweep COUNT [SEED]: so many sound tables, and as many valid messages of each kind; each byte of them takes all 256
//! values in turn, and each length is tried. Judge, reader, writer and an event must answer as the second program does.
//! Tables of the layout that had no second keys are brought over, some values at each byte, as the second program does it.
//! Before that the messages that are chosen for each copy of N = 3, 5, 7 and S = 1, 64.

use compare::both::{Both, Call, Pair};
use compare::random::Random;
use compare::{make, old, reasons, threads, LONGEST};
use pumxaqert::{Setup, ROOM};
use second::message::LAST_KIND;
use second::table::{HEAD_LEN, RECORD_LEN};
use std::process::ExitCode;
use std::time::Instant;

/// For each sweep.
const OLD_TABLES: usize = 500;

#[derive(Default)]
struct Counts {
    tables: u64,
    sound: u64,
    messages: reasons::Counts,
    old: old::Counts,
}

fn main() -> ExitCode {
    let words: Vec<u64> = std::env::args().skip(1).filter_map(|word| word.parse().ok()).collect();
    let Some(&count) = words.first() else {
        eprintln!("usage: sweep COUNT [SEED]");
        return ExitCode::from(2);
    };
    let seed = words.get(1).copied().unwrap_or(1);
    let begun = Instant::now();
    let chosen = setups();
    let job = |counts: &mut Counts, i: u64| match chosen.get(i as usize) {
        Some(setup) => reasons::all(*setup, &mut counts.messages)
            .map_err(|wrong| format!("input {i}: {wrong}")),
        None => {
            let seed = seed.wrapping_add(i - chosen.len() as u64);
            one(&mut Random(seed), counts).map_err(|wrong| format!("seed {seed}: {wrong}"))
        }
    };
    match threads::over_all(chosen.len() as u64 + count, Counts::default, job) {
        Ok(all) => {
            report(&all);
            eprintln!("{:.1} seconds", begun.elapsed().as_secs_f64());
            println!("{} copies and {count} sweeps: no difference", chosen.len());
            ExitCode::SUCCESS
        }
        Err(wrong) => {
            println!("{wrong}");
            ExitCode::FAILURE
        }
    }
}

fn setups() -> Vec<Setup> {
    let sizes = [3, 5, 7].into_iter().flat_map(|n| [(n, 1), (n, 64)]);
    sizes.flat_map(|(n, s)| (0..n).map(move |copy| Setup { n, s, copy })).collect()
}

fn report(all: &[Counts]) {
    let sum = |of: fn(&Counts) -> u64| all.iter().map(of).sum::<u64>();
    println!("{:>12}  tables, {} of them sound", sum(|c| c.tables), sum(|c| c.sound));
    println!("{:>12}  messages that break a clause, or two", sum(|c| c.messages.broken));
    let [read, valid] = [sum(|c| c.messages.read), sum(|c| c.messages.valid)];
    println!("{read:>12}  messages read, {valid} of them valid");
    let [written, taken] = [sum(|c| c.messages.written), sum(|c| c.messages.taken)];
    println!("{written:>12}  messages written, {taken} of them valid");
    let [tables, brought] = [sum(|c| c.old.tables), sum(|c| c.old.brought)];
    println!("{tables:>12}  tables of the old layout, {brought} of them brought over");
}

fn one(random: &mut Random, counts: &mut Counts) -> Result<(), String> {
    let n = random.pick(&[3, 5, 7]);
    let setup = Setup { n, s: random.pick(&[1, 1, 1, 2]), copy: random.below(n) };
    let mut table = make::blank(setup);
    make::fill(random, setup, &mut table, 90);
    let mut both = Both::default();
    sweep_table(&mut both, setup, &table, counts)?;
    for kind in 1..=LAST_KIND {
        let (bytes, length) = valid(random, setup, &table, kind);
        reasons::every_byte(&mut both, setup, &bytes[..length], &mut counts.messages)?;
    }
    old::without_rewires(&mut table);
    old::every_byte(setup, &old::without_seconds(&table), &mut counts.old)?;
    (0..OLD_TABLES).try_for_each(|_| old::some(random, &mut counts.old))
}

fn sweep_table(
    both: &mut Both,
    setup: Setup,
    table: &[u8],
    counts: &mut Counts,
) -> Result<(), String> {
    let mut tables = Pair::of(table);
    for at in 0..table.len() {
        let record = at.saturating_sub(HEAD_LEN) / RECORD_LEN;
        let nudge = Call::Nudge(record / setup.s, record % setup.s + 1);
        for value in 0..=255 {
            tables.ours[at] = value;
            tables.theirs[at] = value;
            counts.tables += 1;
            let judged = second::judge_table(&tables.ours, setup.n, setup.s, setup.copy);
            let theirs = setup.judge(&tables.theirs).map_err(|r| r.number());
            if judged.map_err(|r| r.number as u32) != theirs {
                return Err(format!("byte {at} of {setup:?} as {value}: second judges {judged:?}"));
            }
            counts.sound += judged.is_ok() as u64;
            if (at + value as usize).is_multiple_of(8) {
                both.call(setup, ROOM, nudge, &mut tables)?;
                tables.set(table);
            }
        }
        tables.set(table);
    }
    Ok(())
}

/// A valid message of this kind to the setup's copy.
fn valid(random: &mut Random, setup: Setup, table: &[u8], kind: u8) -> ([u8; LONGEST], usize) {
    loop {
        let m = make::message(random, setup, table);
        let mut bytes = [0; LONGEST];
        let length = make::bytes(&m, &mut bytes);
        let read = second::read_message(setup.n, setup.s, setup.copy, &bytes[..length]);
        if m.kind == kind && read.is_ok() {
            return (bytes, length);
        }
    }
}
