//! journals COUNT [SEED]: every instance in and out of range, small rooms, unsound tables and wrong setups for the writers;
//! a short journal cut at every byte, and with every byte set to every value; journals of 0, 1 and 100,000 entries; then
//! so many random runs whose copies start again by their journals. Each journal is cut at every byte, those of long runs
//! at some, and damaged. Every answer, entry and table must be the second program's, and a cut journal's what the run had
//! saved.

use compare::guarded::JournalCall::{MarkEntry, RecordEntry};
use compare::journals::{Book, Counts, Journals, Told, OF_REPLAY, OF_WRITERS, ROOM};
use compare::random::Random;
use compare::{make, threads, world};
use pumxaqert::{raw, Setup};
use second::journal::length_of;
use second::table::{Record, Vote, COMMITTED, HEAD_LEN, MARK_AT, RECORD_LEN};
use std::process::ExitCode;
use std::time::Instant;

/// What is chosen and not drawn, in parts that can be done at the same time.
#[derive(Clone, Copy)]
enum Chosen {
    /// A journal of so many entries.
    Long(usize),
    Lengths,
    /// The writers with this setup, and others on its tables.
    Writers(Setup),
    /// The short journal cut at every byte.
    Cuts,
    /// Every value at this byte of it.
    Damaged(usize),
}

fn main() -> ExitCode {
    let words: Vec<u64> = std::env::args().skip(1).filter_map(|word| word.parse().ok()).collect();
    let Some(&count) = words.first() else {
        eprintln!("usage: journals COUNT [SEED]");
        return ExitCode::from(2);
    };
    let seed = words.get(1).copied().unwrap_or(1);
    let begun = Instant::now();
    let short = match short(&mut Journals::default()) {
        Ok(short) => short,
        Err(wrong) => {
            println!("input 0: {wrong}");
            return ExitCode::FAILURE;
        }
    };
    let chosen = chosen(&short);
    let job = |journals: &mut Journals, i: u64| match chosen.get(i as usize) {
        Some(&part) => one(journals, &short, part).map_err(|wrong| format!("input {i}: {wrong}")),
        None => {
            let seed = seed.wrapping_add(i - chosen.len() as u64);
            drawn(journals, seed)
                .map_err(|wrong| format!("seed {seed}: {wrong}\nagain: journals 1 {seed}"))
        }
    };
    match threads::over_all(chosen.len() as u64 + count, Journals::default, job) {
        Ok(journals) => report(count, &journals, begun),
        Err(wrong) => {
            println!("{wrong}");
            ExitCode::FAILURE
        }
    }
}

fn report(count: u64, journals: &[Journals], begun: Instant) -> ExitCode {
    let sum = |of: &dyn Fn(&Counts) -> u64| journals.iter().map(|j| of(&j.counts)).sum::<u64>();
    let replays: Vec<u64> = (0..OF_REPLAY.len()).map(|at| sum(&|c| c.not_replayed[at])).collect();
    let writers: Vec<u64> = (0..OF_WRITERS.len()).map(|at| sum(&|c| c.not_written[at])).collect();
    println!("{:>12}  journals of {} entries", sum(&|c| c.journals), sum(&|c| c.entries));
    println!("{:>12}  cuts, {} copies started again", sum(&|c| c.cuts), sum(&|c| c.restarts));
    println!("{:>12}  damaged journals", sum(&|c| c.damaged));
    println!("{:>12}  entries written", sum(&|c| c.written));
    told("replay", &OF_REPLAY, &replays);
    told("a writer", &OF_WRITERS, &writers);
    println!("{:>12}  calls compared", sum(&|c| c.calls));
    eprintln!("{:.1} seconds", begun.elapsed().as_secs_f64());
    if replays.contains(&0) || writers.contains(&0) {
        println!("a refusal was never given");
        return ExitCode::FAILURE;
    }
    println!("all that is chosen and {count} random runs: no difference");
    ExitCode::SUCCESS
}

fn told(name: &str, numbers: &[u32], counts: &[u64]) {
    for (number, count) in numbers.iter().zip(counts) {
        println!("{count:>12}  {name} refused {number}");
    }
}

fn chosen(short: &Book) -> Vec<Chosen> {
    let mut all = vec![Chosen::Lengths, Chosen::Long(0), Chosen::Long(1), Chosen::Cuts];
    for (n, s, copy) in [(3, 1, 0), (3, 2, 2), (5, 3, 1), (7, 2, 6), (7, 64, 3)] {
        all.push(Chosen::Writers(Setup { n, s, copy }));
    }
    all.extend((0..short.bytes.len()).map(Chosen::Damaged));
    all.push(Chosen::Long(100_000));
    all
}

fn one(journals: &mut Journals, short: &Book, part: Chosen) -> Result<(), String> {
    match part {
        Chosen::Long(count) => long(journals, count),
        Chosen::Lengths => lengths(),
        Chosen::Writers(setup) => writers(journals, setup),
        Chosen::Cuts => short.cut_everywhere(journals),
        Chosen::Damaged(at) => (0..=255).try_for_each(|value| {
            let mut bytes = short.bytes.clone();
            bytes[at] = value;
            damaged(journals, short, &bytes)
        }),
    }
}

/// Both sides agree on it, whatever it is.
fn damaged(journals: &mut Journals, book: &Book, bytes: &[u8]) -> Result<(), String> {
    journals.counts.damaged += 1;
    journals.replay(book.setup, &book.begun, bytes).map(drop)
}

fn committed(setup: Setup, mark: u8) -> Record {
    let mut deps = [0; 7];
    deps[..setup.n].fill(1);
    let own = Vote { status: COMMITTED, deps, ..Vote::default() };
    Record { own, mark, ..Record::default() }
}

/// Entries of both kinds: a blank record, one that this copy leads, and committed ones whose marks come with them, come
/// after them, and are gone again.
fn short(journals: &mut Journals) -> Result<Book, String> {
    let setup = Setup { n: 3, s: 2, copy: 1 };
    let mut table = make::blank(setup);
    let mut book = Book::new(setup, &table);
    let mut random = Random(2);
    let mut drawn = std::iter::repeat_with(|| make::record(&mut random, setup, 1));
    let led = drawn.find(|record| record.phase == 2).unwrap_or_default();
    let steps = [
        (RecordEntry(1, 1), led),
        (RecordEntry(2, 2), committed(setup, 0)),
        (MarkEntry(2, 2), committed(setup, 1)),
        (RecordEntry(0, 1), committed(setup, 1)),
        (MarkEntry(0, 1), committed(setup, 1)),
        (RecordEntry(0, 1), committed(setup, 0)),
        (RecordEntry(1, 1), Record::default()),
    ];
    for (call, record) in steps {
        let (RecordEntry(o, j) | MarkEntry(o, j)) = call else { continue };
        make::put(&mut table, make::place(setup, o, j), &record);
        book.write(journals, call, &table)?;
    }
    Ok(book)
}

fn lengths() -> Result<(), String> {
    let odd = [1 << 8, 276, 277, 1 << 16, (1 << 32) + 20, usize::MAX];
    for kind in (0..256).chain(odd) {
        // SAFETY: it is lent nothing.
        let got = unsafe { raw::pumxaqert_entry_length(kind) };
        let expected = u8::try_from(kind).ok().and_then(length_of).unwrap_or(0);
        if got != expected {
            return Err(format!("an entry of kind {kind} has {expected} bytes, not {got}"));
        }
    }
    Ok(())
}

/// Records and marks in turn onto a filled table, with cuts in the last entries, and a bad one at the end.
fn long(journals: &mut Journals, count: usize) -> Result<(), String> {
    let setup = Setup { n: 3, s: 4, copy: 0 };
    let mut random = Random(count as u64);
    let mut table = make::blank(setup);
    make::fill(&mut random, setup, &mut table, 50);
    let mut book = Book::new(setup, &table);
    for _ in 0..count {
        let (o, j) = (random.below(setup.n), random.between(1, setup.s));
        let at = make::place(setup, o, j);
        let mut record = make::get(&table, at);
        let call = match record.own.status == COMMITTED && random.chance(70) {
            true => {
                record.mark = 1;
                MarkEntry(o, j)
            }
            false => {
                record = make::record(&mut random, setup, o);
                RecordEntry(o, j)
            }
        };
        make::put(&mut table, at, &record);
        book.write(journals, call, &table)?;
    }
    book.holds(journals, &table)?;
    for entries in [0, count / 2, count.saturating_sub(1), count] {
        book.goes_on(journals, &mut random, entries)?;
    }
    bad_ends(journals, &book)
}

/// A bad entry behind all others is told by its own offset.
fn bad_ends(journals: &mut Journals, book: &Book) -> Result<(), String> {
    let unsound = [&[20, 0, 1, 0][..], &[7; RECORD_LEN]].concat();
    for (entry, number) in [(&[0][..], 41), (&[21, 3, 1, 0], 42), (&unsound, 43)] {
        let bytes = [&book.bytes[..], entry].concat();
        let told = journals.replay(book.setup, &book.begun, &bytes)?;
        if told != (Told { number, value: book.bytes.len() }) {
            return Err(format!("{told:?} of a bad entry at {}", book.bytes.len()));
        }
    }
    Ok(())
}

/// Where a record's replies begin, after mark, phase and set.
const REPLIES: usize = MARK_AT + 3;

const ODD: [usize; 6] = [255, 256, 257, 65_536, 1 << 32, usize::MAX];

fn writers(journals: &mut Journals, setup: Setup) -> Result<(), String> {
    let mut random = Random(setup.n as u64);
    for percent in [0, 50, 100] {
        let mut table = make::blank(setup);
        make::fill(&mut random, setup, &mut table, percent);
        every_instance(journals, setup, &table)?;
        every_room(journals, setup, &table)?;
        wrong_setups(journals, setup, &table)?;
        spoil(&mut random, &mut table);
        every_instance(journals, setup, &table)?;
        every_room(journals, setup, &table)?;
    }
    Ok(())
}

/// Changes some bytes of the head and of every record.
fn spoil(random: &mut Random, table: &mut [u8]) {
    let (head, records) = table.split_at_mut(HEAD_LEN);
    make::damage(random, head);
    for record in records.chunks_exact_mut(RECORD_LEN) {
        let most = random.pick(&[REPLIES, REPLIES, REPLIES, RECORD_LEN]);
        make::damage(random, &mut record[..most]);
    }
}

/// Both writers for every owner and number up to two above the last, and others far off.
fn every_instance(journals: &mut Journals, setup: Setup, table: &[u8]) -> Result<(), String> {
    let numbers = || (0..setup.s + 3).chain(ODD);
    (0..setup.n + 3).chain(ODD).flat_map(|o| numbers().map(move |j| (o, j))).try_for_each(
        |(o, j)| {
            journals.write(setup, RecordEntry(o, j), table, ROOM)?;
            journals.write(setup, MarkEntry(o, j), table, ROOM).map(drop)
        },
    )
}

fn every_room(journals: &mut Journals, setup: Setup, table: &[u8]) -> Result<(), String> {
    let instances = [(0, 1), (setup.n - 1, setup.s), (setup.n, 1), (0, 0), (0, setup.s + 1)];
    for (o, j) in instances {
        (0..=ROOM).try_for_each(|room| {
            journals.write(setup, RecordEntry(o, j), table, room)?;
            journals.write(setup, MarkEntry(o, j), table, room).map(drop)
        })?;
    }
    Ok(())
}

/// Every call with one number of the setup, or the table's length, wrong, and with more wrong besides.
fn wrong_setups(journals: &mut Journals, setup: Setup, table: &[u8]) -> Result<(), String> {
    let longer = [table, &[0]].concat();
    let mut lent: Vec<(Setup, &[u8])> = vec![(setup, &table[1..]), (setup, &longer), (setup, &[])];
    lent.extend([0, 1, 2, 4, 6, 8, 9, 256 + setup.n].map(|n| (Setup { n, ..setup }, table)));
    lent.extend([0, 65, setup.s + 1, 256 + setup.s].map(|s| (Setup { s, ..setup }, table)));
    lent.extend([setup.n, 7, 256].map(|copy| (Setup { copy, ..setup }, table)));
    lent.extend(ODD.map(|odd| (Setup { n: odd, s: odd, copy: odd }, table)));
    // A good copy number that is not the table's: no matter to a writer, unsound to replay.
    lent.push((Setup { copy: (setup.copy + 1) % setup.n, ..setup }, table));
    for (setup, table) in lent {
        every_call(journals, setup, table)?;
    }
    Ok(())
}

fn every_call(journals: &mut Journals, setup: Setup, table: &[u8]) -> Result<(), String> {
    for (room, o, j) in [(ROOM, 0, 1), (0, 0, 1), (ROOM, 7, 0), (0, 7, 0)] {
        journals.write(setup, RecordEntry(o, j), table, room)?;
        journals.write(setup, MarkEntry(o, j), table, room)?;
    }
    let bad: [&[u8]; 4] = [&[], &[9], &[21, 0, 1, 0], &[20, 0, 1]];
    bad.iter().try_for_each(|journal| journals.replay(setup, table, journal).map(drop))
}

/// A run whose copies keep journals: a short one and every byte of its journals, or now and then any.
fn drawn(journals: &mut Journals, seed: u64) -> Result<(), String> {
    let mut random = Random(!seed);
    let long = random.chance(15);
    let steps = (!long).then(|| random.between(5, 60));
    let books = world::journalled(seed, steps, journals)?;
    for book in &books {
        match long {
            true => book.cut_here_and_there(journals, &mut random)?,
            false => book.cut_everywhere(journals)?,
        }
        let whole = random.below(book.saves.len() + 1);
        book.goes_on(journals, &mut random, whole)?;
    }
    (0..20).try_for_each(|_| some_damage(journals, &mut random, &books))
}

/// A part of a copy's journal, spoilt in one of many ways.
fn some_damage(journals: &mut Journals, random: &mut Random, books: &[Book]) -> Result<(), String> {
    let (book, other) = (&books[random.below(books.len())], &books[random.below(books.len())]);
    let mut bytes = some_entries(random, book);
    match random.below(7) {
        0 | 1 => make::damage(random, &mut bytes),
        2 => damage_heads(random, &mut bytes),
        3 => {
            // As if a piece had been lost, or written twice.
            let (a, b) = (random.below(bytes.len() + 1), random.below(bytes.len() + 1));
            bytes = [&bytes[..a], &bytes[b..]].concat();
        }
        4 => {
            let other = some_entries(random, other);
            bytes.truncate(random.below(bytes.len() + 1));
            bytes.extend(&other[random.below(other.len() + 1)..]);
        }
        5 => bytes.extend(some_entries(random, other)),
        _ => bytes = any_bytes(random),
    }
    damaged(journals, book, &bytes)
}

/// Some entries in their order, the ones in between left out now and then.
fn some_entries(random: &mut Random, book: &Book) -> Vec<u8> {
    let most = random.pick(&[0, 20, 80, 100]);
    let mut bytes = Vec::new();
    let mut start = 0;
    for save in book.saves.iter().take(40) {
        if random.chance(most) {
            bytes.extend(&book.bytes[start..save.end]);
        }
        start = save.end;
    }
    bytes
}

/// One entry's kind, owner or number changed.
fn damage_heads(random: &mut Random, bytes: &mut [u8]) {
    let mut at = 0;
    while let Some(length) = bytes.get(at).and_then(|&kind| length_of(kind)) {
        if random.chance(20) && at + 4 <= bytes.len() {
            let byte = random.below(4);
            bytes[at + byte] = random.pick(&[0, 1, 2, 3, 5, 7, 19, 20, 21, 22, 64, 65, 255]);
        }
        at += length;
    }
}

/// Any bytes, mostly after the head of an entry.
fn any_bytes(random: &mut Random) -> Vec<u8> {
    let length = random.below(600);
    let mut bytes: Vec<u8> = (0..length).map(|_| random.word() as u8).collect();
    let head = [random.pick(&[20, 21]), random.below(4) as u8, random.below(4) as u8, 0];
    if random.chance(80) && length >= head.len() {
        bytes[..head.len()].copy_from_slice(&head);
    }
    bytes
}
