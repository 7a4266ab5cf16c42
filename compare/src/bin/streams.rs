//! streams COUNT [SEED]: a stream of all twelve kinds in every cutting into two and three pieces, with every offset of it
//! made an unknown kind, and places that no stream leads to; then so many random streams, cuttings and places. Every
//! answer, place and buffer must be the second program's, and what comes out what the uncut stream says.

use compare::random::Random;
use compare::streams::{read, Counts, Readers};
use compare::{make, threads, LENGTHS, LONGEST, UNTOUCHED};
use pumxaqert::Setup;
use second::broken;
use second::message::{encode, LAST_KIND};
use second::stream::Place;
use std::process::ExitCode;
use std::time::Instant;

const ROOMS: std::ops::RangeInclusive<usize> = 64..=300;
const UNKNOWN: [u8; 4] = [0, LAST_KIND + 1, 0x80, 255];

/// What is chosen and not drawn, in parts that can be done at the same time.
#[derive(Clone, Copy)]
enum Chosen {
    /// Every cutting into two pieces, and pieces of one length, through a buffer of this room.
    Two(usize),
    /// Every cutting into three pieces with this first cut, through a buffer of this room.
    Three(usize, usize),
    /// Another byte at this offset.
    Unknown(usize),
    /// Every place that begins at this byte of a buffer of this room.
    Places(usize, usize),
    /// Numbers up to the largest, the first of them this one.
    Large(usize),
}

fn main() -> ExitCode {
    let words: Vec<u64> = std::env::args().skip(1).filter_map(|word| word.parse().ok()).collect();
    let Some(&count) = words.first() else {
        eprintln!("usage: streams COUNT [SEED]");
        return ExitCode::from(2);
    };
    let seed = words.get(1).copied().unwrap_or(1);
    let begun = Instant::now();
    let (all, chosen) = (all_kinds(), chosen());
    let job = |readers: &mut Readers, i: u64| match chosen.get(i as usize) {
        Some(&part) => one(readers, &all, part).map_err(|wrong| format!("input {i}: {wrong}")),
        None => {
            let seed = seed.wrapping_add(i - chosen.len() as u64);
            drawn(readers, &mut Random(seed))
                .map_err(|wrong| format!("seed {seed}: {wrong}\nagain: streams 1 {seed}"))
        }
    };
    match threads::over_all(chosen.len() as u64 + count, Readers::default, job) {
        Ok(readers) => {
            report(&readers);
            eprintln!("{:.1} seconds", begun.elapsed().as_secs_f64());
            println!("all that is chosen and {count} random streams: no difference");
            ExitCode::SUCCESS
        }
        Err(wrong) => {
            println!("{wrong}");
            ExitCode::FAILURE
        }
    }
}

fn report(readers: &[Readers]) {
    let sum = |of: fn(&Counts) -> u64| readers.iter().map(|r| of(&r.counts)).sum::<u64>();
    println!("{:>12}  streams, {} of them stopped", sum(|c| c.streams), sum(|c| c.stops));
    println!("{:>12}  messages", sum(|c| c.messages));
    let [unsound, small] = [sum(|c| c.unsound), sum(|c| c.small)];
    println!("{:>12}  calls on places, {unsound} refused 11, {small} refused 2", sum(|c| c.places));
    println!("{:>12}  calls compared", sum(|c| c.calls));
}

/// A valid message of each kind, one after another.
fn all_kinds() -> Vec<u8> {
    let mut all = Vec::new();
    for kind in 1..=LAST_KIND {
        let mut bytes = [0; LONGEST];
        let length = encode(&broken::valid(7, 1, kind, 3), &mut bytes);
        all.extend(&bytes[..length]);
    }
    all
}

fn chosen() -> Vec<Chosen> {
    let length = LENGTHS.iter().sum::<usize>();
    let mut all: Vec<Chosen> = ROOMS.map(Chosen::Two).collect();
    for room in [64, 101, length] {
        all.extend((0..=length).map(|first| Chosen::Three(room, first)));
    }
    all.extend((0..=length).map(Chosen::Unknown));
    for room in [0, 3, 63, 64] {
        all.extend((0..=room + 1).map(|at| Chosen::Places(room, at)));
    }
    all.extend((0..large().len()).map(Chosen::Large));
    all
}

fn one(readers: &mut Readers, all: &[u8], part: Chosen) -> Result<(), String> {
    match part {
        Chosen::Two(room) => two(readers, all, room),
        Chosen::Three(room, first) => (first..=all.len())
            .try_for_each(|second| read(readers, all, &[first, second], room, &mut || usize::MAX)),
        Chosen::Unknown(at) => UNKNOWN.iter().try_for_each(|&byte| unknown(readers, all, at, byte)),
        Chosen::Places(room, at) => places(readers, room, at),
        Chosen::Large(first) => large_places(readers, large()[first]),
    }
}

/// All messages asked for after each take, or none before the buffer is full.
const ASKED: [usize; 2] = [usize::MAX, 0];

fn two(readers: &mut Readers, all: &[u8], room: usize) -> Result<(), String> {
    for asked in ASKED {
        for cut in 0..=all.len() {
            // Empty calls before and after.
            read(readers, all, &[0, cut, cut, all.len()], room, &mut || asked)?;
        }
        for length in [1, 2, 3, 5, 10, 41] {
            let cuts: Vec<usize> = (0..all.len()).step_by(length).collect();
            read(readers, all, &cuts, room, &mut || asked)?;
        }
    }
    Ok(())
}

/// The byte at this offset, or one after all of them, is of no kind: a stop if a message should begin there.
fn unknown(readers: &mut Readers, all: &[u8], at: usize, byte: u8) -> Result<(), String> {
    let mut stream = all.to_vec();
    stream.push(byte);
    stream[at] = byte;
    stream.extend(all);
    for (turn, cut) in (0..=all.len() + 1).step_by(3).enumerate() {
        let room = [64, 65, 128, 300][turn % 4];
        read(readers, &stream, &[cut], room, &mut || ASKED[turn % 2])?;
    }
    let bytes: Vec<usize> = (1..stream.len()).collect();
    read(readers, &stream, &bytes, 64, &mut || usize::MAX)
}

/// What the buffer holds does not matter to whether a place is refused: a part of a message, a whole one, a stop.
fn places(readers: &mut Readers, room: usize, at: usize) -> Result<(), String> {
    for end in 0..=room + 1 {
        for offset in 0..=at + 90 {
            let kind = [1, 2, 4, 12, 13][(end + offset) % 5];
            let buf = vec![kind; room];
            readers.probe(&buf, Place { at, end, offset }, &[3, 0, 13])?;
        }
    }
    Ok(())
}

/// Numbers at every bound, and sums of lengths near them.
fn large() -> Vec<usize> {
    let ends = [0, 1, 9, 10, 14, 20, 36, 37, 41, 46, 53, 54, 63, 64, 65, 73, 74, 83, 300, 301];
    let far = [1 << 31, 1 << 32, 1 << 63].into_iter().flat_map(|far| [far - 1, far]);
    ends.into_iter().chain(far).chain(ends.map(|near| usize::MAX - near)).collect()
}

fn large_places(readers: &mut Readers, at: usize) -> Result<(), String> {
    for end in large() {
        for offset in large() {
            for (room, kind) in [(0, 1), (63, 4), (64, 4), (65, 13), (300, 12)] {
                let place = Place { at, end, offset };
                readers.probe(&vec![kind; room], place, &[4; 80])?;
            }
        }
    }
    Ok(())
}

fn drawn(readers: &mut Readers, random: &mut Random) -> Result<(), String> {
    let stream = some_stream(random);
    let mut cuts: Vec<usize> = match random.below(4) {
        0 => (0..stream.len()).collect(),
        1 => (0..stream.len()).step_by(random.between(2, 80)).collect(),
        _ => (0..random.below(12)).map(|_| random.below(stream.len() + 1)).collect(),
    };
    cuts.sort();
    let room = random.between(*ROOMS.start(), *ROOMS.end());
    let mut asked: Box<dyn FnMut() -> usize> = match random.below(3) {
        0 => Box::new(|| usize::MAX),
        1 => Box::new(|| 0),
        _ => {
            let mut other = Random(random.word());
            Box::new(move || other.below(4))
        }
    };
    read(readers, &stream, &cuts, room, &mut asked)?;
    (0..4).try_for_each(|_| some_place(readers, random))
}

/// Messages that a copy might get, and known kinds with any bytes; now and then an unknown kind, and a part of a message
/// at the end.
fn some_stream(random: &mut Random) -> Vec<u8> {
    let setup = Setup { n: 7, s: 2, copy: 3 };
    let blank = make::blank(setup);
    let stops = random.chance(30);
    let mut stream = Vec::new();
    for _ in 0..random.below(15) {
        let mut bytes = [0; LONGEST];
        let mut length = make::bytes(&make::message(random, setup, &blank), &mut bytes);
        if random.chance(50) {
            bytes = std::array::from_fn(|_| random.word() as u8);
            bytes[0] = random.between(1, LAST_KIND as usize) as u8;
            length = LENGTHS[bytes[0] as usize];
        }
        if stops && random.chance(15) {
            bytes[0] = random.pick(&UNKNOWN);
        }
        stream.extend(&bytes[..length]);
    }
    if random.chance(50) {
        stream.truncate(random.below(stream.len() + 1));
    }
    stream
}

/// Mostly one that a stream could lead to, and then one number of it off by a little; or any numbers.
fn some_place(readers: &mut Readers, random: &mut Random) -> Result<(), String> {
    let room = random.pick(&[0, 63, 64, 64, 65, 100, 200, 300]);
    let mut sum = |most: usize| (0..most).map(|_| random.pick(&LENGTHS)).sum::<usize>();
    let (at, before) = (sum(6), sum(9));
    let end = at + random.below(60);
    let mut place = Place { at, end, offset: at + before };
    match random.below(6) {
        0 => place.at = place.at.wrapping_add_signed(random.below(5) as isize - 2),
        1 => place.end = random.below(room + 2),
        2 => place.offset = place.offset.wrapping_add_signed(random.below(5) as isize - 2),
        3 => place.offset = usize::MAX - random.below(100),
        4 => {
            let [at, end, offset] = [0; 3].map(|_| random.word() as usize >> random.below(64));
            place = Place { at, end, offset };
        }
        _ => {}
    }
    let mut buf = vec![UNTOUCHED; room];
    buf.iter_mut().for_each(|byte| *byte = random.below(14) as u8);
    let bytes: Vec<u8> = (0..random.below(80)).map(|_| random.below(14) as u8).collect();
    readers.probe(&buf, place, &bytes)
}
