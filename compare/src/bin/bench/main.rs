//! bench [quick | searches | messages | streams | journals | orders]: the library beside the second program, as Markdown for docs/BENCH.md. Every figure of a line was
//! measured in the same rounds, turn and turn about; times are medians.

mod seeing;

use compare::both::{library_side, second_side, Call, Lent, LIST, OUT};
use compare::cases::{self, Case};
use compare::guarded::StreamCall;
use compare::measure::Rounds;
use compare::random::Random;
use compare::stack::Stack;
use compare::{linear, make, shapes, streams, sweeps, LONGEST, UNTOUCHED, UNTOUCHED_CODE};
use pumxaqert::{raw, Setup, Stream};
use second::stream::{self, Next, Place, Took};
use second::table::{MARK_AT, RECORD_LEN};
use second::{broken, fields, journal, Refusal};
use std::hint::black_box;
use std::time::Duration;

const LARGEST: Setup = Setup { n: 7, s: 64, copy: 0 };

fn main() {
    let word = std::env::args().nth(1).unwrap_or_default();
    let rounds = match &word[..] {
        "quick" => Rounds { rounds: 5, each: Duration::from_micros(100) },
        // Short turns and many of them: what another program takes of the processor then falls into few of them.
        _ => Rounds { rounds: 101, each: Duration::from_micros(200) },
    };
    match &word[..] {
        "searches" => return seeing::searches(&rounds),
        "messages" => return messages(&rounds),
        "streams" => return streams(&rounds),
        "journals" => return journals(&rounds),
        "orders" => return orders(&rounds),
        _ => {}
    }
    limits(&rounds);
    largest(&rounds);
    sizes(&rounds, false);
    sizes(&rounds, true);
    seeing::searches(&rounds);
    messages(&rounds);
    streams(&rounds);
    journals(&rounds);
    orders(&rounds);
    growth(&rounds);
    stack();
}

/// The value counts as used.
fn keep<T>(value: T) {
    black_box(value);
}

/// One load and one add a byte: an empty piece of assembly holds the sum, so that no two bytes are added at once.
#[inline(never)]
fn sum_by_bytes(t: &[u8]) -> u64 {
    let mut sum = 0u64;
    for &byte in t {
        sum += byte as u64;
        // SAFETY: it does nothing.
        unsafe {
            std::arch::asm!("/* {0} */", inout(reg) sum, options(nomem, nostack, preserves_flags))
        };
    }
    sum
}

/// The plain loop, which the compiler adds many bytes at a time.
#[inline(never)]
fn sum_by_vectors(t: &[u8]) -> u64 {
    t.iter().map(|&byte| byte as u64).sum()
}

/// Each byte goes through memory of its own on its way.
#[inline(never)]
fn sum_by_black_box(t: &[u8]) -> u64 {
    t.iter().map(|&byte| black_box(byte) as u64).sum()
}

fn limits(rounds: &Rounds) {
    let t = shapes::full(LARGEST);
    let times = rounds.medians(&mut [
        &mut || keep(sum_by_bytes(black_box(&t))),
        &mut || keep(sum_by_black_box(black_box(&t))),
        &mut || keep(sum_by_vectors(black_box(&t))),
    ]);
    println!("## The physical limit: a sum over the {} bytes of N = 7, S = 64\n", t.len());
    println!("| sum | time |\n|---|---|");
    println!("| byte by byte, one load and one add each | {} |", time(times[0]));
    println!("| byte by byte through `black_box` | {} |", time(times[1]));
    println!("| plain loop, vectorised by the compiler | {} |", time(times[2]));
}

fn time(nanoseconds: f64) -> String {
    match nanoseconds {
        t if t < 1e3 => format!("{t:.0} ns"),
        t => format!("{:.1} µs", t / 1e3),
    }
}

fn lent() -> Lent {
    Lent { out: [UNTOUCHED; OUT], list: [UNTOUCHED_CODE; LIST] }
}

/// Library, second program, byte sum: the event alone. Putting the record back is measured too and taken off both.
fn event(rounds: &Rounds, case: &Case) -> [f64; 3] {
    let mut tables = vec![case.table.clone(); 3];
    let [ours, theirs, bare] = &mut tables[..] else { unreachable!("three tables") };
    let (mut a, mut b) = (lent(), lent());
    let (at, end) = (case.at, case.at + RECORD_LEN);
    let (setup, call) = (case.setup, case.event.call());
    let times = rounds.medians(&mut [
        &mut || {
            keep(library_side(setup, OUT, black_box(call), theirs, &mut a));
            theirs[at..end].copy_from_slice(black_box(&case.record));
        },
        &mut || {
            keep(second_side(setup, OUT, black_box(call), ours, &mut b));
            ours[at..end].copy_from_slice(black_box(&case.record));
        },
        &mut || black_box(&mut *bare)[at..end].copy_from_slice(black_box(&case.record)),
        &mut || keep(sum_by_bytes(black_box(&case.table))),
    ]);
    [times[0] - times[2], times[1] - times[2], times[3]]
}

fn largest(rounds: &Rounds) {
    println!("\n## Events on a full table of N = 7, S = 64\n");
    println!("| event | library | second | ratio (at most 1.1) | of the byte sum (at most 2) |");
    println!("|---|---|---|---|---|");
    for case in cases::events(LARGEST, true) {
        line(case.name, event(rounds, &case));
    }
    // The table that is dearest to judge.
    let busy = cases::busy(LARGEST);
    let mut last = cases::events(LARGEST, true).remove(1);
    let at = last.at;
    last.table = busy;
    last.table[at..at + RECORD_LEN].copy_from_slice(&last.record);
    line("PreAccept, all records in a phase with all replies", event(rounds, &last));
}

fn line(name: &str, [library, second, sum]: [f64; 3]) {
    let (ratio, of_sum) = (library / second, library / sum);
    println!("| {name} | {} | {} | {ratio:.2} | {of_sum:.2} |", time(library), time(second));
}

fn sizes(rounds: &Rounds, full: bool) {
    let sizes: Vec<Setup> = [3, 5, 7]
        .into_iter()
        .flat_map(|n| [1, 8, 64].into_iter().map(move |s| Setup { n, s, copy: 0 }))
        .collect();
    let words = if full { "full" } else { "empty" };
    println!("\n## Events on {words} tables: the library's time, and its ratio to the second program's\n");
    let heads: String = sizes.iter().map(|z| format!(" N={} S={} |", z.n, z.s)).collect();
    println!("| event |{heads}\n|---|{}", "---|".repeat(sizes.len()));
    let all: Vec<Vec<Case>> = sizes.iter().map(|&setup| cases::events(setup, full)).collect();
    for at in 0..all[0].len() {
        print!("| {} |", all[0][at].name);
        for cases in &all {
            let [library, second, _] = event(rounds, &cases[at]);
            print!(" {}, {:.2} |", time(library), library / second);
        }
        println!();
    }
}

/// By kind, from 1 on.
const NAMES: [&str; 12] = [
    "PreAccept",
    "PreAcceptOK",
    "Accept",
    "AcceptOK",
    "Commit",
    "Prepare",
    "PrepareOK",
    "Nack",
    "PreAccept, a rewire",
    "Accept, a rewire",
    "Commit, a rewire",
    "PrepareOK, a rewire",
];

/// A valid message to copy 0.
fn message_of(kind: u8) -> second::Message {
    let (from, owner, ballot) = match broken::body_of(kind) {
        6 => (2, 1, 10),
        7 => (1, 1, 8),
        body => (1, (body % 2) as usize, 0),
    };
    cases::message(kind, from, owner, 64, ballot)
}

fn messages(rounds: &Rounds) {
    println!("\n## Messages, N = 7, S = 64: the C calls, and the second program to and from the same numbers\n");
    let heads = "library | second | ratio (at most 1) | second, its own struct | wrapper";
    println!("| kind | read: {heads} | write: {heads} |");
    println!("|---|{}", "---|".repeat(10));
    for (kind, name) in (1u8..).zip(NAMES) {
        let [read, write] = message(rounds, &message_of(kind));
        let cells = |[library, second, own, wrapper]: [f64; 4]| {
            let ratio = library / second;
            format!("{library:.1} ns | {second:.1} ns | {ratio:.2} | {own:.1} ns | {wrapper:.1} ns")
        };
        println!("| {name} | {} | {} |", cells(read), cells(write));
    }
    refusing(rounds);
}

/// Each refusal's time beside that of the message accepted.
fn refusing(rounds: &Rounds) {
    println!("\n## Refusing a message, N = 7, S = 64: the C call's time by that of accepting (at most 1.5), and the second program's\n");
    let reasons = "31 | 32 | 35, first field | 33 | 34 | 35, last field";
    println!("| kind | accepted: library | second | {reasons} |");
    println!("|---|{}", "---|".repeat(8));
    for (kind, name) in (1u8..).zip(NAMES) {
        let messages = refused(kind);
        let [library, second] = reading(rounds, &messages);
        print!("| {name} | {:.1} ns | {:.1} ns |", library[0], second[0]);
        for (at, message) in messages.iter().enumerate().skip(1) {
            match message.is_empty() {
                true => print!(" |"),
                false => {
                    print!(" {:.2} ({:.2}) |", library[at] / library[0], second[at] / second[0])
                }
            }
        }
        println!();
    }
}

/// A valid message, and with one thing changed: its kind, its length, its sender to none, its receiver, its lead (empty
/// where the kind asks for none), its last field.
fn refused(kind: u8) -> [Vec<u8>; 7] {
    let mut bytes = [0; LONGEST];
    let length = second::message::encode(&message_of(kind), &mut bytes);
    let whole = bytes[..length].to_vec();
    let with = |at: usize, byte: u8| {
        let mut changed = whole.clone();
        changed[at] = byte;
        changed
    };
    let last = match kind {
        4 | 6 => with(6, 7),
        8 => with(10, 7),
        _ => with(length - 2, 65),
    };
    let led_by_5 = if broken::body_of(kind) == 5 { Vec::new() } else { with(6, 29) };
    let longer = [&whole[..], &[0]].concat();
    [whole.clone(), with(0, 13), longer, with(1, 7), with(2, 3), led_by_5, last]
}

/// The C call and the second program to the same numbers, for each of the messages.
fn reading(rounds: &Rounds, messages: &[Vec<u8>; 7]) -> [Vec<f64>; 2] {
    let library = |bytes: &[u8]| {
        let (mut f, mut offset) = ([0; fields::COUNT], 0);
        let (at, length) = (black_box(bytes).as_ptr(), bytes.len());
        // SAFETY: all areas are lent with their lengths.
        unsafe {
            let f = black_box(&mut f);
            keep(raw::pumxaqert_read_message(7, 64, 0, at, length, f, &mut offset));
        }
        keep(offset);
    };
    let second = |bytes: &[u8]| {
        let mut f = [0; fields::COUNT];
        let answer = second::read_message(7, 64, 0, black_box(bytes));
        if let Ok(m) = &answer {
            fields::put(m, black_box(&mut f));
        }
        keep((answer.err(), f));
    };
    let mut theirs: Vec<_> = messages.iter().map(|bytes| move || library(bytes)).collect();
    let mut ours: Vec<_> = messages.iter().map(|bytes| move || second(bytes)).collect();
    let mut all: Vec<&mut dyn FnMut()> = Vec::new();
    all.extend(theirs.iter_mut().map(|f| f as &mut dyn FnMut()));
    all.extend(ours.iter_mut().map(|f| f as &mut dyn FnMut()));
    let times = rounds.medians(&mut all);
    [times[..7].to_vec(), times[7..].to_vec()]
}

/// Reading and writing: the C call, the second program with numbers and with its struct, and the wrapper, which makes
/// an enum of the numbers.
fn message(rounds: &Rounds, m: &second::Message) -> [[f64; 4]; 2] {
    let mut outs = [[0; 256]; 4];
    let length = second::write_message(7, 64, 0, &mut outs[0], m).expect("a valid message");
    let copied = outs[0];
    let bytes = &copied[..length];
    let wrapped = LARGEST.read_message(bytes).expect("a valid message");
    let numbers = fields::fields(m);
    let [c_out, numbers_out, struct_out, wrapper_out] = &mut outs;
    let (mut read, mut other, mut written) = ([0; fields::COUNT], [0; fields::COUNT], 0);
    let (mut at_read, mut at_written) = (0, 0);
    // SAFETY: all areas are arrays, lent with their lengths.
    let times = rounds.medians(&mut [
        &mut || unsafe {
            let (at, length) = (black_box(bytes).as_ptr(), bytes.len());
            let read = black_box(&mut read);
            keep(raw::pumxaqert_read_message(7, 64, 0, at, length, read, &mut at_read));
        },
        &mut || {
            if let Ok(m) = second::read_message(7, 64, 0, black_box(bytes)) {
                fields::put(&m, black_box(&mut other));
            }
        },
        &mut || keep(second::read_message(7, 64, 0, black_box(bytes))),
        &mut || keep(LARGEST.read_message(black_box(bytes))),
        &mut || unsafe {
            let (at, f) = (black_box(&mut *c_out).as_mut_ptr(), black_box(&numbers));
            let (written, offset) = (&mut written, &mut at_written);
            keep(raw::pumxaqert_write_message(7, 64, 0, at, 256, f, written, offset));
        },
        &mut || keep(fields::write(7, 64, 0, black_box(&mut *numbers_out), black_box(&numbers))),
        &mut || keep(second::write_message(7, 64, 0, black_box(&mut *struct_out), black_box(m))),
        &mut || keep(LARGEST.write_message(black_box(&mut *wrapper_out), black_box(&wrapped))),
    ]);
    [[times[0], times[1], times[2], times[3]], [times[4], times[5], times[6], times[7]]]
}

/// The eight kinds without a rewire in turn; the end cuts a message.
fn eight_kinds(length: usize) -> Vec<u8> {
    let mut all = Vec::new();
    for kind in (1..=8).cycle() {
        if all.len() >= length {
            break;
        }
        let mut bytes = [0; LONGEST];
        let whole = second::message::encode(&broken::valid(7, 0, kind, 3), &mut bytes);
        all.extend(&bytes[..whole]);
    }
    all.truncate(length);
    all
}

fn streams(rounds: &Rounds) {
    let bytes = eight_kinds(65_536);
    println!(
        "\n## A stream of {} bytes, kinds 1 to 8, every message read after each take\n",
        bytes.len()
    );
    let seconds = "second, called as the library is | ratio | second, its own struct | ratio";
    println!("| buffer | pieces | library | {seconds} | plain copy | library by the copy |");
    println!("|---|---|---|---|---|---|---|---|---|");
    for room in [64, 65_536] {
        for piece in [1, 16, 1460, 65_536] {
            let [library, second, own, copy] = stream(rounds, &bytes, room, piece);
            println!(
                "| {room} | {piece} | {} | {} | {:.2} | {} | {:.2} | {} | {:.2} |",
                time(library),
                time(second),
                library / second,
                time(own),
                library / own,
                time(copy),
                library / copy
            );
        }
    }
}

/// Library, the second program called as the library is and by its own struct, and a plain copy of the pieces into the
/// buffer.
fn stream(rounds: &Rounds, bytes: &[u8], room: usize, piece: usize) -> [f64; 4] {
    let mut bufs = vec![vec![0; room]; 4];
    let [theirs, ours, own, copied] = &mut bufs[..] else { unreachable!("four buffers") };
    let times = rounds.medians(&mut [
        &mut || {
            let mut stream = Stream::begin(theirs).expect("room enough");
            hand_over(bytes, piece, |piece| {
                let count = stream.take(piece).expect("no stop");
                stream.messages().for_each(keep);
                count
            });
        },
        &mut || second_by_calls(bytes, piece, ours),
        &mut || {
            let mut stream = stream::Stream::begin(own).expect("room enough");
            hand_over(bytes, piece, |piece| {
                let Took::Bytes(count) = stream.take(piece) else { unreachable!("no stop") };
                while let Next::Message(message) = stream.next_message() {
                    keep(message);
                }
                count
            });
        },
        &mut || {
            hand_over(bytes, piece, |piece| {
                let count = piece.len().min(room);
                copied[..count].copy_from_slice(&piece[..count]);
                keep(&mut *copied);
                count
            });
        },
    ]);
    [times[0], times[1], times[2], times[3]]
}

fn second_by_calls(bytes: &[u8], piece: usize, buf: &mut [u8]) {
    let (mut place, mut values) = ([0; 3], [0; 3]);
    hand_over(bytes, piece, |piece| {
        keep(second_take(buf, &mut place, piece, &mut values));
        let count = values[0];
        while second_next(buf, &mut place, &mut values) == 0 && values[0] == 1 {
            let [_, start, length] = values;
            keep(&buf[start..start + length]);
        }
        count
    });
}

#[inline(never)]
fn second_take(
    buf: &mut [u8],
    place: &mut [usize; 3],
    bytes: &[u8],
    values: &mut [usize; 3],
) -> u32 {
    on_numbers(StreamCall::Take, buf, place, bytes, values)
}

#[inline(never)]
fn second_next(buf: &mut [u8], place: &mut [usize; 3], values: &mut [usize; 3]) -> u32 {
    on_numbers(StreamCall::Next, buf, place, &[], values)
}

/// Judges the place, and goes to and from the C call's numbers.
#[inline(always)]
fn on_numbers(
    call: StreamCall,
    buf: &mut [u8],
    place: &mut [usize; 3],
    bytes: &[u8],
    values: &mut [usize; 3],
) -> u32 {
    let [at, end, offset] = *place;
    let mut moved = Place { at, end, offset };
    let (number, told) = streams::second_side(call, buf, &mut moved, bytes).told();
    (*place, *values) = (streams::lent(moved), told);
    number
}

/// Hands the bytes over in pieces of this length; what was not taken is offered again.
#[inline(always)]
fn hand_over(bytes: &[u8], length: usize, mut take: impl FnMut(&[u8]) -> usize) {
    for mut piece in black_box(bytes).chunks(length) {
        while !piece.is_empty() {
            piece = &piece[take(piece)..];
        }
    }
}

type Writer = fn(&[u8], usize, usize, usize, &mut [u8], usize, usize) -> Result<usize, Refusal>;

fn journals(rounds: &Rounds) {
    println!("\n## Journals, S = 64: replay onto a table, which is judged first\n");
    let heads =
        "library | second | ratio (at most 1.1) | plain copy of the journal | library by the copy";
    println!("| N | entries | of them marks | {heads} |\n|---|---|---|---|---|---|---|---|");
    for n in [3, 5, 7] {
        for count in [1, 100, 10_000, 100_000] {
            replay_line(rounds, Setup { n, s: 64, copy: 0 }, count, false);
            replay_line(rounds, Setup { n, s: 64, copy: 0 }, count, true);
        }
    }
    println!(
        "\n| N = 7: entry written | library | second | ratio (at most 1.1) |\n|---|---|---|---|"
    );
    let (mut full, busy) = (shapes::full(LARGEST), cases::busy(LARGEST));
    let record: (raw::WritesEntry, Writer) = (raw::pumxaqert_record_entry, journal::record_entry);
    write_line(rounds, "record, committed", &full, record);
    write_line(rounds, "record, in a phase with all replies", &busy, record);
    full[make::place(LARGEST, 6, 64) + MARK_AT] = 1;
    write_line(rounds, "mark", &full, (raw::pumxaqert_mark_entry, journal::mark_entry));
}

/// So many entries, of any sound records; or of marks and committed records in turn.
fn some_entries(setup: Setup, count: usize, marks: bool) -> Vec<u8> {
    let Setup { n, s, copy } = setup;
    let (mut random, mut t, mut room) = (Random(3), shapes::full(setup), [0; 300]);
    let mut bytes = Vec::new();
    for at in 0..count {
        let is_mark = marks && at % 2 == 0;
        let (o, j) = (random.below(n), random.between(1, s));
        let place = make::place(setup, o, j);
        match marks {
            true => t[place + MARK_AT] = is_mark as u8,
            false => make::put(&mut t, place, &make::record(&mut random, setup, o)),
        }
        let writer: Writer = if is_mark { journal::mark_entry } else { journal::record_entry };
        let length = writer(&t, n, s, copy, &mut room, o, j).expect("a sound record, or a mark");
        bytes.extend(&room[..length]);
    }
    bytes
}

fn replay_line(rounds: &Rounds, setup: Setup, count: usize, marks: bool) {
    let Setup { n, s, copy } = setup;
    let bytes = some_entries(setup, count, marks);
    let (mut ours, mut theirs) = (shapes::full(setup), shapes::full(setup));
    let (mut copied, mut offset) = (vec![0; bytes.len()], 0);
    // SAFETY: all areas are lent with their lengths.
    let times = rounds.medians(&mut [
        &mut || unsafe {
            let (t, bytes) = (black_box(&mut theirs), black_box(&bytes));
            let (t, t_len) = (t.as_mut_ptr(), t.len());
            let (at, length) = (bytes.as_ptr(), bytes.len());
            keep(raw::pumxaqert_replay(t, t_len, n, s, copy, at, length, &mut offset));
        },
        &mut || keep(journal::replay(black_box(&mut ours), n, s, copy, black_box(&bytes))),
        &mut || black_box(&mut copied).copy_from_slice(black_box(&bytes)),
    ]);
    assert_eq!((offset, ours), (bytes.len(), theirs), "both replay the whole journal");
    let [library, second, copy] = [times[0], times[1], times[2]];
    println!(
        "| {n} | {count} | {} | {} | {} | {:.2} | {} | {:.1} |",
        if marks { count.div_ceil(2) } else { 0 },
        time(library),
        time(second),
        library / second,
        time(copy),
        library / copy
    );
}

/// Writing the entry of the instance that comes last.
fn write_line(rounds: &Rounds, name: &str, t: &[u8], (c_call, writer): (raw::WritesEntry, Writer)) {
    let (mut ours, mut theirs, mut written) = ([0; 300], [0; 300], 0);
    // SAFETY: all areas are lent with their lengths.
    let times = rounds.medians(&mut [
        &mut || unsafe {
            let (t, out) = (black_box(t), black_box(&mut theirs));
            let (at, length) = (t.as_ptr(), t.len());
            let (out, room) = (out.as_mut_ptr(), out.len());
            keep(black_box(c_call)(at, length, 7, 64, 0, out, room, 6, 64, &mut written));
        },
        &mut || keep(black_box(writer)(black_box(t), 7, 64, 0, black_box(&mut ours), 6, 64)),
    ]);
    assert_eq!(ours, theirs, "both write the entry");
    println!("| {name} | {:.1} ns | {:.1} ns | {:.2} |", times[0], times[1], times[0] / times[1]);
}

fn orders(rounds: &Rounds) {
    println!("\n## Settled and hand-out, 448 instances\n");
    let hand_outs = "library | second | ratio | same method in Rust | ratio (at most 1.5) | linear | ratio (under 5)";
    println!("| shape | settled: library | second | ratio | hand-out: {hand_outs} |");
    println!("|---|---|---|---|---|---|---|---|---|---|---|");
    for (name, table) in shapes::orders(LARGEST) {
        let settled = settled(rounds, &table);
        let [library, second, same, linear] = hand_out(rounds, &table);
        println!(
            "| {name} | {} | {} | {:.2} | {} | {} | {:.2} | {} | {:.2} | {} | {:.2} |",
            time(settled[0]),
            time(settled[1]),
            settled[0] / settled[1],
            time(library),
            time(second),
            library / second,
            time(same),
            library / same,
            time(linear),
            library / linear
        );
    }
}

/// Of the instance that comes last.
fn settled(rounds: &Rounds, table: &[u8]) -> [f64; 2] {
    let (mut ours, mut theirs, mut a, mut b) = (table.to_vec(), table.to_vec(), lent(), lent());
    let call = Call::Settled(6, 64);
    let times = rounds.medians(&mut [
        &mut || keep(library_side(LARGEST, OUT, black_box(call), &mut theirs, &mut a)),
        &mut || keep(second_side(LARGEST, OUT, black_box(call), &mut ours, &mut b)),
    ]);
    [times[0], times[1]]
}

/// Library, second, the same method in Rust, linear; taking the marks off again is measured too and taken off all.
fn hand_out(rounds: &Rounds, table: &[u8]) -> [f64; 4] {
    let mut tables = vec![table.to_vec(); 5];
    let [ours, theirs, same, line, bare] = &mut tables[..] else { unreachable!("five tables") };
    let (mut a, mut b, mut other, mut list) = (lent(), lent(), [0; 448], [0; 448]);
    let call = Call::HandOut(448);
    let times = rounds.medians(&mut [
        &mut || {
            black_box(library_side(LARGEST, OUT, black_box(call), theirs, &mut a));
            unmark(theirs);
        },
        &mut || {
            black_box(second_side(LARGEST, OUT, black_box(call), ours, &mut b));
            unmark(ours);
        },
        &mut || {
            keep(sweeps::hand_out(same, 7, 64, 0, black_box(&mut other)));
            unmark(same);
        },
        &mut || {
            keep(linear::hand_out(line, 7, 64, 0, black_box(&mut list)));
            unmark(line);
        },
        &mut || unmark(black_box(bare)),
    ]);
    [0, 1, 2, 3].map(|at| times[at] - times[4])
}

fn unmark(t: &mut [u8]) {
    for o in 0..7 {
        for j in 1..=64 {
            t[make::place(LARGEST, o, j) + MARK_AT] = 0;
        }
    }
}

fn growth(rounds: &Rounds) {
    println!("\n## Growth with S: PreAccept on a full table of N = 7\n");
    println!("| S | table bytes | library | second | byte sum | library, for each record |");
    println!("|---|---|---|---|---|---|");
    for s in [1, 2, 4, 8, 16, 32, 64] {
        let setup = Setup { n: 7, s, copy: 0 };
        let case = cases::events(setup, true).remove(1);
        let [library, second, sum] = event(rounds, &case);
        println!(
            "| {s} | {} | {} | {} | {} | {:.1} ns |",
            case.table.len(),
            time(library),
            time(second),
            time(sum),
            library / (7 * s) as f64
        );
    }
}

/// The C calls' greatest depth over the benchmark's inputs; the few frames between are measured and taken off.
fn stack() {
    println!("\n## Greatest depth of the stack, N = 7, S = 64\n");
    println!("| calls | library | second |\n|---|---|---|");
    let events: Vec<Case> =
        [false, true].iter().flat_map(|&full| cases::events(LARGEST, full)).collect();
    let mut inputs: Vec<(Call, &[u8])> =
        events.iter().map(|c| (c.event.call(), &c.table[..])).collect();
    depth_line("events", &inputs);
    let orders = shapes::orders(LARGEST);
    let last = Call::Settled(6, 64);
    inputs = orders.iter().map(|(_, table)| (last, &table[..])).collect();
    depth_line("settled", &inputs);
    inputs = orders.iter().map(|(_, table)| (Call::HandOut(448), &table[..])).collect();
    depth_line("hand-out", &inputs);
    inputs = orders.iter().map(|(_, table)| (Call::Judge, &table[..])).collect();
    depth_line("judge", &inputs);
}

fn depth_line(name: &str, inputs: &[(Call, &[u8])]) {
    let (mut stack, mut memory) = (Stack::default(), lent());
    let nothing = stack.depth(&mut || {});
    let mut depths = [0, 0];
    for &(call, table) in inputs {
        let mut t = table.to_vec();
        for (side, greatest) in [library_side, second_side].into_iter().zip(&mut depths) {
            let depth = stack.depth(&mut || {
                t.copy_from_slice(table);
                keep(side(LARGEST, OUT, call, &mut t, &mut memory));
            });
            *greatest = depth.saturating_sub(nothing).max(*greatest);
        }
    }
    println!("| {name} | {} bytes | {} bytes |", depths[0], depths[1]);
}
