//! Prints runs whose calls have bad arguments or bad tables, each call followed
//! by the answer that this library gives, for the proved program `runs` to
//! play. Answers end with checksums of the table and of the room after the call.
//! Then reads, writes and rewires, which share a key or do not; and streams, in a
//! run that is not watched.

use second::message::{kind_of, length_of, COMMIT, LAST_KIND, PRE_ACCEPT};
use second::rules::{Command, NO_OP, READ, REWIRE, WRITE};
use second::stream::Stream;
use second::table::{MARK_AT, RECORD_LEN};
use second::{
    blank_table, hand_out, message, nudge, recover, request, settled, table_len, Event, Refusal,
    Settled,
};
use std::fmt::Write;

/// Lent room before a call, to see what the call leaves alone.
const UNTOUCHED: u8 = 0xee;
const LAST_ROUND: u32 = u32::MAX - 7;
// In a record, after its mark.
const PHASE_AT: usize = MARK_AT + 1;
const SET_AT: usize = MARK_AT + 2;
const REPLIES_AT: usize = MARK_AT + 3;

/// How calls are made, and the table of copy 0, at which all of them are.
struct Run {
    text: String,
    table: Vec<u8>,
    n: usize,
    s: usize,
    copy: usize,
    length: usize,
    room: usize,
}

impl Run {
    fn new() -> Run {
        let table = vec![0; table_len(7, 64)];
        Run { text: String::new(), table, n: 0, s: 0, copy: 0, length: 0, room: 256 }
    }

    fn begin(&mut self, n: usize, s: usize) {
        self.say(format!("run {n} {s}\nwatch"));
        (self.n, self.s, self.copy, self.room) = (n, s, 0, 256);
        self.length = table_len(n, s);
        self.table.fill(0);
        blank_table(&mut self.table[..self.length], n, s, 0).expect("a good setup");
    }

    fn say(&mut self, line: String) {
        writeln!(self.text, "{line}").unwrap();
    }

    fn name(&mut self, n: usize, s: usize, copy: usize) {
        self.say(format!("as {n} {s} {copy}"));
        (self.n, self.s, self.copy) = (n, s, copy);
    }

    fn lend(&mut self, length: usize) {
        self.say(format!("length {length}"));
        self.length = length;
    }

    fn give(&mut self, room: usize) {
        self.say(format!("room {room}"));
        self.room = room;
    }

    fn poke(&mut self, at: usize, bytes: &[u8]) {
        self.say(format!("0 poke {at} {}", to_hex(bytes)));
        self.table[at..at + bytes.len()].copy_from_slice(bytes);
    }

    /// Bytes in the record of 0.1.
    fn poke_record(&mut self, at: usize, bytes: &[u8]) {
        self.poke(3 + at, bytes);
    }

    fn answer(&mut self, call: String, told: String, room: &[u8]) {
        let sums = format!("{} {}", checksum(&self.table[..self.length]), checksum(room));
        self.say(format!("0 {call}\n= {told} {sums}"));
    }

    fn event(
        &mut self,
        call: String,
        make: impl FnOnce(&mut [u8], usize, usize, usize, &mut [u8]) -> Result<Event, Refusal>,
    ) {
        let mut room = vec![UNTOUCHED; self.room];
        let t = &mut self.table[..self.length];
        let told = match make(t, self.n, self.s, self.copy, &mut room) {
            Ok(Event { owner, number, written }) => {
                format!("event {owner} {number} {}", to_hex(&room[..written]))
            }
            Err(r) => format!("refused {r}"),
        };
        self.answer(call, told, &room);
    }

    fn request(&mut self, op: usize, key: u32, edit: u64) {
        self.request_of(op, key, 0, edit);
    }

    /// An op that is no byte is none of the paper's either.
    fn request_of(&mut self, op: usize, key: u32, second: u32, edit: u64) {
        self.event(format!("request {op} {key} {second} {edit}"), |t, n, s, c, room| {
            request(t, n, s, c, room, u8::try_from(op).unwrap_or(u8::MAX), key, second, edit)
        });
    }

    fn message(&mut self, bytes: &[u8]) {
        self.event(format!("message {}", to_hex(bytes)), |t, n, s, c, room| {
            message(t, n, s, c, room, bytes)
        });
    }

    fn recover(&mut self, o: usize, j: usize) {
        self.event(format!("recover {o} {j}"), |t, n, s, c, room| recover(t, n, s, c, room, o, j));
    }

    fn nudge(&mut self, o: usize, j: usize) {
        self.event(format!("nudge {o} {j}"), |t, n, s, c, room| nudge(t, n, s, c, room, o, j));
    }

    fn settled(&mut self, o: usize, j: usize) {
        let told = match settled(&self.table[..self.length], self.n, self.s, self.copy, o, j) {
            Ok(Settled::Command { op, key, second, edit }) => {
                format!("settled {op} {key} {second} {edit}")
            }
            Ok(Settled::Waits { owner, number }) => format!("waits {owner} {number}"),
            Err(r) => format!("refused {r}"),
        };
        let room = vec![UNTOUCHED; self.room];
        self.answer(format!("settled {o} {j}"), told, &room);
    }

    fn hand_out(&mut self, places: usize) {
        let mut list = vec![0u16; places];
        let t = &mut self.table[..self.length];
        let told = match hand_out(t, self.n, self.s, self.copy, &mut list) {
            Ok(count) => {
                let codes: Vec<String> = list[..count].iter().map(u16::to_string).collect();
                format!("codes {}", codes.join(" "))
            }
            Err(r) => format!("refused {r}"),
        };
        let room = vec![UNTOUCHED; self.room];
        self.answer(format!("handout {places}"), told, &room);
    }

    /// Every call once, with good arguments.
    fn every_call(&mut self) {
        self.request(2, 7, 100);
        self.message(&accept_ok(0, 1));
        self.recover(0, 1);
        self.nudge(0, 1);
        self.settled(0, 1);
        self.hand_out(4);
    }
}

/// An AcceptOK from copy 1 to copy 0 at ballot 0.
fn accept_ok(o: u8, j: u8) -> [u8; 10] {
    [4, 1, 0, o, j, 0, 0, 0, 0, 0]
}

/// A Commit from copy 1 to copy 0 of a write, with these dependencies.
fn commit(o: u8, j: u8, edit: u8, deps: [u8; 3]) -> Vec<u8> {
    with_command(COMMIT, (o, j), &of_one(WRITE, 7, edit as u64), deps)
}

fn of_one(op: u8, key: u32, edit: u64) -> Command {
    Command { op, key, second: 0, edit }
}

fn rewire(key: u32, second: u32, edit: u64) -> Command {
    Command { op: REWIRE, key, second, edit }
}

/// A message from copy 1 to copy 0 at ballot 0, of the kind that this body has with this command.
fn with_command(body: u8, (o, j): (u8, u8), command: &Command, deps: [u8; 3]) -> Vec<u8> {
    let mut bytes = vec![kind_of(body, command.op), 1, 0, o, j, 0, 0, 0, 0, 0, command.op];
    bytes.extend(command.key.to_le_bytes());
    if command.op == REWIRE {
        bytes.extend(command.second.to_le_bytes());
    }
    bytes.extend(command.edit.to_le_bytes());
    for d in deps {
        bytes.extend([d, 0]);
    }
    bytes.extend([0; 8]);
    bytes
}

fn to_hex(bytes: &[u8]) -> String {
    if bytes.is_empty() {
        return "-".into();
    }
    bytes.iter().map(|b| format!("{b:02x}")).collect()
}

fn checksum(bytes: &[u8]) -> u64 {
    bytes.iter().fold(0u64, |h, &b| h.wrapping_mul(31).wrapping_add(b as u64))
}

fn setups(run: &mut Run, n: usize, s: usize) {
    for wrong in [0, 1, 2, 4, 6, 8, 9, 256 + n] {
        run.name(wrong, s, 0);
        run.every_call();
    }
    for wrong in [0, s + 1, 65, 256 + s] {
        run.name(n, wrong, 0);
        run.every_call();
    }
    for wrong in [1, n, 7, 8, 256] {
        run.name(n, s, wrong);
        run.every_call();
    }
}

fn lengths(run: &mut Run, n: usize, s: usize) {
    for wrong in [0, 3, table_len(n, s) - 1, table_len(n, s) + 1] {
        if wrong <= run.table.len() {
            run.lend(wrong);
            run.every_call();
        }
    }
}

fn rooms(run: &mut Run) {
    for room in [0, 1, 255, 256, 257, 300] {
        run.give(room);
        run.every_call();
        run.request(3, 7, 100);
        run.request_of(3, 7, 8, 100);
        run.message(&[]);
    }
}

fn arguments(run: &mut Run, n: usize, s: usize) {
    for op in [0, 1, 2, 3, 255, 256, 257, 258] {
        run.request(op, u32::MAX, u64::MAX);
    }
    keys(run);
    for (o, j) in [(0, 0), (n, 1), (0, s + 1), (256, 1), (0, 256 + 1), (n - 1, s), (0, 1)] {
        run.settled(o, j);
        run.nudge(o, j);
        run.recover(o, j);
    }
    messages(run, n, s);
}

/// Keys that rise, are equal and fall, with every op; where only a rewire may have two, and only rising ones.
fn keys(run: &mut Run) {
    const MOST: u32 = u32::MAX;
    for op in [1, 2, 3, 4, 256 + 3] {
        for (key, second) in [(0, 0), (0, 1), (1, 1), (2, 1), (MOST, 0), (MOST, MOST)] {
            run.request_of(op, key, second, 5);
        }
    }
    run.request_of(3, 0, MOST, 5);
    run.request_of(3, MOST - 1, MOST, 5);
}

/// One message for each reason not to take it.
fn messages(run: &mut Run, n: usize, s: usize) {
    run.message(&[]);
    run.message(&accept_ok(0, 1)[..9]);
    run.message(&accept_ok(0, 0));
    run.message(&accept_ok(n as u8, 1));
    run.message(&accept_ok(0, s as u8 + 1));
    run.message(&accept_ok(1, 1));
    let mut to_another = accept_ok(0, 1);
    to_another[2] = 2;
    run.message(&to_another);
    run.message(&commit(0, 1, 9, [s as u8 + 1, 0, 0]));
    let whole = with_command(COMMIT, (0, 1), &rewire(7, 8, 9), [0; 3]);
    for (at, byte) in [(0, COMMIT), (10, WRITE), (15, 7), (15, 6), (27, s as u8 + 1)] {
        let mut bytes = whole.clone();
        bytes[at] = byte;
        run.message(&bytes);
    }
    let mut in_a_short_kind = commit(0, 1, 9, [0; 3]);
    in_a_short_kind[10] = REWIRE;
    run.message(&in_a_short_kind);
}

/// Requests until no blank record is left.
fn full(run: &mut Run, s: usize) {
    for edit in 0..=s as u64 {
        run.request(2, 7, edit);
    }
}

fn ballots(run: &mut Run, n: usize, s: usize) {
    let last = LAST_ROUND;
    for joined in [0, 8, last - 8, last - 1, last, last + n as u32 - 1, last + 7] {
        run.begin(n, s);
        run.poke_record(0, &joined.to_le_bytes());
        run.recover(0, 1);
        run.nudge(0, 1);
    }
}

fn lists(run: &mut Run) {
    run.message(&commit(1, 1, 9, [0, 0, 0]));
    run.message(&commit(1, 1, 9, [0, 0, 0]));
    run.message(&commit(1, 1, 8, [0, 0, 0]));
    run.message(&commit(0, 1, 9, [0, 1, 0]));
    run.settled(0, 1);
    run.recover(0, 1);
    run.nudge(0, 1);
    for places in [0, 1, 1, 1, 448] {
        run.hand_out(places);
    }
}

/// Every op after every other, with one key and with another: a request after a Commit, and a PreAccept after both.
/// Key 0 is a key too, though the second key of what has none is 0 as well.
fn pairs(run: &mut Run) {
    let noops = [Command::default()];
    let ones = [0, 7, 8, 9].into_iter().flat_map(|key| [READ, WRITE].map(|op| of_one(op, key, 9)));
    let rewires = [(0, 7), (7, 8), (8, 9), (7, 9), (0, 9)].map(|(a, b)| rewire(a, b, 9));
    let all: Vec<Command> = noops.into_iter().chain(ones).chain(rewires).collect();
    for first in &all {
        for second in all.iter().filter(|second| second.op != NO_OP) {
            run.begin(3, 2);
            run.message(&with_command(COMMIT, (1, 1), first, [0; 3]));
            run.request_of(second.op as usize, second.key, second.second, second.edit);
            run.message(&with_command(PRE_ACCEPT, (1, 2), second, [0; 3]));
        }
    }
}

/// A row with reads above a write, a write above reads and rewires over and under both, and after each request what
/// another owner's command sees.
fn row(run: &mut Run) {
    for other in [of_one(READ, 7, 9), of_one(WRITE, 7, 9), rewire(7, 9, 9), rewire(8, 9, 9)] {
        run.begin(3, 11);
        let ones = [READ, READ, WRITE, READ, READ, WRITE, WRITE, READ].map(|op| of_one(op, 7, 100));
        let rewires = [rewire(7, 8, 100), rewire(0, 9, 100), rewire(6, 7, 100)];
        for (j, own) in (1..).zip(ones.iter().chain(&rewires)) {
            run.request_of(own.op as usize, own.key, own.second, own.edit);
            run.message(&with_command(PRE_ACCEPT, (1, j), &other, [0; 3]));
        }
    }
}

/// One damage for each clause of soundness, on a blank table or on one with a request in 0.1.
const DAMAGES: [(bool, usize, &[u8]); 33] = [
    (false, 0, &[7]),
    (false, 0, &[0, 0, 0, 0, 1]),
    (false, 4, &[8, 0, 0, 0]),
    (false, 8, &[1]),
    (false, 8, &[5]),
    (false, 9, &[1]),
    (false, 9, &[3]),
    (false, 10, &[1]),
    (false, 14, &[1]),
    (false, 18, &[1]),
    (false, 26, &[1]),
    (false, 38, &[1]),
    (false, MARK_AT, &[1]),
    (false, MARK_AT, &[2]),
    (false, PHASE_AT, &[1]),
    (false, PHASE_AT, &[2]),
    (false, PHASE_AT, &[3]),
    (false, PHASE_AT, &[4]),
    (false, SET_AT, &[2]),
    (false, REPLIES_AT, &[1]),
    (false, RECORD_LEN - 1, &[1]),
    (true, 4, &[8]),
    (true, 8, &[3]),
    (true, 8, &[4]),
    (true, 9, &[0; 17]),
    (true, 9, &[3]),
    (true, 9, &[4]),
    (true, 9, &[3, 7, 0, 0, 0, 7]),
    (true, 14, &[8]),
    (true, 26, &[255, 255]),
    (true, SET_AT, &[1]),
    (true, SET_AT, &[2, 1]),
    (true, SET_AT, &[255]),
];

fn unsound(run: &mut Run, n: usize, s: usize) {
    for (requested, at, bytes) in DAMAGES {
        run.begin(n, s);
        if requested {
            run.request(2, 7, 100);
        }
        run.poke_record(at, bytes);
        run.every_call();
    }
    for at in 0..3 {
        run.begin(n, s);
        run.poke(at, &[200]);
        run.every_call();
    }
}

/// A stream over a buffer of this room, its bytes handed over in these pieces.
fn stream<'a>(text: &mut String, room: usize, pieces: impl IntoIterator<Item = &'a [u8]>) {
    let mut buf = vec![UNTOUCHED; room];
    let Some(mut stream) = open(text, &mut buf) else { return };
    pieces.into_iter().for_each(|piece| take(text, &mut stream, piece));
}

/// The same, with as much of the rest as a line holds handed over each time, until all was taken.
fn greedy_stream(text: &mut String, room: usize, bytes: &[u8]) {
    let mut buf = vec![UNTOUCHED; room];
    let Some(mut stream) = open(text, &mut buf) else { return };
    let mut taken = 0;
    while taken < bytes.len() {
        let end = bytes.len().min(taken + LONGEST_LINE);
        take(text, &mut stream, &bytes[taken..end]);
        let place = stream.place();
        taken = place.offset + place.end - place.at;
    }
}

/// The bytes that a line of the proved program can have.
const LONGEST_LINE: usize = 300;

fn open<'a>(text: &mut String, buf: &'a mut [u8]) -> Option<Stream<'a>> {
    writeln!(text, "stream {}", buf.len()).unwrap();
    match Stream::begin(buf) {
        Ok(stream) => {
            writeln!(text, "= opened").unwrap();
            Some(stream)
        }
        Err(r) => {
            writeln!(text, "= refused {r}").unwrap();
            None
        }
    }
}

fn take(text: &mut String, stream: &mut Stream, bytes: &[u8]) {
    write!(text, "take {}\n= ", to_hex(bytes)).unwrap();
    stream.play(bytes, text).unwrap();
    writeln!(text).unwrap();
}

/// A message of each kind, all its bytes different.
fn all_kinds() -> Vec<u8> {
    let mut bytes = Vec::new();
    for kind in 1..=LAST_KIND {
        let length = length_of(kind).expect("a known kind");
        bytes.push(kind);
        bytes.extend((1..length).map(|at| (16 * kind as usize + at) as u8));
    }
    bytes
}

/// Buffers too small and just large enough, pieces of none, one and many bytes, and more than there is room for.
fn pieces(text: &mut String, all: &[u8]) {
    for room in [0, 1, 37, 63, 64] {
        stream(text, room, []);
    }
    stream(text, 64, [&[] as &[u8], &all[..1], &[], &all[1..37], &[], &[], &all[37..61], &[]]);
    for length in [1, 2, 7, 23, 36, 37, 38, 40, 41, 46, 63, 64] {
        stream(text, 64, all.chunks(length));
    }
    let thrice = [all, all, all].concat();
    for room in [64, 65, 73, 100, 128, 211, 300, 379, 380, 381] {
        stream(text, room, all.chunks(46));
        greedy_stream(text, room, &thrice);
    }
}

/// A byte of no kind stops the stream where a kind is due, and nowhere else; whatever is handed over then.
fn stops(text: &mut String, all: &[u8]) {
    let nothing: &[u8] = &[];
    for unknown in [0, 13, 128, 255] {
        stream(text, 64, [&[unknown][..], &[unknown], nothing, &all[..37]]);
        stream(text, 64, [&[unknown, 4, 6, 8][..], &all[..LONGEST_LINE], nothing]);
        for room in [64, 85, 300] {
            for (before, length) in [(37, 37), (61, 5), (61, 61), (98, 98), (252, 64), (380, 300)] {
                let stopped = [&all[..before], &[unknown], all].concat();
                stream(text, room, stopped.chunks(length));
            }
        }
    }
    for at in 0..37 {
        let mut inside = all[..61].to_vec();
        inside[at] = 13;
        stream(text, 64, inside.chunks(31));
    }
}

fn streams(run: &mut Run) {
    run.say("run 3 1".into());
    let all = all_kinds();
    pieces(&mut run.text, &all);
    stops(&mut run.text, &all);
}

fn main() {
    let mut run = Run::new();
    for (n, s) in [(3, 1), (3, 4), (5, 2), (7, 3), (7, 64)] {
        run.begin(n, s);
        setups(&mut run, n, s);
        run.begin(n, s);
        lengths(&mut run, n, s);
        run.begin(n, s);
        rooms(&mut run);
        run.begin(n, s);
        arguments(&mut run, n, s);
        run.begin(n, s);
        full(&mut run, s);
        ballots(&mut run, n, s);
        run.begin(n, s);
        lists(&mut run);
        unsound(&mut run, n, s);
    }
    pairs(&mut run);
    row(&mut run);
    streams(&mut run);
    print!("{}", run.text);
}
