//! One random run of several copies, on both sides at once.
//!
//! A clean run holds to docs/HOST.md, with loss, repetition, reordering and cuts, and demand 3 is watched. In a wild
//! run damaged and invented messages are handed over and tables begin as any sound ones; both sides must still agree.
//! In a mixed run, which is clean, the second program works alone, each copy by the interference of document 01 or by
//! that of 4/12, and copies go over to the other and back.

use crate::both::{Answer, Both, Call, Pair, Sides};
use crate::demand::{Chosen, Demand};
use crate::guarded::JournalCall;
use crate::journals::{Book, Journals};
use crate::make;
use crate::places::{Place, Places};
use crate::probe;
use crate::random::Random;
use crate::{not_valid, LENGTHS, LONGEST};
use pumxaqert::{Instance, Setup, ROOM};
use second::rules::{covers, interfere, same_object, seen, Command, NO_OP, READ, REWIRE, WRITE};
use second::table::{Record, COMMITTED, MARK_AT, PRE_ACCEPTED, PRE_ACCEPTED_ADDED, RECORD_LEN};
use second::Refusal;

pub struct Copy {
    pub setup: Setup,
    sides: Sides,
    pub tables: Pair,
    /// What the disk holds; between events the same as the tables.
    pub saved: Vec<u8>,
}

struct Letter {
    to: usize,
    length: usize,
    bytes: [u8; LONGEST],
}

/// How a run is driven, in percent of steps or of messages.
struct Pace {
    keys: usize,
    /// Of the requests.
    reads: usize,
    /// Of the other requests.
    rewires: usize,
    loss: usize,
    repeat: usize,
    cut: usize,
    request: usize,
    recover: usize,
    nudge: usize,
    /// Messages are taken from the first so many in flight.
    window: usize,
}

pub struct World {
    n: usize,
    s: usize,
    wild: bool,
    mixed: bool,
    pace: Pace,
    pub copies: Vec<Copy>,
    flying: Vec<Letter>,
    /// A copy that no message reaches or leaves for a while; none has this number where it is N or more.
    apart: usize,
    demand: Demand,
    disk: Option<Disk>,
    /// So many steps; where it is none, as many as are drawn.
    steps: Option<usize>,
    pub both: Both,
    pub random: Random,
    pub places: Places,
    pub step: usize,
}

/// Each copy's journal, by which it starts again after a cut.
struct Disk {
    journals: Journals,
    books: Vec<Book>,
}

fn pace(random: &mut Random) -> Pace {
    Pace {
        keys: random.pick(&[1, 1, 2, 3]),
        reads: random.pick(&[20, 50, 50, 90, 100]),
        rewires: random.pick(&[0, 30, 50, 100]),
        loss: random.pick(&[0, 0, 5, 20, 40]),
        repeat: random.pick(&[0, 5, 20, 50]),
        cut: random.pick(&[0, 0, 3, 10]),
        request: random.pick(&[4, 10, 25]),
        recover: random.pick(&[0, 1, 3, 10, 25]),
        nudge: random.pick(&[1, 3, 10]),
        window: random.pick(&[1, 4, 1000]),
    }
}

/// Mostly few numbers, since a call's time grows with the table; now and then many.
fn numbers(random: &mut Random) -> usize {
    match random.below(100) {
        0..70 => random.between(1, 4),
        70..90 => random.between(5, 12),
        90..98 => random.between(13, 40),
        _ => random.between(41, 64),
    }
}

/// The run of this seed: what it reached, or the step at which something went wrong and what.
pub fn run(seed: u64, sides: Sides, places: &mut Places) -> Result<(), (usize, String)> {
    World::new(seed, sides).run(places)
}

/// The same of a mixed run.
pub fn mixed(seed: u64, places: &mut Places) -> Result<(), (usize, String)> {
    let mut world = World::new(seed, Sides::Second);
    world.mixed = true;
    for copy in &mut world.copies {
        copy.sides = world.random.pick(&[Sides::Second, Sides::SecondWide]);
    }
    world.run(places)
}

/// All that the run of this seed commits, with so many reads in a hundred requests.
pub fn chosen(
    seed: u64,
    sides: Sides,
    reads: usize,
    places: &mut Places,
) -> Result<Vec<Chosen>, (usize, String)> {
    let mut world = World::new(seed, sides);
    world.pace.reads = reads;
    world.run(places)?;
    Ok(world.demand.chosen().collect())
}

/// The run of this seed with journals on the copies' disks: what they hold in the end.
pub fn journalled(
    seed: u64,
    steps: Option<usize>,
    journals: &mut Journals,
) -> Result<Vec<Book>, String> {
    let mut world = World::new(seed, Sides::Compared);
    let books = world.copies.iter().map(|copy| Book::new(copy.setup, &copy.saved)).collect();
    world.disk = Some(Disk { journals: std::mem::take(journals), books });
    world.steps = steps;
    let ended = world.play();
    let disk = world.disk.expect("a run keeps its disk");
    *journals = disk.journals;
    match ended {
        Ok(()) => Ok(disk.books),
        Err(wrong) => Err(format!("step {}: {wrong}", world.step)),
    }
}

type Rule = fn(&Command, &Command) -> bool;

/// What the event pre-accepted, if it did.
fn pre_accepted(before: &Record, after: &Record) -> Option<Command> {
    let own = &after.own;
    let afresh = matches!(own.status, PRE_ACCEPTED | PRE_ACCEPTED_ADDED) && before.own != *own;
    afresh.then_some(own.command)
}

/// The copy shows the command other instances by one rule than by the other.
fn differ(copy: &Copy, o: usize, j: usize, command: &Command, rules: [Rule; 2]) -> bool {
    let Setup { n, s, copy: q } = copy.setup;
    let setup = second::setup::Setup::new(n, s, q).expect("a good setup");
    let [a, b] = rules.map(|rule| seen(&setup, &copy.saved, command, o, j, rule));
    a != b
}

/// A read that was pre-accepted, where a read of its key stands higher in some row than all that it saw there.
fn passed_over(copy: &Copy, o: usize, j: usize, command: &Command) -> bool {
    let reads = command.op == READ && copy.sides != Sides::SecondWide;
    reads && differ(copy, o, j, command, [same_object, interfere])
}

/// As if no command had a second key.
fn by_first_keys(a: &Command, b: &Command) -> bool {
    let of_one = |c: &Command| Command { op: c.op.min(WRITE), second: 0, ..*c };
    interfere(&of_one(a), &of_one(b))
}

impl World {
    fn new(seed: u64, sides: Sides) -> World {
        let mut random = Random(seed);
        random.word();
        let n = random.pick(&[3, 3, 5, 5, 7]);
        let s = numbers(&mut random);
        // What the second program does alone has only demand 3 to fail.
        let wild = random.chance(30) && matches!(sides, Sides::Compared | Sides::Library);
        let filled = if wild && random.chance(50) { random.pick(&[30, 100]) } else { 0 };
        let copy = |copy| {
            let setup = Setup { n, s, copy };
            let mut saved = make::blank(setup);
            make::fill(&mut random, setup, &mut saved, filled);
            Copy { setup, sides, tables: Pair::of(&saved), saved }
        };
        let copies = (0..n).map(copy).collect();
        let mut places = Places::default();
        places.by_n[n] += 1;
        places.by_s[s] += 1;
        World {
            n,
            s,
            wild,
            mixed: false,
            pace: pace(&mut random),
            copies,
            flying: Vec::new(),
            apart: n,
            demand: Demand::new(n, s),
            disk: None,
            steps: None,
            both: Both::new(sides),
            random,
            places,
            step: 0,
        }
    }

    /// Plays the run, and adds what it reached.
    fn run(&mut self, places: &mut Places) -> Result<(), (usize, String)> {
        let ended = self.play();
        places.add(&self.places);
        ended.map_err(|wrong| (self.step, wrong))
    }

    fn play(&mut self) -> Result<(), String> {
        let drawn = self.random.between(40, 100 + 20 * self.n * self.s.min(8));
        for _ in 0..self.steps.unwrap_or(drawn) {
            self.step += 1;
            if self.random.chance(2) {
                self.apart = self.random.below(2 * self.n);
            }
            if self.mixed && self.random.chance(3) {
                self.go_over();
            }
            self.one_step()?;
            if self.random.chance(4) {
                let q = self.random.below(self.n);
                probe::probe(self, q)?;
            }
        }
        if !self.wild && self.s <= 12 && self.steps.is_none() && self.random.chance(40) {
            self.drain()?;
        }
        Ok(())
    }

    /// A copy works on by the other interference, with the table that it has.
    fn go_over(&mut self) {
        let q = self.random.below(self.n);
        let copy = &mut self.copies[q];
        copy.sides = match copy.sides {
            Sides::Second => Sides::SecondWide,
            _ => Sides::Second,
        };
        self.places.went_over += 1;
    }

    fn one_step(&mut self) -> Result<(), String> {
        let q = self.random.below(self.n);
        let (o, j) = (self.random.below(self.n), self.random.between(1, self.s));
        let Pace { request, recover, nudge, .. } = self.pace;
        let chosen = self.random.below(100);
        if chosen < request {
            let request = self.request();
            self.event(q, request)
        } else if chosen < request + recover {
            self.event(q, Call::Recover(o, j))
        } else if chosen < request + recover + nudge {
            self.event(q, Call::Nudge(o, j))
        } else if chosen < request + recover + nudge + 3 {
            self.settled(q, o, j)
        } else if chosen < request + recover + nudge + 5 {
            let all = self.n * self.s;
            let places = self.random.pick(&[0, 1, 2, all, all]);
            self.hand_out(q, places)
        } else {
            self.deliver()
        }
    }

    /// A read, a write or a rewire; its two keys are of those of the others, and one more.
    fn request(&mut self) -> Call<'static> {
        let Pace { keys, reads, rewires, .. } = self.pace;
        let random = &mut self.random;
        let (key, edit) = (random.below(keys) as u32, random.word());
        if random.chance(reads) {
            Call::Request(READ as usize, key, 0, edit)
        } else if random.chance(rewires) {
            let second = random.between(key as usize + 1, keys) as u32;
            Call::Request(REWIRE as usize, key, second, edit)
        } else {
            Call::Request(WRITE as usize, key, 0, edit)
        }
    }

    /// A message in flight arrives, and may stay in flight as well.
    fn deliver(&mut self) -> Result<(), String> {
        if self.flying.is_empty() {
            return Ok(());
        }
        let at = self.random.below(self.flying.len().min(self.pace.window));
        let Letter { to, mut length, mut bytes } = self.flying[at];
        if self.random.chance(self.pace.repeat) {
            self.places.reach(Place::Repeated);
        } else {
            self.flying.remove(at);
        }
        if self.wild && self.random.chance(20) {
            if self.random.chance(50) {
                let m =
                    make::message(&mut self.random, self.copies[to].setup, &self.copies[to].saved);
                length = make::bytes(&m, &mut bytes);
            } else {
                make::damage(&mut self.random, &mut bytes[..length]);
            }
        }
        self.event(to, Call::Message(&bytes[..length]))
    }

    /// One event as the host does it: call, save, send; cut off before the save or before the sending.
    fn event(&mut self, q: usize, call: Call) -> Result<(), String> {
        self.places.calls += 1;
        let copy = &mut self.copies[q];
        self.both.sides = copy.sides;
        let answer = self.both.call(copy.setup, ROOM, call, &mut copy.tables);
        let (o, j, written) = match answer.map_err(|wrong| wrong + &self.before(q, call))? {
            Answer::Refused(refusal) => return self.refused(q, refusal, call),
            Answer::Event(o, j, written) => (o, j, written),
            other => return Err(format!("{other:?} is no event's answer")),
        };
        let out = self.both.ours.out;
        let sent = out.get(..written).ok_or("more was written than there is room")?;
        let (at, end) = self.part(q, o, j)?;
        let Copy { tables, saved, .. } = &self.copies[q];
        if tables.ours[..at] != saved[..at] || tables.ours[end..] != saved[end..] {
            return Err(format!("{call:?} changed more than the record of {o}.{j}"));
        }
        let (before, after) = (make::get(saved, at), make::get(&tables.ours, at));
        self.places.event(self.n, call, o, [&before, &after], sent);
        if let Some(command) = pre_accepted(&before, &after) {
            self.met(q, call, o, j, &command);
        }
        if self.random.chance(self.pace.cut) {
            self.places.reach(Place::CutBeforeSave);
            return self.restart(q, Some(JournalCall::RecordEntry(o, j)));
        }
        self.save(q, at, end, JournalCall::RecordEntry(o, j))?;
        if !self.wild {
            if matches!(call, Call::Request(..)) {
                self.demand.requested(o, j, after.own.command);
            }
            self.demand.saved(o, j, &before, &after)?;
        }
        self.send(q, sent)
    }

    /// Counts what an event that pre-accepts a command found in the table.
    fn met(&mut self, q: usize, call: Call, o: usize, j: usize, command: &Command) {
        let copy = &self.copies[q];
        if passed_over(copy, o, j, command) {
            self.places.passed_over(call);
        }
        if differ(copy, o, j, command, [interfere, by_first_keys]) {
            self.places.reach(Place::MetBySecond);
        }
        if command.op == REWIRE && matches!(call, Call::Request(..)) {
            self.places.reach(Place::RequestedRewire);
        }
    }

    /// The record that a failed event met.
    fn before(&self, q: usize, call: Call) -> String {
        let Copy { setup, saved, .. } = &self.copies[q];
        let (o, j) = match call {
            Call::Recover(o, j) | Call::Nudge(o, j) => (o, j),
            Call::Message(&[_, _, _, owner, low, high, ..]) => {
                (owner as usize, u16::from_le_bytes([low, high]) as usize)
            }
            _ => return String::new(),
        };
        if o >= self.n || !(1..=self.s).contains(&j) {
            return String::new();
        }
        format!("\n  before:  {:?}", make::get(saved, make::place(*setup, o, j)))
    }

    fn refused(&mut self, q: usize, refusal: Refusal, call: Call) -> Result<(), String> {
        let number = refusal.number;
        self.places.refused(number);
        if self.copies[q].tables.ours != self.copies[q].saved {
            return Err(format!("{call:?} was refused {refusal} and changed the table"));
        }
        // What was sent is valid, what is saved is sound, and a commit is never contradicted.
        if !self.wild && (matches!(number, 1 | 2 | 10 | 11) || not_valid(number)) {
            return Err(format!("{call:?} was refused {refusal} in an undamaged run"));
        }
        Ok(())
    }

    /// Where the record stands that the host saves.
    fn part(&mut self, q: usize, o: usize, j: usize) -> Result<(usize, usize), String> {
        let copy = &mut self.copies[q];
        match self.both.call(copy.setup, ROOM, Call::Part(o, j), &mut copy.tables)? {
            Answer::Part(at, RECORD_LEN) => Ok((at, at + RECORD_LEN)),
            other => Err(format!("the part of {o}.{j} is {other:?}")),
        }
    }

    fn save(&mut self, q: usize, at: usize, end: usize, entry: JournalCall) -> Result<(), String> {
        let Copy { tables, saved, .. } = &mut self.copies[q];
        saved[at..end].copy_from_slice(&tables.ours[at..end]);
        match &mut self.disk {
            Some(Disk { journals, books }) => books[q].write(journals, entry, &tables.ours),
            None => Ok(()),
        }
    }

    /// The copy begins again with what its disk holds; of the entry that was being written, if there is one, a part.
    fn restart(&mut self, q: usize, entry: Option<JournalCall>) -> Result<(), String> {
        let Copy { tables, saved, .. } = &mut self.copies[q];
        if let Some(Disk { journals, books }) = &mut self.disk {
            let book = &mut books[q];
            let whole = book.saves.len();
            if let Some(entry) = entry {
                book.write(journals, entry, &tables.ours)?;
            }
            if book.restart(journals, whole, self.step)? != *saved {
                return Err(format!("copy {q} starts again with another table than it saved"));
            }
        }
        tables.set(saved);
        Ok(())
    }

    /// Puts the messages in flight: all but the lost ones, or only some of them before a cut.
    fn send(&mut self, q: usize, mut sent: &[u8]) -> Result<(), String> {
        let cut = !sent.is_empty() && self.random.chance(self.pace.cut);
        if cut {
            self.places.reach(Place::CutBeforeSend);
            self.restart(q, None)?;
        }
        let mut last = None;
        while let Some(&kind) = sent.first() {
            let length = *LENGTHS.get(kind as usize).unwrap_or(&0);
            let to = sent[2] as usize;
            let rising = last.is_none_or(|last| last < to) && to < self.n;
            let whole = length > 0 && length <= sent.len();
            if !whole || !rising {
                return Err(format!("copy {q} sent no rising messages: {sent:02x?}"));
            }
            let setup = self.copies[to].setup;
            if let Err(number) = self.both.read(setup, &sent[..length])? {
                return Err(format!("copy {to} refuses {number} what copy {q} sent: {sent:02x?}"));
            }
            last = Some(to);
            let apart = self.apart == q || self.apart == to;
            if apart || self.random.chance(if cut { 60 } else { self.pace.loss }) {
                self.places.reach(Place::Lost);
            } else {
                let mut bytes = [0; LONGEST];
                bytes[..length].copy_from_slice(&sent[..length]);
                self.flying.push(Letter { to, length, bytes });
            }
            sent = &sent[length..];
        }
        Ok(())
    }

    fn settled(&mut self, q: usize, o: usize, j: usize) -> Result<(), String> {
        self.places.calls += 1;
        let copy = &mut self.copies[q];
        let place = match self.both.call(copy.setup, ROOM, Call::Settled(o, j), &mut copy.tables)? {
            Answer::Settled(0, ..) => Place::SettledNoOp,
            Answer::Settled(3, ..) => Place::SettledRewire,
            Answer::Settled(..) => Place::Settled,
            Answer::Waits(p, i) if (p, i) == (o, j) => Place::WaitsForItself,
            Answer::Waits(..) => Place::WaitsForOther,
            other => return Err(format!("{other:?} says nothing about settled")),
        };
        self.places.reach(place);
        Ok(())
    }

    /// Marks are saved one at a time, in list order; a cut between two of them hands the rest out again.
    fn hand_out(&mut self, q: usize, room: usize) -> Result<(), String> {
        self.places.calls += 1;
        let copy = &mut self.copies[q];
        let count = match self.both.call(copy.setup, ROOM, Call::HandOut(room), &mut copy.tables)? {
            Answer::Codes(count) if count <= room => count,
            other => return Err(format!("{other:?} for a list of {room}")),
        };
        let codes = self.both.ours.list[..count].to_vec();
        self.listed(q, room, &codes)?;
        for (done, &code) in codes.iter().enumerate() {
            let Instance { owner, number } = Instance::of_code(code);
            let entry = JournalCall::MarkEntry(owner, number);
            if done > 0 && self.random.chance(2 * self.pace.cut) {
                self.places.reach(Place::CutBetweenMarks);
                return self.restart(q, Some(entry));
            }
            let (at, end) = self.part(q, owner, number)?;
            self.save(q, at, end, entry)?;
            if !self.wild {
                self.demand.marked(q, owner, number)?;
            }
        }
        Ok(())
    }

    /// Only the marks of what was listed may have changed.
    fn listed(&mut self, q: usize, room: usize, codes: &[u16]) -> Result<(), String> {
        let Copy { setup, tables, saved, .. } = &self.copies[q];
        let mut marked = saved.clone();
        for &code in codes {
            let Instance { owner, number } = Instance::of_code(code);
            let at = make::place(*setup, owner, number);
            let vote = make::get(&marked, at).own;
            let unmarked = |p: usize, i: usize| {
                covers(&vote.deps, owner, number, p, i)
                    && make::get(&marked, make::place(*setup, p, i)).mark == 0
            };
            if (0..self.n).any(|p| (1..=vote.deps[p] as usize).any(|i| unmarked(p, i))) {
                self.places.reach(Place::ListCycle);
            }
            match vote.command.op {
                NO_OP => self.places.reach(Place::ListNoOp),
                REWIRE => self.places.reach(Place::ListRewire),
                _ => {}
            }
            marked[at + MARK_AT] = 1;
        }
        if marked != tables.ours {
            return Err(format!("the hand-out of {codes:?} changed more than its marks"));
        }
        self.places.reach(match codes.len() == room {
            _ if room == 0 => Place::ListNoRoom,
            true => Place::ListFull,
            false => Place::ListAll,
        });
        Ok(())
    }

    /// Without loss and cuts copy 0 recovers whatever is not committed and spreads it; then all copies hand all of it
    /// out, and as much of it.
    fn drain(&mut self) -> Result<(), String> {
        self.pace = Pace { loss: 0, repeat: 0, cut: 0, window: 1, ..self.pace };
        self.apart = self.n;
        self.deliver_all()?;
        for (o, j) in self.begun() {
            // A Nack tells copy 0 of one higher ballot; the next try may meet another, but never the same.
            for _ in 0..self.n {
                if self.status(0, o, j) != COMMITTED {
                    self.event(0, Call::Recover(o, j))?;
                    self.deliver_all()?;
                }
            }
            self.event(0, Call::Nudge(o, j))?;
        }
        self.deliver_all()?;
        for q in 0..self.n {
            self.hand_out(q, self.n * self.s)?;
            if self.demand.handed_out(q) != self.begun().len() {
                return Err(format!("copy {q} handed out {} instances", self.demand.handed_out(q)));
            }
        }
        self.places.reach(Place::Drained);
        Ok(())
    }

    fn deliver_all(&mut self) -> Result<(), String> {
        while !self.flying.is_empty() {
            self.step += 1;
            self.deliver()?;
        }
        Ok(())
    }

    fn status(&self, q: usize, o: usize, j: usize) -> u8 {
        let Copy { setup, saved, .. } = &self.copies[q];
        make::get(saved, make::place(*setup, o, j)).own.status
    }

    /// Every instance up to the highest of its row that some copy knows of.
    fn begun(&self) -> Vec<(usize, usize)> {
        let known = |o, j| {
            let blank = Record::default();
            let at = make::place(self.copies[0].setup, o, j);
            self.copies.iter().any(|copy| make::get(&copy.saved, at) != blank)
        };
        let highest = |o| (1..=self.s).rev().find(|&j| known(o, j)).unwrap_or(0);
        (0..self.n).flat_map(|o| (1..=highest(o)).map(move |j| (o, j))).collect()
    }
}
