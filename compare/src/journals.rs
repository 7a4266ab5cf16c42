//! A journal's calls on both sides: answers, entries and tables are compared to the last byte; and what a run's journal
//! gives, wherever it is cut, with what the run had saved by then.

use crate::guarded::{c_journal, Area, JournalAreas, JournalCall};
use crate::make;
use crate::random::Random;
use crate::UNTOUCHED;
use pumxaqert::Setup;
use second::journal;
use second::refusal::NotReplayed;
use second::table::RECORD_LEN;

/// More than any entry needs, so that writing past one would show.
pub const ROOM: usize = 320;
/// What the value holds before a call.
const UNSET: usize = 0xa5a5_a5a5_a5a5_a5a5;

/// What the C call hands back: its number, and how much was written or where the rest or the bad entry begins.
#[derive(Clone, Copy, Debug, PartialEq, Eq)]
pub struct Told {
    pub number: u32,
    pub value: usize,
}

#[derive(Clone, Copy, Debug, Default)]
pub struct Counts {
    pub calls: u64,
    pub journals: u64,
    pub entries: u64,
    pub cuts: u64,
    pub restarts: u64,
    pub damaged: u64,
    /// Refusals of replay: 1, 11, 41, 42, 43.
    pub not_replayed: [u64; 5],
    pub written: u64,
    /// Refusals of the writers: 1, 2, 6, 43.
    pub not_written: [u64; 4],
}

pub const OF_REPLAY: [u32; 5] = [1, 11, 41, 42, 43];
pub const OF_WRITERS: [u32; 4] = [1, 2, 6, 43];

impl Counts {
    fn count(&mut self, call: JournalCall, number: u32) {
        self.calls += 1;
        let place = |of: &[u32]| of.iter().position(|&its| its == number);
        match call {
            JournalCall::Replay => {
                place(&OF_REPLAY).into_iter().for_each(|at| self.not_replayed[at] += 1);
            }
            _ => match place(&OF_WRITERS) {
                Some(at) => self.not_written[at] += 1,
                None => self.written += 1,
            },
        }
    }
}

pub struct Journals {
    /// The second program's.
    pub table: Vec<u8>,
    out: Vec<u8>,
    /// The library's.
    areas: JournalAreas,
    pub counts: Counts,
}

impl Default for Journals {
    fn default() -> Journals {
        let areas = JournalAreas {
            table: Area::new(0, 0x5a),
            out: Area::new(ROOM, 0x5a),
            journal: Area::new(0, 0x5a),
            value: Area::new(1, 0x5a5a),
        };
        Journals { table: Vec::new(), out: Vec::new(), areas, counts: Counts::default() }
    }
}

impl Journals {
    /// A writer on a table, with so much room.
    pub fn write(
        &mut self,
        setup: Setup,
        call: JournalCall,
        table: &[u8],
        room: usize,
    ) -> Result<Told, String> {
        self.call(setup, call, table, room, &[])
    }

    /// The entry that a call must write.
    pub fn entry(
        &mut self,
        setup: Setup,
        call: JournalCall,
        table: &[u8],
    ) -> Result<&[u8], String> {
        let told = self.write(setup, call, table, ROOM)?;
        match told.number {
            0 => Ok(&self.out[..told.value]),
            number => Err(format!("{call:?} of {setup:?} was refused {number}")),
        }
    }

    /// A journal replayed onto a table; what that becomes is then in `table`.
    pub fn replay(&mut self, setup: Setup, begun: &[u8], journal: &[u8]) -> Result<Told, String> {
        self.call(setup, JournalCall::Replay, begun, 0, journal)
    }

    /// The answer, where both sides agree on it and on every byte, and a refusal left all as it was.
    fn call(
        &mut self,
        setup: Setup,
        call: JournalCall,
        table: &[u8],
        room: usize,
        journal: &[u8],
    ) -> Result<Told, String> {
        let null = self.counts.calls.is_multiple_of(2);
        self.out.clear();
        self.out.resize(room, UNTOUCHED);
        table.clone_into(&mut self.table);
        self.areas.table.set(table, null);
        self.areas.out.set(&self.out, null);
        self.areas.journal.set(journal, null);
        self.areas.value.set(&[UNSET], false);
        let told = second_side(setup, call, &mut self.table, &mut self.out, journal);
        let got = c_journal(setup, call, &mut self.areas);
        self.counts.count(call, told.number);
        let wrong = self.difference(told, got, journal).or_else(|| {
            let kept = self.table == table && self.out.iter().all(|&byte| byte == UNTOUCHED);
            (told.number != 0 && !kept).then_some("a refusal changed lent memory")
        });
        let Some(wrong) = wrong else { return Ok(told) };
        let (value, length) = (self.areas.value.contents(), journal.len());
        let beginning = &journal[..length.min(2000)];
        Err(format!(
            "{wrong}\n  {call:?} with {setup:?}, room {room}, table of {}\n  second:  {told:?}\n  \
             library: {got} {value:?}\n  journal of {length}: {beginning:02x?}",
            table.len()
        ))
    }

    fn difference(&self, told: Told, got: u32, journal: &[u8]) -> Option<&'static str> {
        let areas = &self.areas;
        Some(if got != told.number {
            "numbers differ"
        } else if areas.value.contents() != [told.value] {
            "values differ"
        } else if areas.table.contents() != self.table {
            "tables differ"
        } else if areas.out.contents() != self.out {
            "entries differ"
        } else if areas.journal.contents() != journal {
            "the journal was touched"
        } else if !areas.guards_hold() {
            "memory beside a lent area was touched"
        } else {
            return None;
        })
    }

    /// The journal gives this table, and its rest begins there.
    fn gives(
        &mut self,
        setup: Setup,
        begun: &[u8],
        journal: &[u8],
        rest: usize,
        table: &[u8],
    ) -> Result<(), String> {
        let told = self.replay(setup, begun, journal)?;
        let length = journal.len();
        if told != (Told { number: 0, value: rest }) {
            return Err(format!("{told:?}, not {rest}, of a journal cut at {length}"));
        }
        match self.table == table {
            true => Ok(()),
            false => Err(format!("a journal cut at {length} gives another table than was saved")),
        }
    }
}

pub fn second_side(
    setup: Setup,
    call: JournalCall,
    t: &mut [u8],
    out: &mut [u8],
    bytes: &[u8],
) -> Told {
    let Setup { n, s, copy } = setup;
    let answer = match call {
        JournalCall::RecordEntry(o, j) => journal::record_entry(t, n, s, copy, out, o, j),
        JournalCall::MarkEntry(o, j) => journal::mark_entry(t, n, s, copy, out, o, j),
        JournalCall::Replay => {
            return match journal::replay(t, n, s, copy, bytes) {
                Ok(value) => Told { number: 0, value },
                Err(NotReplayed { refusal, offset }) => {
                    Told { number: refusal.number as u32, value: offset }
                }
            }
        }
    };
    match answer {
        Ok(value) => Told { number: 0, value },
        Err(refusal) => Told { number: refusal.number as u32, value: 0 },
    }
}

/// What an entry saved: where it ends, and the record that it left at which place of the table.
#[derive(Clone)]
pub struct Save {
    pub end: usize,
    at: usize,
    record: Vec<u8>,
}

impl Save {
    fn put(&self, table: &mut [u8]) {
        table[self.at..self.at + RECORD_LEN].copy_from_slice(&self.record);
    }
}

/// A copy's disk: the table that its journal was begun with, the journal, and what each entry saved.
#[derive(Clone)]
pub struct Book {
    pub setup: Setup,
    pub begun: Vec<u8>,
    pub bytes: Vec<u8>,
    pub saves: Vec<Save>,
}

impl Book {
    pub fn new(setup: Setup, begun: &[u8]) -> Book {
        Book { setup, begun: begun.to_vec(), bytes: Vec::new(), saves: Vec::new() }
    }

    /// Where the first so many entries end.
    fn end(&self, whole: usize) -> usize {
        whole.checked_sub(1).map_or(0, |last| self.saves[last].end)
    }

    /// Writes an entry of what the table holds.
    pub fn write(
        &mut self,
        journals: &mut Journals,
        call: JournalCall,
        table: &[u8],
    ) -> Result<(), String> {
        let (JournalCall::RecordEntry(o, j) | JournalCall::MarkEntry(o, j)) = call else {
            return Err(format!("{call:?} writes nothing"));
        };
        self.bytes.extend(journals.entry(self.setup, call, table)?);
        let at = make::place(self.setup, o, j);
        let record = table[at..at + RECORD_LEN].to_vec();
        self.saves.push(Save { end: self.bytes.len(), at, record });
        Ok(())
    }

    /// Cuts the journal off inside the entry after the first so many, each turn at another byte of it; gives the table
    /// of the replay, and leaves the journal without the rest.
    pub fn restart(
        &mut self,
        journals: &mut Journals,
        whole: usize,
        turn: usize,
    ) -> Result<Vec<u8>, String> {
        let start = self.end(whole);
        let rest = match self.saves.get(whole) {
            Some(next) => 1 + 37 * turn % (next.end - start - 1),
            None => 0,
        };
        journals.counts.restarts += 1;
        let told = journals.replay(self.setup, &self.begun, &self.bytes[..start + rest])?;
        if told != (Told { number: 0, value: start }) {
            return Err(format!("{told:?} of a journal cut at {start} and {rest} bytes more"));
        }
        self.bytes.truncate(told.value);
        self.saves.truncate(whole);
        Ok(journals.table.clone())
    }

    /// The whole journal gives this table.
    pub fn holds(&self, journals: &mut Journals, table: &[u8]) -> Result<(), String> {
        journals.gives(self.setup, &self.begun, &self.bytes, self.bytes.len(), table)
    }

    /// Cut at every byte, the journal gives the table that was saved after so many whole entries as are left.
    pub fn cut_everywhere(&self, journals: &mut Journals) -> Result<(), String> {
        self.count(journals);
        let mut table = self.begun.clone();
        for whole in 0..self.saves.len() {
            self.cut_within(journals, whole, &table, 1)?;
            self.saves[whole].put(&mut table);
        }
        self.holds(journals, &table)
    }

    /// The same at some bytes of every so many entries, and at all bytes of the last.
    pub fn cut_here_and_there(
        &self,
        journals: &mut Journals,
        random: &mut Random,
    ) -> Result<(), String> {
        self.count(journals);
        let mut table = self.begun.clone();
        for whole in 0..self.saves.len() {
            let last = whole + 1 == self.saves.len();
            if last || random.chance(20) {
                self.cut_within(journals, whole, &table, if last { 1 } else { 131 })?;
            }
            self.saves[whole].put(&mut table);
        }
        self.holds(journals, &table)
    }

    fn count(&self, journals: &mut Journals) {
        journals.counts.journals += 1;
        journals.counts.entries += self.saves.len() as u64;
    }

    /// Cuts inside the entry after the first so many, which gave this table: right before it, and then at every
    /// so-manieth byte.
    fn cut_within(
        &self,
        journals: &mut Journals,
        whole: usize,
        table: &[u8],
        step: usize,
    ) -> Result<(), String> {
        let (start, end) = (self.end(whole), self.end(whole + 1));
        for cut in (start..end).step_by(step) {
            journals.counts.cuts += 1;
            journals.gives(self.setup, &self.begun, &self.bytes[..cut], start, table)?;
        }
        Ok(())
    }

    /// After so many entries the rest is cut off and others are written: the journal gives the same as those alone on
    /// the table of the replay, for the entries that came next and for another's.
    pub fn goes_on(
        &self,
        journals: &mut Journals,
        random: &mut Random,
        whole: usize,
    ) -> Result<(), String> {
        let mut table = self.begun.clone();
        self.saves[..whole].iter().for_each(|save| save.put(&mut table));
        let mut last = table.clone();
        self.saves[whole..].iter().for_each(|save| save.put(&mut last));
        let further = &self.bytes[self.end(whole)..];
        journals.gives(self.setup, &table, further, further.len(), &last)?;

        let mut other = self.clone();
        let again = other.restart(journals, whole, random.below(1000))?;
        if again != table {
            return Err(format!("cut after {whole} entries it starts with another table"));
        }
        let Setup { n, s, .. } = self.setup;
        let (o, j) = (random.below(n), random.between(1, s));
        let record = make::record(random, self.setup, o);
        make::put(&mut table, make::place(self.setup, o, j), &record);
        other.write(journals, JournalCall::RecordEntry(o, j), &table)?;
        if record.mark == 1 {
            other.write(journals, JournalCall::MarkEntry(o, j), &table)?;
        }
        other.holds(journals, &table)
    }
}
