//! Tables and journals from before there was a second key.

use pumxaqert::earlier::{bring_over, table_len, RECORD_LEN};
use pumxaqert::*;
use std::collections::{BTreeMap, BTreeSet};

const S: usize = 3;
/// In today's record: where the own vote, mark, phase and replies begin.
const OWN: usize = 4;
const MARK: usize = 40;
const PHASE: usize = 41;
const REPLIES: usize = 43;
const VOTE: usize = 36;

fn setup(copy: usize) -> Setup {
    Setup { n: 5, s: S, copy }
}

fn blank(setup: Setup) -> Vec<u8> {
    let mut table = vec![0xff; setup.table_len().unwrap()];
    setup.blank(&mut table).unwrap();
    table
}

/// splitmix64.
struct Random(u64);

impl Random {
    fn below(&mut self, n: usize) -> usize {
        self.0 = self.0.wrapping_add(0x9e37_79b9_7f4a_7c15);
        let z = (self.0 ^ (self.0 >> 30)).wrapping_mul(0xbf58_476d_1ce4_e5b9);
        ((z ^ (z >> 27)) % n as u64) as usize
    }
}

/// Today's records: an entry has four bytes before its record.
fn records(table: &[u8]) -> impl Iterator<Item = &[u8]> {
    table[3..].chunks_exact(EntryKind::Record.entry_len() - 4)
}

/// What the record was before: the four bytes behind each key taken out, vote by vote.
fn old_record(record: &[u8]) -> Vec<u8> {
    let vote = |at: usize| [&record[at..at + 10], &record[at + 14..at + VOTE]].concat();
    let mut old = [&record[..OWN], &vote(OWN), &record[MARK..REPLIES]].concat();
    (0..7).for_each(|q| old.extend(vote(REPLIES + VOTE * q)));
    assert_eq!(old.len(), RECORD_LEN);
    old
}

fn old_table(table: &[u8]) -> Vec<u8> {
    let mut old = table[..3].to_vec();
    records(table).for_each(|record| old.extend(old_record(record)));
    old
}

fn brought(setup: Setup, old: &[u8]) -> Result<(Vec<u8>, usize), Refusal> {
    let mut table = vec![0xa5; setup.table_len().unwrap()];
    let answer = bring_over(setup, &mut table, old);
    match answer {
        Ok(count) => Ok((table, count)),
        Err(Refusal::Setup) => {
            assert!(table.iter().all(|&byte| byte == 0xa5), "the lent table stays as it was");
            Err(Refusal::Setup)
        }
        Err(refusal) => {
            assert!(table == blank(setup), "the lent table is blank");
            Err(refusal)
        }
    }
}

/// Some copies, their tables and the journal of each, and the messages under way.
struct Run {
    random: Random,
    setups: Vec<Setup>,
    tables: Vec<Vec<u8>>,
    journals: Vec<Vec<u8>>,
    under_way: Vec<Vec<u8>>,
}

impl Run {
    fn new(n: usize, seed: u64) -> Run {
        let setups: Vec<Setup> = (0..n).map(|copy| Setup { n, s: S, copy }).collect();
        let tables = setups.iter().map(|&setup| blank(setup)).collect();
        let random = Random(seed);
        Run { random, setups, tables, journals: vec![vec![]; n], under_way: vec![] }
    }

    /// A request, a recovery, a hand-out or a message: any of those under way, now and then lost.
    fn step(&mut self) {
        let n = self.setups.len();
        let copy = self.random.below(n);
        match self.random.below(12) {
            0 => {
                let (key, edit) = (self.random.below(2) as u32, self.random.below(99) as u64);
                let read = self.random.below(3) == 0;
                let command =
                    if read { Command::read(key, edit) } else { Command::write(key, edit) };
                self.event(copy, |s, table, out| s.request(table, out, command));
            }
            1 => {
                let number = self.random.below(S) + 1;
                let at = Instance { owner: self.random.below(n), number };
                self.event(copy, |s, table, out| s.recover(table, out, at));
            }
            2 => self.hand_out(copy),
            _ if !self.under_way.is_empty() => {
                let any = self.random.below(self.under_way.len());
                let message = self.under_way.swap_remove(any);
                if self.random.below(10) > 0 {
                    let to = message[2] as usize;
                    self.event(to, |s, table, out| s.message(table, out, &message));
                }
            }
            _ => {}
        }
    }

    fn event(
        &mut self,
        copy: usize,
        call: impl FnOnce(Setup, &mut [u8], &mut [u8]) -> Result<Event, Refusal>,
    ) {
        let (setup, table, mut out) = (self.setups[copy], &mut self.tables[copy], [0; ROOM]);
        let Ok(event) = call(setup, table, &mut out) else { return };
        let mut entry = vec![0; EntryKind::Record.entry_len()];
        setup.record_entry(table, &mut entry, event.instance).unwrap();
        self.journals[copy].extend(entry);
        let mut rest = &out[..event.written];
        while let Some(&kind) = rest.first() {
            let (message, more) =
                rest.split_at([37, 24, 37, 10, 37, 10, 42, 14][kind as usize - 1]);
            self.under_way.push(message.to_vec());
            rest = more;
        }
    }

    fn hand_out(&mut self, copy: usize) {
        let (setup, table, mut list) = (self.setups[copy], &mut self.tables[copy], [0; 7 * S]);
        let codes = setup.hand_out(table, &mut list).unwrap();
        for &code in &list[..codes] {
            let mut entry = [0; 4];
            setup.mark_entry(table, &mut entry, Instance::of_code(code)).unwrap();
            self.journals[copy].extend(entry);
        }
    }
}

/// The copies of many runs, each with its table and journal.
fn runs() -> impl Iterator<Item = (Setup, Vec<u8>, Vec<u8>)> {
    (0..60).flat_map(|seed| {
        let mut run = Run::new([3, 5, 7][seed as usize % 3], seed);
        (0..20 + 5 * seed).for_each(|_| run.step());
        let Run { setups, tables, journals, .. } = run;
        setups.into_iter().zip(tables).zip(journals).map(|((setup, table), j)| (setup, table, j))
    })
}

/// Phase, op and status of the records that are not blank, and whether a collected reply has a command.
type Seen = (u8, u8, u8, bool);

fn seen(table: &[u8]) -> Vec<Seen> {
    let records = records(table).filter(|r| r.iter().any(|&byte| byte != 0));
    let has_command = |r: &[u8]| r[REPLIES..].chunks_exact(VOTE).any(|vote| vote[5] != 0);
    records.map(|r| (r[PHASE], r[OWN + 5], r[OWN + 4], has_command(r))).collect()
}

#[test]
fn tables_of_runs() {
    let mut all = BTreeSet::new();
    for (setup, table, _) in runs() {
        let seen = seen(&table);
        assert_eq!(brought(setup, &old_table(&table)), Ok((table, seen.len())));
        all.extend(seen);
    }
    for phase in 0..4 {
        for op in 0..3 {
            assert!(all.iter().any(|seen| (seen.0, seen.1) == (phase, op)), "{phase} {op}");
        }
    }
    assert!((0..5).all(|status| all.iter().any(|seen| seen.2 == status)));
    assert!(all.iter().any(|seen| seen.3));
}

/// Every byte of a run's table changed, in some ways: what comes over is sound and has every byte, all else is refused.
#[test]
fn damaged_bytes() {
    let full = |(_, table, _): &(Setup, Vec<u8>, Vec<u8>)| {
        (0..4).all(|phase| seen(table).iter().any(|seen| seen.0 == phase))
    };
    let (setup, table, _) = runs().find(full).unwrap();
    let old = old_table(&table);
    let (mut taken, mut refused) = (0, 0);
    for at in 0..old.len() {
        for change in [1, 3, 8, 0x80, 0xff] {
            let mut damaged = old.clone();
            damaged[at] ^= change;
            match brought(setup, &damaged) {
                Ok((table, _)) => {
                    assert_eq!(setup.judge(&table), Ok(()));
                    assert_eq!(old_table(&table), damaged);
                    taken += 1;
                }
                Err(refusal) => {
                    let wanted = if at < 3 { Refusal::Setup } else { Refusal::Unsound };
                    assert_eq!(refusal, wanted, "byte {at} changed by {change}");
                    refused += 1;
                }
            }
        }
    }
    assert!(taken > 100 && refused > 10_000, "{taken} {refused}");
}

/// A table with one edit, committed.
fn committed(copy: usize) -> Vec<u8> {
    let body = Body::Commit { command: Command::write(7, 100), deps: [0; 7] };
    let to = copy as u8;
    let message = Message { from: (to + 1) % 5, to, owner: 2, number: 1, ballot: 0, body };
    let (mut bytes, mut table) = ([0; ROOM], blank(setup(copy)));
    let length = setup(copy).write_message(&mut bytes, &message).unwrap();
    setup(copy).message(&mut table, &mut [0; ROOM], &bytes[..length]).unwrap();
    table
}

#[test]
fn other_sizes_and_heads() {
    let (s, table) = (setup(1), committed(1));
    let old = old_table(&table);
    assert_eq!(table_len(s), Some(old.len()));
    assert_eq!(brought(s, &old), Ok((table.clone(), 1)));
    let longer = [&old[..], &[0]].concat();
    for wrong in [&[], &old[..3], &old[..old.len() - 1], &longer, &table] {
        assert_eq!(brought(s, wrong), Err(Refusal::Setup));
    }
    for other in [setup(2), setup(5), setup(257), Setup { n: 3, s: 5, copy: 1 }] {
        assert_eq!(brought(other, &old), Err(Refusal::Setup));
    }
    for (n, s) in [(4, 3), (5, 0), (5, 65), (usize::MAX, usize::MAX), (0, 0)] {
        assert_eq!(table_len(Setup { n, s, copy: 1 }), None);
        let mut lent = table.clone();
        assert_eq!(bring_over(Setup { n, s, copy: 1 }, &mut lent, &old), Err(Refusal::Setup));
        assert!(lent == table);
    }
    let mut lent = table.clone();
    let short = lent.len() - 1;
    assert_eq!(bring_over(s, &mut lent[..short], &old), Err(Refusal::Setup));
    assert!(lent == table);
}

/// No op above 2 was there before, whatever its key.
#[test]
fn other_ops() {
    let old = old_table(&committed(1));
    let at = old.iter().position(|&byte| byte == 4).unwrap() + 1;
    assert_eq!(old[at], 2);
    for op in 3..=255 {
        for key in [0, 7, 255] {
            let mut other = old.clone();
            (other[at], other[at + 1]) = (op, key);
            assert_eq!(brought(setup(1), &other), Err(Refusal::Unsound));
        }
    }
}

/// What a journal is answered that the library of before wrote.
#[derive(Debug, PartialEq, Eq, PartialOrd, Ord, Clone, Copy)]
enum Answer {
    /// The first record is not sound.
    Refused,
    /// The first record, and what is behind it, is taken for a cut entry.
    Rest,
    /// It has marks alone.
    Whole,
}

/// A journal as it was before, with each entry's kind and offset.
fn old_journal(journal: &[u8]) -> (Vec<u8>, Vec<(EntryKind, usize)>) {
    let (mut old, mut places) = (Vec::new(), Vec::new());
    for entry in entries(journal) {
        places.push((entry.kind, old.len()));
        old.extend(&entry.bytes[..4]);
        if entry.kind == EntryKind::Record {
            old.extend(old_record(&entry.bytes[4..]));
        }
    }
    (old, places)
}

/// Replays what was kept before from this entry on, onto today's table at that moment. Marks come over; the first record
/// is never put in, right or wrong.
fn replayed(setup: Setup, begun: &[u8], old: &[u8], places: &[(EntryKind, usize)]) -> Answer {
    let start = places.first().map_or(old.len(), |&(_, offset)| offset);
    let journal = &old[start..];
    let first = places.iter().find(|(kind, _)| *kind == EntryKind::Record);
    let end = first.map_or(journal.len(), |(_, offset)| offset - start);
    let mut marked = begun.to_vec();
    assert_eq!(setup.replay(&mut marked, &journal[..end]), Ok(end));
    let mut table = begun.to_vec();
    match setup.replay(&mut table, journal) {
        Ok(offset) => {
            assert_eq!((offset, &table), (end, &marked));
            let answer = if first.is_some() { Answer::Rest } else { Answer::Whole };
            assert!(answer == Answer::Whole || journal.len() - end < 267 + 32);
            answer
        }
        Err(refusal) => {
            assert_eq!((refusal, &table[..]), (Refusal::EntryUnsound { offset: end }, begun));
            assert!(journal.len() - end >= 267 + 32);
            Answer::Refused
        }
    }
}

/// From every entry on, and cut at every byte of the first entries.
#[test]
fn journals_from_before() {
    let mut answers = BTreeMap::new();
    for (setup, _, journal) in runs() {
        let (old, places) = old_journal(&journal);
        let mut table = blank(setup);
        for (i, entry) in entries(&journal).enumerate() {
            *answers.entry(replayed(setup, &table, &old, &places[i..])).or_insert(0) += 1;
            setup.replay(&mut table, entry.bytes).unwrap();
        }
        for cut in 0..old.len().min(700) {
            replayed(setup, &blank(setup), &old[..cut], &places);
        }
    }
    let [refused, rest, whole] =
        [Answer::Refused, Answer::Rest, Answer::Whole].map(|answer| answers[&answer]);
    assert!(refused > 1000 && rest > 100 && whole > 0, "{answers:?}");
}

/// A journal that was begun anew before has marks alone: it goes on with the table that was brought over.
#[test]
fn marks_from_before() {
    let mut marks = 0;
    for (setup, table, journal) in runs() {
        let is_mark = |entry: &Entry| entry.kind == EntryKind::Mark;
        let old: Vec<u8> =
            entries(&journal).filter(is_mark).flat_map(|e| e.bytes.to_vec()).collect();
        let (mut new, _) = brought(setup, &old_table(&table)).unwrap();
        assert_eq!(setup.replay(&mut new, &old), Ok(old.len()));
        assert!(new == table);
        marks += old.len() / 4;
    }
    assert!(marks > 100, "{marks}");
}
