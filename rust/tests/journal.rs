//! The journal through the wrapper.

use pumxaqert::*;

const SETUP: Setup = Setup { n: 3, s: 4, copy: 2 };
const FIRST: Instance = Instance { owner: 0, number: 1 };
const SECOND: Instance = Instance { owner: 1, number: 1 };

fn blank() -> Vec<u8> {
    let mut table = vec![0xff; SETUP.table_len().unwrap()];
    SETUP.blank(&mut table).unwrap();
    table
}

fn record_entry(table: &[u8], at: Instance) -> Vec<u8> {
    let mut entry = vec![0xa5; EntryKind::Record.entry_len()];
    assert_eq!(SETUP.record_entry(table, &mut entry, at), Ok(entry.len()));
    entry
}

fn mark_entry(table: &[u8], at: Instance) -> Vec<u8> {
    let mut entry = vec![0xa5; EntryKind::Mark.entry_len()];
    assert_eq!(SETUP.mark_entry(table, &mut entry, at), Ok(entry.len()));
    entry
}

/// W8 at copy 2, saved: two Commits that cover each other, then both are handed out. The entries, and the table after
/// each of them, from the blank one on.
fn run() -> (Vec<Vec<u8>>, Vec<Vec<u8>>) {
    let mut table = blank();
    let (mut saved, mut entries) = (vec![table.clone()], Vec::new());
    for (at, deps) in [(FIRST, [0, 1, 0]), (SECOND, [1, 0, 0])] {
        let mut all = [0; 7];
        all[..3].copy_from_slice(&deps);
        let command = Command::write(7, 100 + at.owner as u64);
        let body = Body::Commit { command, deps: all };
        let owner = at.owner as u8;
        let message = Message { from: owner, to: 2, owner, number: 1, ballot: 0, body };
        let (mut bytes, mut out) = ([0; ROOM], [0; ROOM]);
        let length = SETUP.write_message(&mut bytes, &message).unwrap();
        let event = SETUP.message(&mut table, &mut out, &bytes[..length]).unwrap();
        entries.push(record_entry(&table, event.instance));
        saved.push(table.clone());
    }
    for at in [FIRST, SECOND] {
        let mut list = [0; 1];
        assert_eq!(SETUP.hand_out(&mut table, &mut list), Ok(1));
        assert_eq!(Instance::of_code(list[0]), at);
        entries.push(mark_entry(&table, at));
        saved.push(table.clone());
    }
    (entries, saved)
}

/// The journal and the table that it leaves.
fn journal() -> (Vec<u8>, Vec<u8>) {
    let (entries, mut saved) = run();
    (entries.concat(), saved.pop().unwrap())
}

fn replayed(journal: &[u8]) -> Result<(Vec<u8>, usize), Refusal> {
    let mut table = blank();
    let before = table.clone();
    let answer = SETUP.replay(&mut table, journal);
    assert!(answer.is_ok() || table == before, "a refusal leaves the table as it was");
    answer.map(|offset| (table, offset))
}

/// Cut at every byte: the table after as many entries as are whole, and the offset where they end.
#[test]
fn cut_at_every_byte() {
    let (entries, saved) = run();
    let journal = entries.concat();
    let ends: Vec<usize> = (0..=4).map(|count| entries[..count].concat().len()).collect();
    for cut in 0..=journal.len() {
        let whole = ends.iter().rposition(|&end| end <= cut).unwrap();
        let (table, offset) = replayed(&journal[..cut]).unwrap();
        assert_eq!(offset, ends[whole]);
        assert!(table == saved[whole], "cut at {cut}");
    }
}

#[test]
fn bytes_of_the_entries() {
    let (entries, saved) = run();
    let part = |table: &[u8], at| {
        let (start, length) = SETUP.part(table, at);
        table[start..start + length].to_vec()
    };
    assert_eq!(entries[1], [vec![20, 1, 1, 0], part(&saved[2], SECOND)].concat());
    assert_eq!(entries[3], [21, 1, 1, 0]);
    // A record entry after the hand-out carries the mark.
    assert_eq!(record_entry(&saved[4], SECOND)[4..], part(&saved[4], SECOND));
    // What is after the entry stays.
    let mut out = [0xa5; 6];
    assert_eq!(SETUP.mark_entry(&saved[4], &mut out, FIRST), Ok(4));
    assert_eq!(out, [21, 0, 1, 0, 0xa5, 0xa5]);
}

#[test]
fn entries_of_a_journal() {
    use EntryKind::{Mark, Record};
    let (written, _) = run();
    let journal = written.concat();
    let wanted = [(Record, FIRST), (Record, SECOND), (Mark, FIRST), (Mark, SECOND)];
    let wanted: Vec<Entry> = wanted
        .into_iter()
        .zip(&written)
        .map(|((kind, instance), bytes)| Entry { kind, instance, bytes })
        .collect();
    assert_eq!(entries(&journal).collect::<Vec<_>>(), wanted);
    assert_eq!(entries(&journal[..journal.len() - 1]).collect::<Vec<_>>(), wanted[..3]);
    assert_eq!(entries(&[&[21, 2, 3, 1, 19], &journal[..]].concat()).count(), 1);
    let far = entries(&[21, 2, 3, 1]).next().unwrap().instance;
    assert_eq!(far, Instance { owner: 2, number: 259 });
    assert_eq!(EntryKind::from_byte(19), None);
    assert_eq!(EntryKind::from_byte(22), None);
}

#[test]
fn bad_entries() {
    let (journal, table) = journal();
    let end = journal.len();
    let with = |more: &[u8]| replayed(&[&journal, more].concat());
    assert_eq!(with(&[]), Ok((table.clone(), end)));
    assert_eq!(with(&[20, 9]), Ok((table.clone(), end)), "a rest is not judged");
    assert_eq!(with(&[21, 1, 1, 0]), Ok((table, end + 4)), "marked once more");
    assert_eq!(with(&[22]), Err(Refusal::EntryKind { offset: end }));
    for wrong in [[21, 3, 1, 0], [21, 0, 0, 0], [21, 0, 5, 0], [21, 0, 1, 1]] {
        assert_eq!(with(&wrong), Err(Refusal::EntryInstance { offset: end }));
    }
    assert_eq!(with(&[21, 2, 1, 0]), Err(Refusal::EntryUnsound { offset: end }));
    let mut unsound = record_entry(&blank(), FIRST);
    unsound[4] = 7;
    assert_eq!(with(&unsound), Err(Refusal::EntryUnsound { offset: end }));
    unsound[1] = 3;
    assert_eq!(with(&unsound), Err(Refusal::EntryInstance { offset: end }));
    assert_eq!(replayed(&[0]), Err(Refusal::EntryKind { offset: 0 }));
}

#[test]
fn refused_setups_and_tables() {
    let (journal, mut table) = journal();
    assert_eq!(Setup { n: 4, ..SETUP }.replay(&mut table, &journal), Err(Refusal::Setup));
    let (at, _) = SETUP.part(&table, FIRST);
    table[at] = 7;
    assert_eq!(SETUP.replay(&mut table, &journal), Err(Refusal::Unsound));
    // The writers judge one record alone.
    record_entry(&table, SECOND);
    mark_entry(&table, SECOND);
    mark_entry(&table, FIRST);
    let mut entry = vec![0; EntryKind::Record.entry_len()];
    let unsound = Err(Refusal::EntryUnsound { offset: 0 });
    assert_eq!(SETUP.record_entry(&table, &mut entry, FIRST), unsound);
}

#[test]
fn refused_writers() {
    let table = blank();
    let mut out = vec![0xa5; EntryKind::Record.entry_len()];
    let short = out.len() - 1;
    let none = Instance { owner: 3, number: 1 };
    let other = Setup { copy: 3, ..SETUP };
    assert_eq!(other.record_entry(&table, &mut [], none), Err(Refusal::Setup));
    assert_eq!(other.mark_entry(&table, &mut [], none), Err(Refusal::Setup));
    assert_eq!(SETUP.record_entry(&table, &mut out[..short], none), Err(Refusal::Room));
    assert_eq!(SETUP.mark_entry(&table, &mut out[..3], none), Err(Refusal::Room));
    assert_eq!(SETUP.record_entry(&table, &mut out, none), Err(Refusal::Instance));
    assert_eq!(SETUP.mark_entry(&table, &mut out, none), Err(Refusal::Instance));
    let unsound = Err(Refusal::EntryUnsound { offset: 0 });
    assert_eq!(SETUP.mark_entry(&table, &mut out, FIRST), unsound);
    assert!(out.iter().all(|&byte| byte == 0xa5));
}
