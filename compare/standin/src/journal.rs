//! The calls on a journal, with what is planted in them.

use crate::planted::Planted::{self, *};
use crate::planted::Setup;
use crate::{lent, lent_mut, number_alone};
use second::journal::{self, length_of};
use second::old::OLD_RECORD_LEN;
use second::refusal::{NotReplayed, ENTRY_INSTANCE, ENTRY_KIND, ENTRY_UNSOUND, INSTANCE, ROOM};
use second::table::{COMMITTED, MARK_AT};
use second::Refusal;

// Where a record's status stands in it, and the record in its entry.
const STATUS: usize = 8;
const RECORD: usize = 4;
const OLD_ENTRY: usize = RECORD + OLD_RECORD_LEN;

#[no_mangle]
pub extern "C" fn pumxaqert_entry_length(kind: usize) -> usize {
    match (Planted::now(), kind) {
        (OldEntryLength, 20) => OLD_ENTRY,
        _ => u8::try_from(kind).ok().and_then(length_of).unwrap_or(0),
    }
}

#[no_mangle]
pub unsafe extern "C" fn pumxaqert_record_entry(
    table: *const u8,
    table_len: usize,
    n: usize,
    s: usize,
    c: usize,
    out: *mut u8,
    out_len: usize,
    owner: usize,
    number: usize,
    written: *mut usize,
) -> u32 {
    let (t, out) = (lent(table, table_len), lent_mut(out, out_len));
    let setup = Setup { n, s, copy: c };
    let answer = write(Planted::now(), journal::RECORD, setup, t, out, owner, number);
    *written = answer.unwrap_or(0);
    number_alone(&answer)
}

#[no_mangle]
pub unsafe extern "C" fn pumxaqert_mark_entry(
    table: *const u8,
    table_len: usize,
    n: usize,
    s: usize,
    c: usize,
    out: *mut u8,
    out_len: usize,
    owner: usize,
    number: usize,
    written: *mut usize,
) -> u32 {
    let (t, out) = (lent(table, table_len), lent_mut(out, out_len));
    let setup = Setup { n, s, copy: c };
    let answer = write(Planted::now(), journal::MARK, setup, t, out, owner, number);
    *written = answer.unwrap_or(0);
    number_alone(&answer)
}

#[no_mangle]
pub unsafe extern "C" fn pumxaqert_replay(
    table: *mut u8,
    table_len: usize,
    n: usize,
    s: usize,
    c: usize,
    journal: *const u8,
    journal_len: usize,
    offset: *mut usize,
) -> u32 {
    let (t, journal) = (lent_mut(table, table_len), lent(journal, journal_len));
    let answer = replay(Planted::now(), Setup { n, s, copy: c }, t, journal);
    *offset = answer.unwrap_or_else(|bad| bad.offset);
    number_alone(&answer.map_err(|bad| bad.refusal))
}

fn write(
    planted: Planted,
    kind: u8,
    setup: Setup,
    t: &[u8],
    out: &mut [u8],
    o: usize,
    j: usize,
) -> Result<usize, Refusal> {
    let Setup { n, s, copy } = setup;
    let answer = match kind {
        journal::RECORD => journal::record_entry(t, n, s, copy, out, o, j),
        _ => journal::mark_entry(t, n, s, copy, out, o, j),
    };
    let is_instance = o < n && (1..=s).contains(&j);
    match (planted, answer) {
        (InstanceBeforeRoom, Err(ROOM)) if !is_instance => Err(INSTANCE),
        (RecordUnjudged, Err(ENTRY_UNSOUND)) if kind == journal::RECORD => {
            let (at, length) = second::record_part(t, n, s, copy, o, j);
            out[..RECORD].copy_from_slice(&[kind, o as u8, j as u8, 0]);
            out[RECORD..RECORD + length].copy_from_slice(&t[at..at + length]);
            Ok(RECORD + length)
        }
        (EntryTouched, Ok(length)) if length < out.len() => {
            out[length] ^= 1;
            answer
        }
        _ => answer,
    }
}

fn replay(
    planted: Planted,
    setup: Setup,
    t: &mut [u8],
    journal: &[u8],
) -> Result<usize, NotReplayed> {
    let Setup { n, s, copy } = setup;
    if !(RestForEntry as usize..=EntryTouched as usize).contains(&(planted as usize)) {
        return journal::replay(t, n, s, copy, journal);
    }
    second::judge_table(t, n, s, copy)?;
    let mut replayed = t.to_vec();
    let answer = walk(planted, setup, &mut replayed, journal);
    if answer.is_ok() || planted == ChangedBeforeBad {
        t.copy_from_slice(&replayed);
    }
    match (planted, answer) {
        (RestUnreported, Ok(_)) => Ok(journal.len()),
        (EndForStart, Err(NotReplayed { refusal, offset })) => {
            let length = length_of(journal[offset]).unwrap_or(1);
            Err(NotReplayed { refusal, offset: offset + length })
        }
        _ => answer,
    }
}

/// One entry after another, each alone onto what the ones before it left.
fn walk(
    planted: Planted,
    setup: Setup,
    t: &mut [u8],
    journal: &[u8],
) -> Result<usize, NotReplayed> {
    let mut offset = 0;
    while offset < journal.len() {
        let bad = |refusal| NotReplayed { refusal, offset };
        let rest = &journal[offset..];
        let Some(length) = length_of(rest[0]) else {
            let last = planted == LastByteForRest && rest.len() == 1;
            return if last { Ok(offset) } else { Err(bad(ENTRY_KIND)) };
        };
        if length > rest.len() && planted != RestForEntry {
            return Ok(offset);
        }
        let mut entry = rest[..length.min(rest.len())].to_vec();
        entry.resize(length, 0);
        put(planted, setup, t, &mut entry).map_err(bad)?;
        offset += length.min(rest.len());
    }
    Ok(offset)
}

/// Puts a whole entry of a known kind, with what is planted in that.
fn put(planted: Planted, setup: Setup, t: &mut [u8], entry: &mut [u8]) -> Result<(), Refusal> {
    let Setup { n, s, copy } = setup;
    let is_mark = entry[0] == journal::MARK;
    let number = u16::from_le_bytes([entry[2], entry[3]]) as usize;
    let (at, length) = second::record_part(t, n, s, copy, entry[1] as usize, number);
    let before = t[at..at + length].to_vec();
    match planted {
        NumberAsByte => entry[3] = 0,
        MarkElsewhere if is_mark && length > 0 => {
            let next = (entry[1] as usize + 1) % n;
            let (other, _) = second::record_part(t, n, s, copy, next, number);
            if before[STATUS] == COMMITTED {
                t[other + MARK_AT] = (t[other + STATUS] == COMMITTED) as u8;
                return Ok(());
            }
        }
        _ => {}
    }
    let answer = journal::replay(t, n, s, copy, entry).map_err(|bad| bad.refusal);
    match (planted, answer) {
        (UnsoundBeforeInstance, Err(ENTRY_INSTANCE)) if is_mark => return Err(ENTRY_UNSOUND),
        (UnsoundBeforeInstance, Err(ENTRY_INSTANCE)) => {
            entry[1..RECORD].copy_from_slice(&[copy as u8, 1, 0]);
            journal::replay(&mut t.to_vec(), n, s, copy, entry).map_err(|bad| bad.refusal)?;
        }
        (MarkOnUncommitted, Err(ENTRY_UNSOUND)) if is_mark => return Ok(()),
        (OldMarkKept, Ok(_)) if !is_mark && t[at + STATUS] == COMMITTED => {
            t[at + MARK_AT] |= before[MARK_AT];
        }
        (JudgedAsOwn, Err(ENTRY_UNSOUND)) if !is_mark => return as_own(setup, t, at, entry),
        _ => {}
    }
    answer.map(|_| ())
}

/// The record is put if it would be sound as this copy's own.
fn as_own(setup: Setup, t: &mut [u8], at: usize, entry: &mut [u8]) -> Result<(), Refusal> {
    let Setup { n, s, copy } = setup;
    entry[1] = copy as u8;
    journal::replay(&mut t.to_vec(), n, s, copy, entry).map_err(|bad| bad.refusal)?;
    t[at..at + entry.len() - RECORD].copy_from_slice(&entry[RECORD..]);
    Ok(())
}
