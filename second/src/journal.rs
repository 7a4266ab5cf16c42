//! The journal: an entry for each record that an event left and for each mark that a hand-out set, and the replay of such
//! entries onto the table that they began with.

use crate::bytes::{part, u16_at};
use crate::refusal::{
    NotReplayed, Refusal, ENTRY_INSTANCE, ENTRY_KIND, ENTRY_UNSOUND, INSTANCE, ROOM,
};
use crate::setup::{Setup, MAX_INSTANCES};
use crate::table::{
    fitting, judged, record_at, record_bytes, sound_records, status_of, COMMITTED, MARK_AT,
    RECORD_LEN,
};

/// An instance and its record.
pub const RECORD: u8 = 20;
/// An instance newly marked as handed out.
pub const MARK: u8 = 21;

/// Kind, owner and number, with which every entry begins.
const HEAD: usize = 4;

/// How long an entry of this kind is; none where there is no such kind.
#[inline]
pub fn length_of(kind: u8) -> Option<usize> {
    match kind {
        RECORD => Some(HEAD + RECORD_LEN),
        MARK => Some(HEAD),
        _ => None,
    }
}

/// Writes the record of o.j at the front of `out`; gives the entry's length.
pub fn record_entry(
    t: &[u8],
    n: usize,
    s: usize,
    copy: usize,
    out: &mut [u8],
    o: usize,
    j: usize,
) -> Result<usize, Refusal> {
    let (setup, out) = asked(t, n, s, copy, out.get_mut(..HEAD + RECORD_LEN), o, j)?;
    let record = record_bytes(t, &setup, o, j);
    if !sound_records(&setup, o, record) {
        return Err(ENTRY_UNSOUND);
    }
    out[..HEAD].copy_from_slice(&head(RECORD, o, j));
    out[HEAD..].copy_from_slice(record);
    Ok(out.len())
}

/// Writes at the front of `out` that o.j was handed out, which must be so; gives the entry's length.
pub fn mark_entry(
    t: &[u8],
    n: usize,
    s: usize,
    copy: usize,
    out: &mut [u8],
    o: usize,
    j: usize,
) -> Result<usize, Refusal> {
    let (setup, out) = asked(t, n, s, copy, out.get_mut(..HEAD), o, j)?;
    let record = record_bytes(t, &setup, o, j);
    if status_of(record) != COMMITTED || record[MARK_AT] != 1 {
        return Err(ENTRY_UNSOUND);
    }
    out.copy_from_slice(&head(MARK, o, j));
    Ok(out.len())
}

/// Refusals 1, 2 and 6, which both writers ask first: the room is none where it is too short.
#[inline]
fn asked<'a>(
    t: &[u8],
    n: usize,
    s: usize,
    copy: usize,
    room: Option<&'a mut [u8]>,
    o: usize,
    j: usize,
) -> Result<(Setup, &'a mut [u8]), Refusal> {
    let setup = fitting(t, n, s, copy)?;
    let room = room.ok_or(ROOM)?;
    if !setup.has_instance(o, j) {
        return Err(INSTANCE);
    }
    Ok((setup, room))
}

fn head(kind: u8, o: usize, j: usize) -> [u8; HEAD] {
    let [low, high] = (j as u16).to_le_bytes();
    [kind, o as u8, low, high]
}

/// Puts the whole entries of a journal onto the table; gives the offset where a shorter rest begins, the journal's
/// length if there is none.
///
/// A bad entry must leave the table alone, wherever it stands: all are judged before the first is put.
pub fn replay(
    t: &mut [u8],
    n: usize,
    s: usize,
    copy: usize,
    journal: &[u8],
) -> Result<usize, NotReplayed> {
    let setup = judged(t, n, s, copy)?;
    let end = judge(&setup, t, journal)?;
    put(&setup, t, &journal[..end]);
    Ok(end)
}

/// A whole entry: of a record, or with none of a mark.
struct Entry<'a> {
    owner: usize,
    number: usize,
    record: Option<&'a [u8; RECORD_LEN]>,
}

impl<'a> Entry<'a> {
    /// What the bytes begin with; none where they are shorter than their kind says, or nothing at all.
    #[inline]
    fn first(bytes: &'a [u8]) -> Result<Option<Entry<'a>>, Refusal> {
        let Some(&kind) = bytes.first() else { return Ok(None) };
        let length = length_of(kind).ok_or(ENTRY_KIND)?;
        Ok(bytes.get(..length).map(|whole| Entry {
            owner: whole[1] as usize,
            number: u16_at(whole, 2) as usize,
            record: (kind == RECORD).then(|| part(whole, HEAD)),
        }))
    }

    #[inline]
    fn length(&self) -> usize {
        HEAD + self.record.map_or(0, |record| record.len())
    }
}

/// Where the whole entries end, if all of them are good.
fn judge(setup: &Setup, t: &[u8], journal: &[u8]) -> Result<usize, NotReplayed> {
    let mut replayed = Replayed { setup, t, status: [None; MAX_INSTANCES] };
    let mut offset = 0;
    loop {
        let bad = |refusal| NotReplayed { refusal, offset };
        let Some(entry) = Entry::first(&journal[offset..]).map_err(bad)? else {
            return Ok(offset);
        };
        replayed.judge(&entry).map_err(bad)?;
        offset += entry.length();
    }
}

/// What the entries so far make of the table, as far as a mark asks for it: the status of each record that they put.
struct Replayed<'a> {
    setup: &'a Setup,
    t: &'a [u8],
    status: [Option<u8>; MAX_INSTANCES],
}

impl Replayed<'_> {
    #[inline]
    fn judge(&mut self, entry: &Entry) -> Result<(), Refusal> {
        let Entry { owner: o, number: j, record } = *entry;
        if !self.setup.has_instance(o, j) {
            return Err(ENTRY_INSTANCE);
        }
        let status = &mut self.status[self.setup.index(o, j)];
        let sound = match record {
            Some(record) => {
                *status = Some(status_of(record));
                sound_records(self.setup, o, record)
            }
            None => {
                let begun = || status_of(record_bytes(self.t, self.setup, o, j));
                status.unwrap_or_else(begun) == COMMITTED
            }
        };
        match sound {
            true => Ok(()),
            false => Err(ENTRY_UNSOUND),
        }
    }
}

/// Puts entries, all known to be whole and good.
fn put(setup: &Setup, t: &mut [u8], mut journal: &[u8]) {
    while let Ok(Some(entry)) = Entry::first(journal) {
        let at = record_at(setup, entry.owner, entry.number);
        match entry.record {
            Some(record) => t[at..at + RECORD_LEN].copy_from_slice(record),
            None => t[at + MARK_AT] = 1,
        }
        journal = &journal[entry.length()..];
    }
}
