//! The journal: what the writers write and refuse, what replay makes of whole, cut and damaged journals.

mod common;
use common::*;
use second::journal::{length_of, mark_entry, record_entry, replay};
use second::refusal::NotReplayed;
use second::{Message, Refusal};

const RECORD_ENTRY: usize = 299;
const MARK_ENTRY: usize = 4;

type Writer = fn(&[u8], usize, usize, usize, &mut [u8], usize, usize) -> Result<usize, Refusal>;

const WRITERS: [(Writer, usize); 2] = [(record_entry, RECORD_ENTRY), (mark_entry, MARK_ENTRY)];

/// From docs/LAYOUT.md, byte by byte.
fn record(o: u8, j: u16, r: &Rec) -> Vec<u8> {
    let mut bytes = vec![20, o];
    bytes.extend(j.to_le_bytes());
    bytes.extend(r.bytes());
    bytes
}

fn mark(o: u8, j: u16) -> Vec<u8> {
    let mut bytes = vec![21, o];
    bytes.extend(j.to_le_bytes());
    bytes
}

/// What an entry gives on this copy's table, with room to spare.
fn written(copy: &Copy, writer: Writer, o: usize, j: usize) -> Result<Vec<u8>, Refusal> {
    let mut out = [0xa5; 300];
    let length = writer(&copy.t, copy.n, copy.s, copy.copy, &mut out, o, j);
    assert!(out[*length.as_ref().unwrap_or(&0)..].iter().all(|&byte| byte == 0xa5));
    length.map(|length| out[..length].to_vec())
}

fn onto(copy: &mut Copy, journal: &[u8]) -> Result<usize, NotReplayed> {
    replay(&mut copy.t, copy.n, copy.s, copy.copy, journal)
}

fn bad(number: u8, offset: usize) -> Result<usize, NotReplayed> {
    Err(NotReplayed { refusal: refused(number), offset })
}

/// Committed and handed out.
fn marked(key: u32, d: &[u16]) -> Rec {
    Rec { mark: 1, ..Rec::committed(key, d) }
}

/// Pre-accepting at ballot 0: sound at its owner alone.
fn leading() -> Rec {
    Rec { own: vote(0, 2, 2, 7, 100, &[]), phase: 2, ..Rec::default() }
}

#[test]
fn lengths() {
    for kind in 0..=255 {
        let expected = match kind {
            20 => Some(RECORD_ENTRY),
            21 => Some(MARK_ENTRY),
            _ => None,
        };
        assert_eq!(length_of(kind), expected);
    }
}

#[test]
fn what_is_written() {
    let mut copy = Copy::blank(3, 2, 1);
    copy.put(1, 1, &leading()).put(2, 2, &marked(9, &[1, 0, 2])).put(0, 1, &Rec::committed(5, &[]));
    assert_eq!(written(&copy, record_entry, 1, 1), Ok(record(1, 1, &leading())));
    assert_eq!(written(&copy, record_entry, 2, 2), Ok(record(2, 2, &marked(9, &[1, 0, 2]))));
    assert_eq!(written(&copy, record_entry, 0, 2), Ok(record(0, 2, &Rec::default())));
    assert_eq!(written(&copy, mark_entry, 2, 2), Ok(mark(2, 2)));
    for (o, j) in [(0, 1), (0, 2), (1, 1)] {
        assert_eq!(written(&copy, mark_entry, o, j), Err(refused(43)), "{o}.{j}");
    }
}

/// Each refusal alone, and each before those that come after it.
#[test]
fn what_a_writer_refuses() {
    let mut copy = Copy::blank(3, 2, 1);
    copy.put(0, 1, &Rec { mark: 1, ..Rec::default() });
    let (t, longer) = (copy.t.clone(), [&copy.t[..], &[0]].concat());
    for (writer, length) in WRITERS {
        let refusal = |t: &[u8], n, s, c, room: usize, o, j| {
            let mut out = vec![0xa5; room];
            let answer = writer(t, n, s, c, &mut out, o, j);
            assert_eq!(out, vec![0xa5; room]);
            answer.unwrap_err().number
        };
        for (n, s, c) in [(4, 2, 1), (0, 2, 0), (3, 0, 1), (3, 65, 1), (3, 2, 3), (3, 1, 1)] {
            assert_eq!(refusal(&t, n, s, c, length, 0, 1), 1);
            assert_eq!(refusal(&t, n, s, c, 0, 9, 9), 1);
        }
        assert_eq!(refusal(&longer, 3, 2, 1, length, 0, 1), 1);
        assert_eq!(refusal(&t[1..], 3, 2, 1, 0, 9, 9), 1);
        for room in 0..length {
            assert_eq!(refusal(&t, 3, 2, 1, room, 0, 1), 2);
            assert_eq!(refusal(&t, 3, 2, 1, room, 3, 1), 2);
        }
        for (o, j) in [(3, 1), (0, 0), (0, 3), (256, 1), (0, 257), (usize::MAX, usize::MAX)] {
            assert_eq!(refusal(&t, 3, 2, 1, length, o, j), 6, "{o}.{j}");
        }
        assert_eq!(refusal(&t, 3, 2, 1, length, 0, 1), 43);
    }
}

/// Nothing but the one record counts, and of a mark's nothing but status and mark.
#[test]
fn what_a_writer_judges() {
    let mut copy = Copy::blank(3, 2, 1);
    copy.put(0, 1, &marked(5, &[])).put(0, 2, &Rec { phase: 9, ..Rec::default() });
    copy.put(2, 1, &Rec { joined: 7, ..marked(5, &[9]) });
    copy.t[..3].fill(0xff);
    assert_eq!(written(&copy, record_entry, 0, 1), Ok(record(0, 1, &marked(5, &[]))));
    assert_eq!(written(&copy, record_entry, 0, 2), Err(refused(43)));
    assert_eq!(written(&copy, mark_entry, 0, 2), Err(refused(43)));
    assert_eq!(written(&copy, record_entry, 2, 1), Err(refused(43)));
    assert_eq!(written(&copy, mark_entry, 2, 1), Ok(mark(2, 1)));
    copy.put(2, 1, &Rec { mark: 2, ..Rec::committed(5, &[]) });
    assert_eq!(written(&copy, mark_entry, 2, 1), Err(refused(43)));
    // At ballot 0 only the owner leads.
    copy.put(1, 1, &leading()).put(2, 2, &leading());
    assert_eq!(written(&copy, record_entry, 1, 1), Ok(record(1, 1, &leading())));
    assert_eq!(written(&copy, record_entry, 2, 2), Err(refused(43)));
}

/// A journal with both kinds, the tables after each number of its entries, and where those end.
fn short() -> (Vec<u8>, Vec<Copy>, Vec<usize>) {
    let entries = [
        record(1, 1, &leading()),
        record(2, 2, &Rec::committed(9, &[0, 1])),
        mark(2, 2),
        record(0, 1, &marked(4, &[])),
        mark(0, 1),
        record(0, 1, &Rec::committed(4, &[])),
    ];
    let mut copy = Copy::blank(3, 2, 1);
    let mut tables = vec![copy.clone()];
    copy.put(1, 1, &leading());
    tables.push(copy.clone());
    copy.put(2, 2, &Rec::committed(9, &[0, 1]));
    tables.push(copy.clone());
    copy.put(2, 2, &marked(9, &[0, 1]));
    tables.push(copy.clone());
    copy.put(0, 1, &marked(4, &[]));
    tables.extend([copy.clone(), copy.clone()]);
    copy.put(0, 1, &Rec::committed(4, &[]));
    tables.push(copy);
    let ends = (0..=entries.len()).map(|count| entries[..count].concat().len()).collect();
    (entries.concat(), tables, ends)
}

#[test]
fn cut_at_every_byte() {
    let (journal, tables, ends) = short();
    assert_eq!(journal.len(), 4 * RECORD_ENTRY + 2 * MARK_ENTRY);
    for cut in 0..=journal.len() {
        let whole = ends.iter().rposition(|&end| end <= cut).unwrap();
        let mut copy = tables[0].clone();
        assert_eq!(onto(&mut copy, &journal[..cut]), Ok(ends[whole]), "cut at {cut}");
        assert_eq!(copy, tables[whole], "cut at {cut}");
        assert_eq!(onto(&mut copy, &journal[ends[whole]..]), Ok(journal.len() - ends[whole]));
        assert_eq!(copy, tables[ends.len() - 1]);
    }
}

#[test]
fn the_lent_table() {
    let (journal, tables, _) = short();
    let mut t = tables[0].t.clone();
    for (n, s, c) in [(4, 2, 1), (3, 65, 1), (3, 2, 3), (3, 1, 1), (5, 2, 1)] {
        assert_eq!(replay(&mut t, n, s, c, &journal), bad(1, 0));
    }
    assert_eq!(replay(&mut t, 3, 2, 0, &journal), bad(11, 0));
    assert_eq!(t, tables[0].t);
    // What the journal would put right, or does not touch, is judged all the same.
    for (o, j) in [(1, 1), (0, 2)] {
        let mut copy = tables[0].clone();
        copy.put(o, j, &Rec { mark: 1, ..Rec::default() });
        let before = copy.clone();
        for journal in [&journal[..], &[], &[9]] {
            assert_eq!(onto(&mut copy, journal), bad(11, 0));
        }
        assert_eq!(copy, before);
    }
}

/// The entry after good ones, with further bytes behind it, is refused at its own offset.
fn refuses(entry: &[u8], number: u8) {
    let (journal, tables, ends) = short();
    for (count, &end) in ends.iter().enumerate() {
        for behind in [&[] as &[u8], &[9], &[20], &journal] {
            let mut copy = tables[0].clone();
            let damaged = [&journal[..end], entry, behind].concat();
            assert_eq!(onto(&mut copy, &damaged), bad(number, end), "{entry:02x?} after {count}");
            assert_eq!(copy, tables[0]);
        }
    }
}

#[test]
fn unknown_kinds() {
    for kind in (0..=255).filter(|&kind| length_of(kind).is_none()) {
        refuses(&[kind], 41);
    }
    // 41 before 42 and 43, whatever follows.
    refuses(&[22, 9, 9, 9], 41);
}

#[test]
fn bad_instances() {
    let unsound = Rec { mark: 2, ..Rec::default() };
    for (o, j) in [(3, 1), (255, 1), (0, 0), (0, 3), (0, 257), (0, 0x0200), (7, 65535)] {
        refuses(&record(o, j, &Rec::default()), 42);
        refuses(&record(o, j, &unsound), 42);
        refuses(&mark(o, j), 42);
    }
}

#[test]
fn unsound_entries() {
    refuses(&record(0, 2, &Rec { mark: 1, ..Rec::default() }), 43);
    refuses(
        &record(1, 2, &Rec { joined: 8, own: vote(16, 1, 1, 1, 1, &[]), ..Rec::default() }),
        43,
    );
    refuses(&record(0, 2, &leading()), 43);
    refuses(&record(2, 1, &Rec::committed(1, &[3])), 43);
    for (o, j) in [(0, 2), (1, 1), (1, 2), (2, 1)] {
        refuses(&mark(o, j), 43);
    }
}

/// A rest is not looked into, however bad it would be.
#[test]
fn rests() {
    let (journal, tables, _) = short();
    let all = tables.last().unwrap();
    for entry in [record(9, 900, &Rec { mark: 7, ..Rec::default() }), mark(9, 900), mark(1, 1)] {
        for length in 0..entry.len() {
            let mut copy = tables[0].clone();
            let cut = [&journal[..], &entry[..length]].concat();
            assert_eq!(onto(&mut copy, &cut), Ok(journal.len()), "{length} of {entry:02x?}");
            assert_eq!(copy, *all);
        }
    }
}

/// Committed is what the entries up to the mark make of the instance, not what the table held or will hold.
#[test]
fn marks_see_what_is_replayed() {
    let mut begun = Copy::blank(3, 2, 1);
    begun.put(0, 1, &Rec::committed(5, &[])).put(0, 2, &marked(5, &[]));
    let accepted = Rec { own: vote(0, 3, 2, 5, 1, &[]), ..Rec::default() };
    let tried = |entries: &[Vec<u8>]| {
        let mut copy = begun.clone();
        (onto(&mut copy, &entries.concat()), copy)
    };
    let mut expected = begun.clone();
    expected.put(0, 1, &marked(5, &[]));
    assert_eq!(tried(&[mark(0, 1)]), (Ok(4), expected.clone()));
    assert_eq!(tried(&[mark(0, 1), mark(0, 1), mark(0, 2)]), (Ok(12), expected));
    assert_eq!(
        tried(&[record(0, 1, &accepted), mark(0, 1)]),
        (bad(43, RECORD_ENTRY), begun.clone())
    );
    assert_eq!(tried(&[mark(2, 1), record(2, 1, &marked(5, &[]))]), (bad(43, 0), begun.clone()));
    let mut unmarked = begun.clone();
    unmarked.put(0, 2, &Rec::committed(5, &[]));
    assert_eq!(tried(&[record(0, 2, &Rec::committed(5, &[]))]), (Ok(RECORD_ENTRY), unmarked));
}

/// Every byte set to every value: refused at an entry and unchanged, or as the entries say one by one.
#[test]
fn damaged() {
    let (journal, tables, _) = short();
    for at in 0..journal.len() {
        for value in 0..=255 {
            let mut damaged = journal.clone();
            damaged[at] = value;
            let mut copy = tables[0].clone();
            let answer = onto(&mut copy, &damaged);
            assert_eq!((answer, copy), one_by_one(&tables[0], &damaged), "{value} at {at}");
        }
    }
}

/// Each entry alone onto what the ones before it left.
fn one_by_one(begun: &Copy, journal: &[u8]) -> (Result<usize, NotReplayed>, Copy) {
    let (mut copy, mut offset) = (begun.clone(), 0);
    while offset < journal.len() {
        let length = length_of(journal[offset]).unwrap_or(1);
        let Some(entry) = journal.get(offset..offset + length) else { break };
        if let Err(NotReplayed { refusal, .. }) = onto(&mut copy, entry) {
            return (bad(refusal.number, offset), begun.clone());
        }
        offset += length;
    }
    (Ok(offset), copy)
}

/// A copy that keeps a journal, and its table after each number of entries.
struct Kept {
    copy: Copy,
    entries: Vec<Vec<u8>>,
    tables: Vec<Copy>,
}

impl Kept {
    fn keep(&mut self, writer: Writer, o: usize, j: usize, saved: Copy) {
        self.entries.push(written(&self.copy, writer, o, j).unwrap());
        self.tables.push(saved);
    }

    /// A request, and a reply that commits it.
    fn commit(&mut self, edit: u64) {
        let (event, sent) = self.copy.request(2, 7, edit).unwrap();
        self.keep(record_entry, event.owner, event.number, self.copy.clone());
        let m = Message { kind: 2, from: 1, to: 0, op: 0, key: 0, edit: 0, ..sent[0] };
        let (event, _) = self.copy.message(&m).unwrap();
        self.keep(record_entry, event.owner, event.number, self.copy.clone());
    }

    /// The marks are saved one after another, though all are set at once.
    fn hand_out(&mut self, room: usize) {
        let mut saved = self.copy.clone();
        for code in self.copy.hand_out(room) {
            let (o, j) = (code as usize / 256, code as usize % 256);
            saved.put(o, j, &Rec { mark: 1, ..saved.get(o, j) });
            self.keep(mark_entry, o, j, saved.clone());
        }
    }
}

/// A run's entries give the table that its calls left, and so do the first so many of them.
#[test]
fn of_a_run() {
    let copy = Copy::blank(3, 4, 0);
    let mut kept = Kept { copy: copy.clone(), entries: Vec::new(), tables: vec![copy.clone()] };
    (1..=3).for_each(|edit| kept.commit(edit));
    kept.hand_out(2);
    kept.commit(4);
    kept.hand_out(9);
    assert_eq!((kept.entries.len(), kept.tables.last()), (12, Some(&kept.copy)));
    for count in 0..=kept.entries.len() {
        let (bytes, mut again) = (kept.entries[..count].concat(), copy.clone());
        assert_eq!(onto(&mut again, &bytes), Ok(bytes.len()));
        assert_eq!(again, kept.tables[count]);
    }
}
