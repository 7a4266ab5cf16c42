//! Lent areas between guards, and the C calls on them with nothing in between.

use crate::both::Call;
use pumxaqert::raw::*;
use pumxaqert::{Fields, Setup};
use second::fields::COUNT as FIELDS;

const GUARD: usize = 64;
/// The most that a call answers.
pub const VALUES: usize = FIELDS + 1;

/// An area of some length in the middle of known cells; empty, it may be lent as NULL.
pub struct Area<T> {
    cells: Vec<T>,
    guard: T,
    length: usize,
    null: bool,
}

impl<T: Copy + PartialEq> Area<T> {
    pub fn new(most: usize, guard: T) -> Area<T> {
        Area { cells: vec![guard; most + 2 * GUARD], guard, length: 0, null: false }
    }

    /// Makes the area so long, with these contents; it grows where there were never so many.
    pub fn set(&mut self, contents: &[T], null: bool) {
        self.length = contents.len();
        self.null = null && contents.is_empty();
        let end = GUARD + self.length;
        if self.cells.len() < end + GUARD {
            self.cells.resize(end + GUARD, self.guard);
        }
        self.cells[GUARD..end].copy_from_slice(contents);
        self.cells[end..end + GUARD].fill(self.guard);
    }

    pub fn contents(&self) -> &[T] {
        &self.cells[GUARD..GUARD + self.length]
    }

    pub fn guards_hold(&self) -> bool {
        let end = GUARD + self.length;
        let mut guards = self.cells[..GUARD].iter().chain(&self.cells[end..end + GUARD]);
        guards.all(|&cell| cell == self.guard)
    }

    fn lend(&mut self) -> (*mut T, usize) {
        match self.null {
            true => (std::ptr::null_mut(), 0),
            false => (self.cells[GUARD..].as_mut_ptr(), self.length),
        }
    }
}

/// All that a call can be lent, and where it puts its answer.
pub struct Areas {
    pub table: Area<u8>,
    pub out: Area<u8>,
    pub list: Area<u16>,
    pub bytes: Area<u8>,
    pub values: Area<u64>,
}

impl Areas {
    pub fn guards_hold(&self) -> bool {
        self.table.guards_hold()
            && self.out.guards_hold()
            && self.list.guards_hold()
            && self.bytes.guards_hold()
            && self.values.guards_hold()
    }
}

/// What is asked: a call on a table, or one of the two on messages alone. A message's bytes stand in their area.
#[derive(Clone, Copy, Debug)]
pub enum Input {
    OnTable(Call<'static>),
    Message,
    Read,
    Write(Fields),
}

impl Input {
    /// How many values the call answers.
    pub fn values(&self) -> usize {
        match self {
            Input::OnTable(Call::Blank | Call::Judge) => 0,
            Input::OnTable(Call::HandOut(_) | Call::Part(..)) => 1,
            Input::Write(_) => 2,
            Input::OnTable(Call::Settled(..)) => 5,
            Input::OnTable(_) | Input::Message => 4,
            Input::Read => VALUES,
        }
    }

    /// Whether the last value is the offset of a wrong field.
    pub fn has_offset(&self) -> bool {
        match self {
            Input::OnTable(Call::Settled(..)) => false,
            _ => self.values() > 1,
        }
    }
}

/// The number that the C call returns; for the part, its start.
pub fn c_call(setup: Setup, input: Input, areas: &mut Areas) -> u64 {
    let Setup { n, s, copy: c } = setup;
    let (out, out_len) = areas.out.lend();
    let (bytes, bytes_len) = areas.bytes.lend();
    let (values, _) = areas.values.lend();
    // SAFETY: here and below, each area is lent with its length, NULL only with 0, and none overlaps; `values` has as
    // many places as the call answers, and a size is as wide as a u64 on the only machine that the library runs on.
    match input {
        Input::Read => unsafe {
            let offset = values.add(FIELDS).cast();
            pumxaqert_read_message(n, s, c, bytes, bytes_len, values.cast(), offset) as u64
        },
        Input::Write(f) => unsafe {
            let offset = values.add(1).cast();
            pumxaqert_write_message(n, s, c, out, out_len, &f, values.cast(), offset) as u64
        },
        Input::Message => event(setup, None, areas) as u64,
        Input::OnTable(call) => on_table(setup, call, areas),
    }
}

fn on_table(setup: Setup, call: Call, areas: &mut Areas) -> u64 {
    let Setup { n, s, copy: c } = setup;
    let (t, t_len) = areas.table.lend();
    let (list, list_len) = areas.list.lend();
    let (values, _) = areas.values.lend();
    let sizes = values.cast::<usize>();
    let number = unsafe {
        match call {
            Call::Part(o, j) => return pumxaqert_part(t, t_len, n, s, c, o, j, sizes) as u64,
            Call::Blank => pumxaqert_blank(t, t_len, n, s, c),
            Call::Judge => pumxaqert_judge(t, t_len, n, s, c),
            Call::Settled(o, j) => pumxaqert_settled(t, t_len, n, s, c, o, j, values.cast()),
            Call::HandOut(_) => pumxaqert_hand_out(t, t_len, n, s, c, list, list_len, sizes),
            _ => event(setup, Some(call), areas),
        }
    };
    number as u64
}

/// The calls with room for messages; none is the message in its area.
fn event(setup: Setup, call: Option<Call>, areas: &mut Areas) -> u32 {
    let Setup { n, s, copy: c } = setup;
    let (t, t_len) = areas.table.lend();
    let (out, out_len) = areas.out.lend();
    let (bytes, bytes_len) = areas.bytes.lend();
    let v = areas.values.lend().0.cast();
    unsafe {
        match call {
            None => pumxaqert_message(t, t_len, n, s, c, out, out_len, bytes, bytes_len, v),
            Some(Call::Request(op, key, second, edit)) => {
                pumxaqert_request(t, t_len, n, s, c, out, out_len, op, key, second, edit, v)
            }
            Some(Call::Recover(o, j)) => {
                pumxaqert_recover(t, t_len, n, s, c, out, out_len, o, j, v)
            }
            Some(Call::Nudge(o, j)) => pumxaqert_nudge(t, t_len, n, s, c, out, out_len, o, j, v),
            Some(other) => unreachable!("{other:?} has no room for messages"),
        }
    }
}

/// What a call on a stream is lent, and where it puts its answer.
pub struct StreamAreas {
    pub buf: Area<u8>,
    pub place: Area<usize>,
    pub bytes: Area<u8>,
    pub values: Area<usize>,
}

impl StreamAreas {
    pub fn guards_hold(&self) -> bool {
        self.buf.guards_hold()
            && self.place.guards_hold()
            && self.bytes.guards_hold()
            && self.values.guards_hold()
    }
}

#[derive(Clone, Copy, Debug, PartialEq, Eq)]
pub enum StreamCall {
    Begin,
    /// The bytes stand in their area.
    Take,
    Next,
}

/// The number that the C call returns.
pub fn c_stream(call: StreamCall, areas: &mut StreamAreas) -> u32 {
    let (buf, buf_len) = areas.buf.lend();
    let (bytes, bytes_len) = areas.bytes.lend();
    let (place, values) = (areas.place.lend().0.cast(), areas.values.lend().0.cast());
    // SAFETY: as above; place and values have three places each.
    unsafe {
        match call {
            StreamCall::Begin => pumxaqert_stream_begin(buf, buf_len, place),
            StreamCall::Take => {
                pumxaqert_stream_take(buf, buf_len, place, bytes, bytes_len, values)
            }
            StreamCall::Next => pumxaqert_stream_next(buf, buf_len, place, values),
        }
    }
}

/// What a call on a journal is lent, and where it puts its one number: how much was written, or an offset.
pub struct JournalAreas {
    pub table: Area<u8>,
    pub out: Area<u8>,
    pub journal: Area<u8>,
    pub value: Area<usize>,
}

impl JournalAreas {
    pub fn guards_hold(&self) -> bool {
        self.table.guards_hold()
            && self.out.guards_hold()
            && self.journal.guards_hold()
            && self.value.guards_hold()
    }
}

#[derive(Clone, Copy, Debug, PartialEq, Eq)]
pub enum JournalCall {
    RecordEntry(usize, usize),
    MarkEntry(usize, usize),
    /// The journal stands in its area.
    Replay,
}

/// The number that the C call returns.
pub fn c_journal(setup: Setup, call: JournalCall, areas: &mut JournalAreas) -> u32 {
    let Setup { n, s, copy: c } = setup;
    let (t, t_len) = areas.table.lend();
    let (out, out_len) = areas.out.lend();
    let (journal, journal_len) = areas.journal.lend();
    let (value, _) = areas.value.lend();
    // SAFETY: as above; the value has one place.
    unsafe {
        match call {
            JournalCall::RecordEntry(o, j) => {
                pumxaqert_record_entry(t, t_len, n, s, c, out, out_len, o, j, value)
            }
            JournalCall::MarkEntry(o, j) => {
                pumxaqert_mark_entry(t, t_len, n, s, c, out, out_len, o, j, value)
            }
            JournalCall::Replay => pumxaqert_replay(t, t_len, n, s, c, journal, journal_len, value),
        }
    }
}
