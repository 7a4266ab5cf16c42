//! One call on both sides: answers, outgoing bytes, lists and tables are compared to the last byte.

use crate::make;
use crate::{UNTOUCHED, UNTOUCHED_CODE};
use pumxaqert::{raw, Command, Event, Fields, Instance, Message, Op, Settling, Setup};
use second::rules::{interfere, same_object, Interference, Upward};
use second::table::{HEAD_LEN, RECORD_LEN};
use second::{fields, Refusal, Settled};

/// A little more than any event needs, so that writing past 256 would show.
pub const OUT: usize = 300;
pub const LIST: usize = 450;

#[derive(Clone, Copy, Debug)]
pub enum Call<'a> {
    Blank,
    Judge,
    Part(usize, usize),
    /// Op, key, second key and edit.
    Request(usize, u32, u32, u64),
    Message(&'a [u8]),
    Recover(usize, usize),
    Nudge(usize, usize),
    Settled(usize, usize),
    HandOut(usize),
}

/// What a call answers, the same for both sides.
#[derive(Clone, Copy, Debug, PartialEq, Eq)]
pub enum Answer {
    Refused(Refusal),
    Done,
    Part(usize, usize),
    Event(usize, usize, usize),
    /// The same of what was agreed on.
    Settled(u64, u64, u64, u64),
    Waits(usize, usize),
    Codes(usize),
}

/// One side's lent memory beside its table.
pub struct Lent {
    pub out: [u8; OUT],
    pub list: [u16; LIST],
}

impl Lent {
    fn clear(&mut self) {
        self.out = [UNTOUCHED; OUT];
        self.list = [UNTOUCHED_CODE; LIST];
    }
}

/// One copy's table on either side.
#[derive(Clone)]
pub struct Pair {
    pub ours: Vec<u8>,
    pub theirs: Vec<u8>,
}

impl Pair {
    pub fn of(table: &[u8]) -> Pair {
        Pair { ours: table.to_vec(), theirs: table.to_vec() }
    }

    pub fn set(&mut self, table: &[u8]) {
        self.ours.copy_from_slice(table);
        self.theirs.copy_from_slice(table);
    }
}

/// Which programs a call goes to. One that stands alone is on both sides: nothing is compared, and only what is asked of
/// a run by itself can fail.
#[derive(Clone, Copy, Debug, Default, PartialEq, Eq)]
pub enum Sides {
    /// The second program and the library.
    #[default]
    Compared,
    /// The library alone.
    Library,
    /// The second program alone, by the interference of 4/12.
    Second,
    /// The second program alone, by the wider interference of document 01.
    SecondWide,
}

type Side = fn(Setup, usize, Call, &mut [u8], &mut Lent) -> Answer;

impl Sides {
    fn programs(self) -> [Side; 2] {
        match self {
            Sides::Compared => [second_side, library_side],
            Sides::Library => [library_side; 2],
            Sides::Second => [second_side; 2],
            Sides::SecondWide => [wide_side; 2],
        }
    }
}

pub struct Both {
    /// The second program's.
    pub ours: Lent,
    /// The library's.
    theirs: Lent,
    pub sides: Sides,
}

impl Default for Both {
    fn default() -> Both {
        Both::new(Sides::default())
    }
}

impl Both {
    pub fn new(sides: Sides) -> Both {
        let lent = || Lent { out: [UNTOUCHED; OUT], list: [UNTOUCHED_CODE; LIST] };
        Both { ours: lent(), theirs: lent(), sides }
    }

    /// The answer, where both sides agree on it and on every byte.
    pub fn call(
        &mut self,
        setup: Setup,
        room: usize,
        call: Call,
        tables: &mut Pair,
    ) -> Result<Answer, String> {
        self.ours.clear();
        self.theirs.clear();
        let [ours, theirs] = self.sides.programs();
        let ours = ours(setup, room, call, &mut tables.ours, &mut self.ours);
        let theirs = theirs(setup, room, call, &mut tables.theirs, &mut self.theirs);
        let differs = if ours != theirs {
            "answers"
        } else if self.ours.out != self.theirs.out {
            "outgoing bytes"
        } else if self.ours.list != self.theirs.list {
            "lists"
        } else if tables.ours != tables.theirs {
            "tables"
        } else {
            return Ok(ours);
        };
        let mut text = format!("{differs} differ in {call:?} with {setup:?}, room {room}\n");
        text += &format!("  second:  {ours:?}\n  library: {theirs:?}");
        if differs == "outgoing bytes" {
            let [a, b] = [&self.ours.out, &self.theirs.out];
            text += &format!("\n  second:  {a:02x?}\n  library: {b:02x?}");
        }
        Err(text + &first_byte(setup, tables))
    }

    /// The message as the copy reads it, where both sides agree; written back by both it must be the same bytes.
    pub fn read(
        &mut self,
        setup: Setup,
        bytes: &[u8],
    ) -> Result<Result<second::Message, Refusal>, String> {
        let Setup { n, s, copy } = setup;
        let ours = second::read_message(n, s, copy, bytes);
        let theirs = c_read(setup, bytes);
        if ours.map(|m| fields::fields(&m)) != theirs {
            return Err(format!(
                "{setup:?} reads {bytes:02x?}\n  second:  {ours:?}\n  library: {theirs:?}"
            ));
        }
        let wrapped = setup.read_message(bytes);
        if wrapped.map(|m| m.fields()).map_err(told) != theirs {
            return Err(format!("{setup:?} reads {bytes:02x?}\n  wrapper: {wrapped:?}"));
        }
        if let Ok(m) = &ours {
            let written = self.write(setup, &fields::fields(m))?;
            if written != Ok(bytes.len()) || self.ours.out[..bytes.len()] != *bytes {
                return Err(format!("{m:?} is not written back as it was read: {written:?}"));
            }
        }
        Ok(ours)
    }

    /// How long the message is that these numbers say, where both sides agree on it and on every byte of the room.
    pub fn write(&mut self, setup: Setup, f: &Fields) -> Result<Result<usize, Refusal>, String> {
        let Setup { n, s, copy } = setup;
        self.ours.clear();
        self.theirs.clear();
        let ours = fields::write(n, s, copy, &mut self.ours.out, f);
        let theirs = c_write(setup, &mut self.theirs.out, f);
        if ours != theirs || self.ours.out != self.theirs.out {
            return Err(format!(
                "{setup:?} writes {f:?}\n  second:  {ours:?}\n  library: {theirs:?}"
            ));
        }
        // The wrapper has a message only of numbers that its kind carries.
        let wrapped = Message::from_fields(f).filter(|m| m.fields() == *f);
        if let Some(m) = wrapped {
            self.theirs.clear();
            let theirs = setup.write_message(&mut self.theirs.out, &m).map_err(told);
            if ours != theirs || self.ours.out != self.theirs.out {
                return Err(format!("{setup:?} writes {f:?}\n  wrapper: {theirs:?}"));
            }
        }
        Ok(ours)
    }
}

/// The wrapper's refusal as the second program's.
fn told(refusal: pumxaqert::Refusal) -> Refusal {
    numbered(refusal.number(), refusal.offset())
}

/// A number or an offset that is none of a message's is none of the paper's either.
fn numbered(number: u32, offset: usize) -> Refusal {
    Refusal {
        number: number.try_into().unwrap_or(u8::MAX),
        offset: offset.try_into().unwrap_or(u8::MAX),
    }
}

fn c_read(setup: Setup, bytes: &[u8]) -> Result<Fields, Refusal> {
    let Setup { n, s, copy } = setup;
    let (mut f, mut offset) = ([0; fields::COUNT], usize::MAX);
    let (at, length) = (bytes.as_ptr(), bytes.len());
    // SAFETY: here and below, each area comes from a slice or array with its length.
    let number =
        unsafe { raw::pumxaqert_read_message(n, s, copy, at, length, &mut f, &mut offset) };
    match (number, offset) {
        (0, 0) => Ok(f),
        _ => Err(numbered(number, offset)),
    }
}

fn c_write(setup: Setup, out: &mut [u8], f: &Fields) -> Result<usize, Refusal> {
    let Setup { n, s, copy } = setup;
    let (mut written, mut offset) = (usize::MAX, usize::MAX);
    let (at, length) = (out.as_mut_ptr(), out.len());
    let number = unsafe {
        raw::pumxaqert_write_message(n, s, copy, at, length, f, &mut written, &mut offset)
    };
    match (number, offset) {
        (0, 0) => Ok(written),
        _ => Err(numbered(number, offset)),
    }
}

/// Where the tables first differ, and that record on both sides.
fn first_byte(setup: Setup, tables: &Pair) -> String {
    let Some(at) = tables.ours.iter().zip(&tables.theirs).position(|(a, b)| a != b) else {
        return String::new();
    };
    if at < HEAD_LEN {
        return format!("\n  the tables differ first at byte {at}");
    }
    let (record, byte) = ((at - HEAD_LEN) / RECORD_LEN, (at - HEAD_LEN) % RECORD_LEN);
    let (o, j) = (record / setup.s, record % setup.s + 1);
    let [a, b] = [&tables.ours, &tables.theirs].map(|t| make::get(t, make::place(setup, o, j)));
    format!(
        "\n  the tables differ first at byte {byte} of {o}.{j}\n  second:  {a:?}\n  library: {b:?}"
    )
}

pub fn second_side(setup: Setup, room: usize, call: Call, t: &mut [u8], lent: &mut Lent) -> Answer {
    second_by(interfere, setup, room, call, t, lent)
}

fn wide_side(setup: Setup, room: usize, call: Call, t: &mut [u8], lent: &mut Lent) -> Answer {
    second_by(same_object, setup, room, call, t, lent)
}

/// As `second_side`, with the search for interfering edits from number 1 up.
pub fn upward_side(setup: Setup, room: usize, call: Call, t: &mut [u8], lent: &mut Lent) -> Answer {
    second_by(Upward(interfere), setup, room, call, t, lent)
}

fn second_by(
    by: impl Interference,
    setup: Setup,
    room: usize,
    call: Call,
    t: &mut [u8],
    lent: &mut Lent,
) -> Answer {
    let Setup { n, s, copy } = setup;
    let out = &mut lent.out[..room];
    let event = match call {
        Call::Blank => return done(second::blank_table(t, n, s, copy)),
        Call::Judge => return done(second::judge_table(t, n, s, copy)),
        Call::Part(o, j) => {
            let (at, length) = second::record_part(t, n, s, copy, o, j);
            return Answer::Part(at, length);
        }
        Call::Settled(o, j) => return settled(second::settled(t, n, s, copy, o, j)),
        Call::HandOut(places) => {
            let codes = second::hand_out(t, n, s, copy, &mut lent.list[..places]);
            return codes.map_or_else(Answer::Refused, Answer::Codes);
        }
        Call::Request(op, key, second, edit) => {
            // Every number above 255 is as little an op as 255 is.
            let op = op.try_into().unwrap_or(u8::MAX);
            second::request_by(by, t, n, s, copy, out, op, key, second, edit)
        }
        Call::Message(bytes) => second::message_by(by, t, n, s, copy, out, bytes),
        Call::Recover(o, j) => second::recover(t, n, s, copy, out, o, j),
        Call::Nudge(o, j) => second::nudge(t, n, s, copy, out, o, j),
    };
    match event {
        Ok(second::Event { owner, number, written }) => Answer::Event(owner, number, written),
        Err(refusal) => Answer::Refused(refusal),
    }
}

fn settled(answer: Result<Settled, Refusal>) -> Answer {
    match answer {
        Ok(Settled::Command { op, key, second, edit }) => {
            Answer::Settled(op as u64, key as u64, second as u64, edit)
        }
        Ok(Settled::Waits { owner, number }) => Answer::Waits(owner, number),
        Err(refusal) => Answer::Refused(refusal),
    }
}

fn done(answer: Result<(), Refusal>) -> Answer {
    answer.map_or_else(Answer::Refused, |()| Answer::Done)
}

pub fn library_side(
    setup: Setup,
    room: usize,
    call: Call,
    t: &mut [u8],
    lent: &mut Lent,
) -> Answer {
    let out = &mut lent.out[..room];
    let at = |owner, number| Instance { owner, number };
    let refused = |refusal| Answer::Refused(told(refusal));
    let event = match call {
        Call::Blank => return setup.blank(t).map_or_else(refused, |()| Answer::Done),
        Call::Judge => return setup.judge(t).map_or_else(refused, |()| Answer::Done),
        Call::Part(o, j) => {
            let (start, length) = setup.part(t, at(o, j));
            return Answer::Part(start, length);
        }
        Call::Settled(o, j) => {
            return match setup.settled(t, at(o, j)) {
                Ok(Settling::Settled(Command { op, key, second, edit })) => {
                    Answer::Settled(op as u64, key as u64, second as u64, edit)
                }
                Ok(Settling::Waits(Instance { owner, number })) => Answer::Waits(owner, number),
                Err(refusal) => refused(refusal),
            }
        }
        Call::HandOut(places) => {
            return setup.hand_out(t, &mut lent.list[..places]).map_or_else(refused, Answer::Codes)
        }
        Call::Request(..) => return request(setup, t, out, call),
        Call::Message(bytes) => setup.message(t, out, bytes),
        Call::Recover(o, j) => setup.recover(t, out, at(o, j)),
        Call::Nudge(o, j) => setup.nudge(t, out, at(o, j)),
    };
    event.map_or_else(refused, event_answer)
}

fn event_answer(event: Event) -> Answer {
    Answer::Event(event.instance.owner, event.instance.number, event.written)
}

/// The wrapper's enum has no op above 3; those go to the C call.
fn request(setup: Setup, t: &mut [u8], out: &mut [u8], call: Call) -> Answer {
    let Call::Request(op, key, second, edit) = call else { unreachable!("{call:?}") };
    if let Some(op) = Op::from_number(op as u64) {
        let answer = setup.request(t, out, Command { op, key, second, edit });
        return answer.map_or_else(|refusal| Answer::Refused(told(refusal)), event_answer);
    }
    let mut values = [0; 4];
    let Setup { n, s, copy } = setup;
    let number = unsafe {
        raw::pumxaqert_request(
            t.as_mut_ptr(),
            t.len(),
            n,
            s,
            copy,
            out.as_mut_ptr(),
            out.len(),
            op,
            key,
            second,
            edit,
            &mut values,
        )
    };
    match number {
        0 => Answer::Event(values[0], values[1], values[2]),
        _ => Answer::Refused(numbered(number, values[3])),
    }
}
