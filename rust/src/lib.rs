//! One copy of a replicated edit log: a safe wrapper over the proved static library. It takes slices, which cannot
//! overlap, and gives enums; it allocates nothing and keeps nothing.
//!
//! What a host must do with it is in docs/HOST.md.
#![no_std]

pub mod earlier;
mod journal;
mod message;
pub mod raw;
mod refusal;
mod stream;

pub use journal::{entries, Entries, Entry, EntryKind};
pub use message::{Body, Command, Deps, Fields, Message, Op};
pub use refusal::{Field, Refusal};
pub use stream::{Messages, Place, Stop, Stream, STREAM_ROOM};

/// Room that every event, and the writer, asks for.
pub const ROOM: usize = 256;

/// N copies, S numbers an owner, and which copy this is. Any numbers may stand here; the calls judge them.
#[derive(Clone, Copy, Debug, PartialEq, Eq)]
pub struct Setup {
    pub n: usize,
    pub s: usize,
    pub copy: usize,
}

#[derive(Clone, Copy, Debug, PartialEq, Eq)]
pub struct Instance {
    pub owner: usize,
    pub number: usize,
}

impl Instance {
    /// The instance that a code of the hand-out list names.
    pub fn of_code(code: u16) -> Instance {
        Instance { owner: (code / 256) as usize, number: (code % 256) as usize }
    }
}

/// What an event did: its instance, and how many bytes at the front of the room leave once the record is saved.
#[derive(Clone, Copy, Debug, PartialEq, Eq)]
pub struct Event {
    pub instance: Instance,
    pub written: usize,
}

#[derive(Clone, Copy, Debug, PartialEq, Eq)]
pub enum Settling {
    /// The command that was agreed on: a no-op if the edit lost.
    Settled(Command),
    /// The uncommitted instance that comes first.
    Waits(Instance),
}

/// Only the calls on a message name a field of one, and no message is of this kind.
const NO_MESSAGE: u8 = 0;

#[inline]
fn refused(number: u32) -> Result<(), Refusal> {
    refused_at(number, NO_MESSAGE, 0)
}

/// The answer about a message of this kind. What is not the paper's cannot come from the proved library: something else
/// was linked.
#[inline]
fn refused_at(number: u32, kind: u8, offset: usize) -> Result<(), Refusal> {
    match number {
        0 => Ok(()),
        _ => Err(Refusal::told(number, kind, offset).expect("a refusal of the paper")),
    }
}

fn event(number: u32, kind: u8, values: [usize; 4]) -> Result<Event, Refusal> {
    let [owner, j, written, offset] = values;
    refused_at(number, kind, offset)?;
    Ok(Event { instance: Instance { owner, number: j }, written })
}

fn kind_of(bytes: &[u8]) -> u8 {
    bytes.first().copied().unwrap_or(NO_MESSAGE)
}

impl Setup {
    /// The length of a table of these sizes; none for sizes that no table has.
    pub fn table_len(&self) -> Option<usize> {
        // SAFETY: numbers alone cross.
        let length = unsafe { raw::pumxaqert_table_length(self.n, self.s) };
        (length > 0).then_some(length)
    }

    /// Writes a blank table.
    pub fn blank(&self, table: &mut [u8]) -> Result<(), Refusal> {
        // SAFETY: here and below, each pointer comes from a slice or array with its length, and no two overlap.
        refused(unsafe {
            raw::pumxaqert_blank(table.as_mut_ptr(), table.len(), self.n, self.s, self.copy)
        })
    }

    /// Whether the table is sound.
    pub fn judge(&self, table: &[u8]) -> Result<(), Refusal> {
        refused(unsafe {
            raw::pumxaqert_judge(table.as_ptr(), table.len(), self.n, self.s, self.copy)
        })
    }

    /// Where in the table the instance's record stands: offset and length, both 0 where there is none.
    pub fn part(&self, table: &[u8], at: Instance) -> (usize, usize) {
        let mut length = 0;
        let start = unsafe {
            raw::pumxaqert_part(
                table.as_ptr(),
                table.len(),
                self.n,
                self.s,
                self.copy,
                at.owner,
                at.number,
                &mut length,
            )
        };
        (start, length)
    }

    /// A read, write or rewire asked for at this copy.
    pub fn request(
        &self,
        table: &mut [u8],
        out: &mut [u8],
        command: Command,
    ) -> Result<Event, Refusal> {
        let mut values = [0; 4];
        let number = unsafe {
            raw::pumxaqert_request(
                table.as_mut_ptr(),
                table.len(),
                self.n,
                self.s,
                self.copy,
                out.as_mut_ptr(),
                out.len(),
                command.op as usize,
                command.key,
                command.second,
                command.edit,
                &mut values,
            )
        };
        event(number, NO_MESSAGE, values)
    }

    /// A message that arrived at this copy.
    pub fn message(
        &self,
        table: &mut [u8],
        out: &mut [u8],
        bytes: &[u8],
    ) -> Result<Event, Refusal> {
        let mut values = [0; 4];
        let number = unsafe {
            raw::pumxaqert_message(
                table.as_mut_ptr(),
                table.len(),
                self.n,
                self.s,
                self.copy,
                out.as_mut_ptr(),
                out.len(),
                bytes.as_ptr(),
                bytes.len(),
                &mut values,
            )
        };
        event(number, kind_of(bytes), values)
    }

    /// This copy takes over the instance.
    pub fn recover(
        &self,
        table: &mut [u8],
        out: &mut [u8],
        at: Instance,
    ) -> Result<Event, Refusal> {
        self.on_instance(raw::pumxaqert_recover, table, out, at)
    }

    /// The instance's messages once more.
    pub fn nudge(&self, table: &mut [u8], out: &mut [u8], at: Instance) -> Result<Event, Refusal> {
        self.on_instance(raw::pumxaqert_nudge, table, out, at)
    }

    fn on_instance(
        &self,
        call: raw::OnInstance,
        table: &mut [u8],
        out: &mut [u8],
        at: Instance,
    ) -> Result<Event, Refusal> {
        let mut values = [0; 4];
        let number = unsafe {
            call(
                table.as_mut_ptr(),
                table.len(),
                self.n,
                self.s,
                self.copy,
                out.as_mut_ptr(),
                out.len(),
                at.owner,
                at.number,
                &mut values,
            )
        };
        event(number, NO_MESSAGE, values)
    }

    pub fn settled(&self, table: &[u8], at: Instance) -> Result<Settling, Refusal> {
        let mut values = [0; 5];
        refused(unsafe {
            raw::pumxaqert_settled(
                table.as_ptr(),
                table.len(),
                self.n,
                self.s,
                self.copy,
                at.owner,
                at.number,
                &mut values,
            )
        })?;
        let [settled, a, b, second, edit] = values;
        Ok(if settled == 1 {
            let op = Op::from_number(a).expect("an op of the paper");
            Settling::Settled(Command { op, key: b as u32, second: second as u32, edit })
        } else {
            Settling::Waits(Instance { owner: a as usize, number: b as usize })
        })
    }

    /// Fills the list with codes and marks them; how many.
    pub fn hand_out(&self, table: &mut [u8], list: &mut [u16]) -> Result<usize, Refusal> {
        let mut codes = 0;
        refused(unsafe {
            raw::pumxaqert_hand_out(
                table.as_mut_ptr(),
                table.len(),
                self.n,
                self.s,
                self.copy,
                list.as_mut_ptr(),
                list.len(),
                &mut codes,
            )
        })?;
        Ok(codes)
    }

    /// A message as received by this copy.
    pub fn read_message(&self, bytes: &[u8]) -> Result<Message, Refusal> {
        let (mut fields, mut offset) = ([0; 19], 0);
        let number = unsafe {
            raw::pumxaqert_read_message(
                self.n,
                self.s,
                self.copy,
                bytes.as_ptr(),
                bytes.len(),
                &mut fields,
                &mut offset,
            )
        };
        refused_at(number, kind_of(bytes), offset)?;
        Ok(Message::from_fields(&fields).expect("numbers that fit their places"))
    }

    /// Writes a message at the front of the room; its length. What the copy named in `to` would refuse is refused so.
    pub fn write_message(&self, out: &mut [u8], message: &Message) -> Result<usize, Refusal> {
        let (mut written, mut offset) = (0, 0);
        let number = unsafe {
            raw::pumxaqert_write_message(
                self.n,
                self.s,
                self.copy,
                out.as_mut_ptr(),
                out.len(),
                &message.fields(),
                &mut written,
                &mut offset,
            )
        };
        refused_at(number, message.body.kind(), offset)?;
        Ok(written)
    }
}
