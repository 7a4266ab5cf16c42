//! Messages off a stream. Bytes arrive cut anywhere; a reader over a buffer of the caller's gives back whole messages one
//! after another. It frames them by their kinds and judges nothing else.

use crate::message::{length_of, LENGTHS};
use crate::refusal::{Refusal, ROOM, UNSOUND};
use core::fmt;

/// The least room of a reader. Every message fits in, so that one which has not come whole always leaves room.
pub const LEAST: usize = 64;

/// Where a reader stands: it holds the bytes `at..end` of its buffer, and the first of them is byte `offset` of the
/// stream.
#[derive(Clone, Copy, Debug, Default, PartialEq, Eq)]
pub struct Place {
    pub at: usize,
    pub end: usize,
    pub offset: usize,
}

#[derive(Clone, Copy, Debug, PartialEq, Eq)]
pub enum Took {
    /// So many of the bytes.
    Bytes(usize),
    /// None: the stream stopped at this offset.
    Stopped(usize),
}

#[derive(Clone, Copy, Debug, PartialEq, Eq)]
pub enum Next<'b> {
    /// No whole message is held.
    Nothing,
    Message(&'b [u8]),
    /// What stands at this offset is of no known kind.
    Stop(usize),
}

/// What bytes begin with. Nothing at all is a part of a message.
enum Front {
    Part,
    Whole(usize),
    Unknown,
}

#[inline]
fn front(bytes: &[u8]) -> Front {
    let Some(&kind) = bytes.first() else { return Front::Part };
    match length_of(kind) {
        None => Front::Unknown,
        Some(length) if length <= bytes.len() => Front::Whole(length),
        Some(_) => Front::Part,
    }
}

/// From here on every number is a sum of lengths: ten in a row are, and 10 is a length.
const ALL_FROM: usize = 74;

/// Which numbers are sums of the lengths of messages, or of none.
const SUMS: [bool; ALL_FROM + 10] = {
    let mut sums = [false; ALL_FROM + 10];
    sums[0] = true;
    let mut number = 1;
    while number < sums.len() {
        let mut kind = 1;
        while kind < LENGTHS.len() {
            let length = LENGTHS[kind];
            sums[number] |= length <= number && sums[number - length];
            kind += 1;
        }
        assert!(sums[number] || number < ALL_FROM);
        number += 1;
    }
    sums
};

fn is_sum(number: usize) -> bool {
    number >= ALL_FROM || SUMS[number]
}

impl Place {
    /// Whether calls on a buffer of this room can have left it: whole messages were yielded before `at`, and others were
    /// moved out of the buffer before them. A stream has no byte past the largest offset.
    fn sound(&self, room: usize) -> bool {
        let Place { at, end, offset } = *self;
        let within = at <= end && end <= room && at <= offset;
        within && offset.checked_add(end - at).is_some() && is_sum(at) && is_sum(offset - at)
    }

    fn judge(&self, buf: &[u8]) -> Result<(), Refusal> {
        match self.sound(buf.len()) {
            true => enough(buf),
            false => Err(UNSOUND),
        }
    }

    /// The stop, if the bytes held begin with it.
    #[inline]
    fn stop(&self, buf: &[u8]) -> Option<usize> {
        let stopped = self.at < self.end && length_of(buf[self.at]).is_none();
        stopped.then_some(self.offset)
    }

    /// What is held goes to the front, and as many bytes as there is room for follow.
    #[inline]
    fn take(&mut self, buf: &mut [u8], bytes: &[u8]) -> Took {
        if let Some(offset) = self.stop(buf) {
            return Took::Stopped(offset);
        }
        let held = self.end - self.at;
        let offsets_left = usize::MAX - self.offset - held;
        let count = bytes.len().min(buf.len() - held).min(offsets_left);
        if self.at > 0 {
            buf.copy_within(self.at..self.end, 0);
        }
        buf[held..held + count].copy_from_slice(&bytes[..count]);
        (self.at, self.end) = (0, held + count);
        Took::Bytes(count)
    }

    #[inline]
    fn next<'b>(&mut self, buf: &'b [u8]) -> Next<'b> {
        let held = &buf[self.at..self.end];
        match front(held) {
            Front::Part => Next::Nothing,
            Front::Unknown => Next::Stop(self.offset),
            Front::Whole(length) => {
                self.at += length;
                self.offset += length;
                Next::Message(&held[..length])
            }
        }
    }
}

fn enough(buf: &[u8]) -> Result<(), Refusal> {
    match buf.len() >= LEAST {
        true => Ok(()),
        false => Err(ROOM),
    }
}

/// A reader. Its place is always one that its own calls left.
pub struct Stream<'a> {
    buf: &'a mut [u8],
    place: Place,
}

impl<'a> Stream<'a> {
    /// At the start of a stream.
    pub fn begin(buf: &'a mut [u8]) -> Result<Stream<'a>, Refusal> {
        let place = begin(buf)?;
        Ok(Stream { buf, place })
    }

    /// Where another over the same bytes stood.
    pub fn again(buf: &'a mut [u8], place: Place) -> Result<Stream<'a>, Refusal> {
        place.judge(buf)?;
        Ok(Stream { buf, place })
    }

    pub fn take(&mut self, bytes: &[u8]) -> Took {
        self.place.take(self.buf, bytes)
    }

    /// A message stays where it is until the next bytes are taken.
    pub fn next_message(&mut self) -> Next<'_> {
        self.place.next(self.buf)
    }

    pub fn place(&self) -> Place {
        self.place
    }

    /// Takes once and yields every whole message, and tells it as the recorded runs write it.
    pub fn play(&mut self, bytes: &[u8], text: &mut impl fmt::Write) -> fmt::Result {
        let count = match self.take(bytes) {
            Took::Bytes(count) => count,
            Took::Stopped(_) => 0,
        };
        write!(text, "took {count} messages")?;
        loop {
            match self.next_message() {
                Next::Nothing => return Ok(()),
                Next::Stop(offset) => return write!(text, " stop {offset}"),
                Next::Message(message) => {
                    text.write_str(" ")?;
                    message.iter().try_for_each(|byte| write!(text, "{byte:02x}"))?;
                }
            }
        }
    }
}

/// The same on a buffer and a place that are lent to each call: any place may be, and is judged first. Here where a
/// stream begins.
pub fn begin(buf: &[u8]) -> Result<Place, Refusal> {
    enough(buf)?;
    Ok(Place::default())
}

pub fn take(buf: &mut [u8], place: &mut Place, bytes: &[u8]) -> Result<Took, Refusal> {
    place.judge(buf)?;
    Ok(place.take(buf, bytes))
}

pub fn next<'b>(buf: &'b [u8], place: &mut Place) -> Result<Next<'b>, Refusal> {
    place.judge(buf)?;
    Ok(place.next(buf))
}

/// A stream that was not cut: its messages one after another. Once they are through, where it stops, if it does, and
/// where its rest begins.
pub struct Uncut<'b> {
    bytes: &'b [u8],
    at: usize,
}

impl<'b> Uncut<'b> {
    pub fn of(bytes: &'b [u8]) -> Uncut<'b> {
        Uncut { bytes, at: 0 }
    }

    pub fn rest(&self) -> usize {
        self.at
    }

    pub fn stop(&self) -> Option<usize> {
        match front(&self.bytes[self.at..]) {
            Front::Unknown => Some(self.at),
            _ => None,
        }
    }
}

impl<'b> Iterator for Uncut<'b> {
    type Item = &'b [u8];

    fn next(&mut self) -> Option<&'b [u8]> {
        match front(&self.bytes[self.at..]) {
            Front::Whole(length) => {
                self.at += length;
                Some(&self.bytes[self.at - length..self.at])
            }
            _ => None,
        }
    }
}
