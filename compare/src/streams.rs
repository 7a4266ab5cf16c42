//! A stream's calls on both sides: answers, places and buffers are compared to the last byte, and what comes out of a
//! cut stream with what the uncut one says.

use crate::guarded::{c_stream, Area, StreamAreas, StreamCall};
use crate::UNTOUCHED;
use second::stream::{self, Next, Place, Took, Uncut};
use second::Refusal;

/// The most that a buffer, or the bytes of one take, have here.
pub const MOST: usize = 1024;
/// What values and places hold before a call that sets them.
const UNSET: usize = 0xa5a5_a5a5_a5a5_a5a5;

#[derive(Clone, Copy, Debug, PartialEq, Eq)]
pub enum Answer {
    Refused(Refusal),
    Begun,
    Took(usize),
    Stopped(usize),
    Nothing,
    /// Where in the buffer it starts, and its length.
    Message(usize, usize),
    Stop(usize),
}

impl Answer {
    /// The number and the values that the C call hands back; a beginning has no values, and leaves them unset.
    #[inline]
    pub fn told(self) -> (u32, [usize; 3]) {
        match self {
            Answer::Refused(refusal) => (refusal.number as u32, [0; 3]),
            Answer::Begun => (0, [UNSET; 3]),
            Answer::Took(count) => (0, [count, 0, 0]),
            Answer::Stopped(offset) => (0, [0, 1, offset]),
            Answer::Nothing => (0, [0; 3]),
            Answer::Message(start, length) => (0, [1, start, length]),
            Answer::Stop(offset) => (0, [2, offset, 0]),
        }
    }
}

#[derive(Clone, Copy, Debug, Default)]
pub struct Counts {
    pub calls: u64,
    pub streams: u64,
    pub messages: u64,
    pub stops: u64,
    /// Calls on places that no stream led to, and those of them refused 11 and 2.
    pub places: u64,
    pub unsound: u64,
    pub small: u64,
}

/// One reader on either side.
pub struct Readers {
    /// The second program's.
    buf: Vec<u8>,
    pub place: Place,
    /// The library's.
    areas: StreamAreas,
    pub counts: Counts,
}

impl Default for Readers {
    fn default() -> Readers {
        let areas = StreamAreas {
            buf: Area::new(MOST, 0x5a),
            place: Area::new(3, 0x5a5a),
            bytes: Area::new(MOST, 0x5a),
            values: Area::new(3, 0x5a5a),
        };
        Readers { buf: Vec::new(), place: Place::default(), areas, counts: Counts::default() }
    }
}

impl Readers {
    /// A buffer with these contents and a place in it, on either side. Now and then an empty one is NULL.
    pub fn set(&mut self, buf: &[u8], place: Place) {
        self.buf = buf.to_vec();
        self.place = place;
        self.areas.buf.set(buf, self.counts.calls.is_multiple_of(2));
        self.areas.place.set(&lent(place), false);
    }

    /// The start of a stream in a buffer of this room.
    pub fn begin(&mut self, room: usize) -> Result<Answer, String> {
        self.set(&vec![UNTOUCHED; room], Place { at: UNSET, end: UNSET, offset: UNSET });
        self.call(StreamCall::Begin, &[])
    }

    pub fn take(&mut self, bytes: &[u8]) -> Result<Answer, String> {
        self.call(StreamCall::Take, bytes)
    }

    pub fn next_message(&mut self) -> Result<Answer, String> {
        self.call(StreamCall::Next, &[])
    }

    /// The bytes of a message that was answered.
    pub fn message(&self, start: usize, length: usize) -> &[u8] {
        &self.buf[start..start + length]
    }

    fn held(&self) -> &[u8] {
        &self.buf[self.place.at..self.place.end]
    }

    /// The answer, where both sides agree on it, on the place and on every byte.
    fn call(&mut self, call: StreamCall, bytes: &[u8]) -> Result<Answer, String> {
        self.counts.calls += 1;
        self.areas.bytes.set(bytes, self.counts.calls.is_multiple_of(2));
        self.areas.values.set(&[UNSET; 3], false);
        let before = self.place;
        let answer = second_side(call, &mut self.buf, &mut self.place, bytes);
        let told = match call {
            StreamCall::Begin => (answer.told().0, [UNSET; 3]),
            _ => answer.told(),
        };
        let got = c_stream(call, &mut self.areas);
        let Some(wrong) = self.difference(told, got, bytes) else { return Ok(answer) };
        let (length, room) = (bytes.len(), self.buf.len());
        let (values, place) = (self.areas.values.contents(), self.areas.place.contents());
        Err(format!(
            "{wrong}\n  {call:?} of {length} bytes at {before:?}, room {room}\n  \
             second:  {told:?} {:?}\n  library: {:?} {place:?}",
            lent(self.place),
            (got, values),
        ))
    }

    fn difference(
        &self,
        (number, values): (u32, [usize; 3]),
        got: u32,
        bytes: &[u8],
    ) -> Option<&'static str> {
        let areas = &self.areas;
        Some(if got != number {
            "numbers differ"
        } else if areas.values.contents() != values {
            "values differ"
        } else if areas.place.contents() != lent(self.place) {
            "places differ"
        } else if areas.buf.contents() != self.buf {
            "buffers differ"
        } else if areas.bytes.contents() != bytes {
            "the bytes were touched"
        } else if !areas.guards_hold() {
            "memory beside a lent area was touched"
        } else {
            return None;
        })
    }

    /// Each call on one place that no stream need lead to, in a buffer with these contents.
    pub fn probe(&mut self, buf: &[u8], place: Place, bytes: &[u8]) -> Result<(), String> {
        for call in [StreamCall::Take, StreamCall::Next] {
            self.set(buf, place);
            let answer = self.call(call, bytes)?;
            self.counts.places += 1;
            let Answer::Refused(refusal) = answer else { continue };
            self.counts.unsound += (refusal.number == 11) as u64;
            self.counts.small += (refusal.number == 2) as u64;
            if self.place != place || self.buf != buf {
                return Err(format!("{call:?} at {place:?} was refused {refusal} and changed it"));
            }
        }
        Ok(())
    }
}

#[inline]
pub fn second_side(call: StreamCall, buf: &mut [u8], place: &mut Place, bytes: &[u8]) -> Answer {
    let answer = match call {
        StreamCall::Begin => stream::begin(buf).map(|start| {
            *place = start;
            Answer::Begun
        }),
        StreamCall::Take => stream::take(buf, place, bytes).map(|took| match took {
            Took::Bytes(count) => Answer::Took(count),
            Took::Stopped(offset) => Answer::Stopped(offset),
        }),
        StreamCall::Next => stream::next(buf, place).map(|next| match next {
            Next::Nothing => Answer::Nothing,
            Next::Message(message) => Answer::Message(place.at - message.len(), message.len()),
            Next::Stop(offset) => Answer::Stop(offset),
        }),
    };
    answer.unwrap_or_else(Answer::Refused)
}

/// A place as the C calls are lent it.
#[inline]
pub fn lent(place: Place) -> [usize; 3] {
    [place.at, place.end, place.offset]
}

/// A stream on its way through a reader on either side.
struct Course<'a> {
    readers: &'a mut Readers,
    /// What is to come next, by the uncut stream.
    uncut: Uncut<'a>,
    stream: &'a [u8],
    taken: usize,
    stop: Option<usize>,
}

/// A stream through buffers of this room, in pieces that end at the cuts. After each take so many messages are asked for
/// as `asked` says; all, where nothing was taken. What was not taken is offered again.
pub fn read(
    readers: &mut Readers,
    stream: &[u8],
    cuts: &[usize],
    room: usize,
    asked: &mut dyn FnMut() -> usize,
) -> Result<(), String> {
    let mut course = Course { readers, uncut: Uncut::of(stream), stream, taken: 0, stop: None };
    let passed = course.run(cuts, room, asked);
    passed.map_err(|wrong| format!("{wrong}\n  room {room}, cuts {cuts:?}, stream {stream:02x?}"))
}

impl Course<'_> {
    fn run(
        &mut self,
        cuts: &[usize],
        room: usize,
        asked: &mut dyn FnMut() -> usize,
    ) -> Result<(), String> {
        self.readers.counts.streams += 1;
        if self.readers.begin(room)? != Answer::Begun {
            return Err("no stream was begun".into());
        }
        for &cut in cuts.iter().chain([&self.stream.len()]) {
            // A cut at the same byte once more is an empty call.
            self.offer(cut, asked())?;
            while self.taken < cut && self.stop.is_none() {
                self.offer(cut, asked())?;
            }
        }
        self.ask(usize::MAX)?;
        self.close()
    }

    /// Offers the bytes up to the cut once.
    fn offer(&mut self, cut: usize, asked: usize) -> Result<(), String> {
        let bytes = &self.stream[self.taken.min(cut)..cut];
        let whole_before = self.readers.counts.messages;
        match self.readers.take(bytes)? {
            Answer::Took(0) if !bytes.is_empty() => {
                self.ask(usize::MAX)?;
                match self.stop.is_none() && self.readers.counts.messages == whole_before {
                    true => Err("no byte was taken though no message was held".into()),
                    false => Ok(()),
                }
            }
            Answer::Took(count) => {
                self.taken += count;
                self.ask(asked)
            }
            Answer::Stopped(offset) => self.stopped(offset),
            other => Err(format!("a take answers {other:?}")),
        }
    }

    /// Up to so many messages, each the one that comes next in the uncut stream.
    fn ask(&mut self, most: usize) -> Result<(), String> {
        for _ in 0..most {
            match self.readers.next_message()? {
                Answer::Nothing => return Ok(()),
                Answer::Stop(offset) => return self.stopped(offset),
                Answer::Message(start, length) => {
                    let message = self.readers.message(start, length);
                    if self.uncut.next() != Some(message) || self.uncut.rest() > self.taken {
                        return Err(format!("not the next message: {message:02x?}"));
                    }
                    self.readers.counts.messages += 1;
                }
                other => return Err(format!("next answers {other:?}")),
            }
        }
        Ok(())
    }

    /// The stop is the uncut stream's, and was always this one.
    fn stopped(&mut self, offset: usize) -> Result<(), String> {
        if self.uncut.stop() != Some(offset) || self.stop.is_some_and(|stop| stop != offset) {
            return Err(format!("a stop at {offset}"));
        }
        self.readers.counts.stops += self.stop.is_none() as u64;
        self.stop = Some(offset);
        Ok(())
    }

    /// In the end: nothing whole is left, the rest begins where the uncut stream's does and is its bytes, and a stop
    /// stays.
    fn close(&mut self) -> Result<(), String> {
        let mut taken = Uncut::of(&self.stream[..self.taken]);
        taken.by_ref().for_each(drop);
        let rest = taken.rest();
        if rest != self.uncut.rest() {
            return Err(format!("{rest} bytes are whole messages, {} came out", self.uncut.rest()));
        }
        if taken.stop() != self.stop {
            return Err(format!("the stop is {:?}, not {:?}", taken.stop(), self.stop));
        }
        if self.stop.is_none() && self.taken < self.stream.len() {
            return Err("not all was taken".into());
        }
        let Readers { place, .. } = *self.readers;
        if place.offset != rest || self.readers.held() != &self.stream[rest..self.taken] {
            return Err(format!("another rest at {place:?}"));
        }
        if self.stop.is_some() {
            for bytes in [&self.stream[..0], self.stream] {
                self.offer_stopped(bytes)?;
            }
        }
        Ok(())
    }

    fn offer_stopped(&mut self, bytes: &[u8]) -> Result<(), String> {
        let (place, stop) = (self.readers.place, self.stop.unwrap_or(0));
        let answers = [self.readers.take(bytes)?, self.readers.next_message()?];
        match answers == [Answer::Stopped(stop), Answer::Stop(stop)] && self.readers.place == place
        {
            true => Ok(()),
            false => Err(format!("the stop at {stop} did not stay: {answers:?}")),
        }
    }
}
