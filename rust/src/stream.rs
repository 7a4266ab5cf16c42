//! Messages off a stream: bytes come in cut anywhere, whole messages come out.
//!
//! A call may be about a single byte, so that what a host calls most is inlined.

use crate::{raw, refused, Refusal};
use core::fmt;

/// The least room of a stream's buffer.
pub const STREAM_ROOM: usize = 64;

/// Where a reader stands: it holds the bytes `at..end` of its buffer, and the first of them is byte `offset` of the
/// stream. Any numbers may stand here; [`Stream::again`] judges them.
#[derive(Clone, Copy, Debug, PartialEq, Eq)]
pub struct Place {
    pub at: usize,
    pub end: usize,
    pub offset: usize,
}

/// Where a message should begin, at this offset of the stream, stands a byte of no known kind. It stops the stream for
/// good: what follows cannot be told apart, and a host drops the link.
#[derive(Clone, Copy, Debug, PartialEq, Eq)]
pub struct Stop {
    pub offset: usize,
}

impl fmt::Display for Stop {
    fn fmt(&self, f: &mut fmt::Formatter) -> fmt::Result {
        write!(f, "a message of unknown kind at byte {} of the stream", self.offset)
    }
}

/// A reader over a buffer of the caller's. It frames messages by their kinds and judges nothing else.
///
/// What is left of a message waits in the buffer for the next bytes. Where there is more than the buffer has room for,
/// the messages are to be read before the others are offered again; a reader that has given all of them takes at least
/// one byte.
///
/// ```
/// use pumxaqert::{Stop, Stream};
///
/// let mut buffer = [0; 64];
/// let mut stream = Stream::begin(&mut buffer).unwrap();
/// // An AcceptOK, and the first bytes of another.
/// assert_eq!(stream.take(&[4, 1, 0, 0, 1, 0, 0, 0, 0, 0, 4, 2]), Ok(12));
/// let mut messages = stream.messages();
/// assert_eq!(messages.next(), Some(&[4, 1, 0, 0, 1, 0, 0, 0, 0, 0][..]));
/// assert_eq!(messages.next(), None);
/// // The rest of it, and then a byte that is no kind.
/// assert_eq!(stream.take(&[0, 0, 1, 0, 0, 0, 0, 0, 99]), Ok(9));
/// assert_eq!(stream.messages().count(), 1);
/// assert_eq!(stream.stop(), Some(Stop { offset: 20 }));
/// assert_eq!(stream.take(&[4]), Err(Stop { offset: 20 }));
/// ```
pub struct Stream<'a> {
    buf: &'a mut [u8],
    place: [usize; 3],
}

/// What a stream's call answers. Its place is one that the library left, which nothing but another library refuses.
#[inline]
fn answered(number: u32) {
    refused(number).expect("a place that the library left");
}

impl<'a> Stream<'a> {
    /// At the start of a stream. Refuses a buffer of under 64 bytes.
    pub fn begin(buf: &'a mut [u8]) -> Result<Stream<'a>, Refusal> {
        let mut place = [0; 3];
        // SAFETY: here and below, each pointer comes from a slice or array with its length, and no two overlap.
        refused(unsafe { raw::pumxaqert_stream_begin(buf.as_ptr(), buf.len(), &mut place) })?;
        Ok(Stream { buf, place })
    }

    /// Where a reader over this buffer stood before. Refuses a place that no calls leave behind in such a buffer.
    pub fn again(buf: &'a mut [u8], place: Place) -> Result<Stream<'a>, Refusal> {
        let place = [place.at, place.end, place.offset];
        refused(next(buf, &mut { place }).0)?;
        Ok(Stream { buf, place })
    }

    /// For a host that keeps the buffer and this, and reads on later.
    pub fn place(&self) -> Place {
        let [at, end, offset] = self.place;
        Place { at, end, offset }
    }

    /// Takes the next bytes of the stream, from the first, as many as there is room for; how many. None of a stream that
    /// has stopped.
    #[inline]
    pub fn take(&mut self, bytes: &[u8]) -> Result<usize, Stop> {
        let mut values = [0; 3];
        answered(unsafe {
            raw::pumxaqert_stream_take(
                self.buf.as_mut_ptr(),
                self.buf.len(),
                &mut self.place,
                bytes.as_ptr(),
                bytes.len(),
                &mut values,
            )
        });
        match values {
            [count, 0, _] => Ok(count),
            [_, _, offset] => Err(Stop { offset }),
        }
    }

    /// The whole messages that are held, one after another, as parts of the buffer. Each is given once; those that are
    /// not asked for stay.
    #[inline]
    pub fn messages(&mut self) -> Messages<'_> {
        Messages { buf: self.buf, place: &mut self.place }
    }

    /// The stop, if nothing but it is left to be given.
    pub fn stop(&self) -> Option<Stop> {
        match next(self.buf, &mut { self.place }) {
            (_, [2, offset, _]) => Some(Stop { offset }),
            _ => None,
        }
    }

    /// Where in the stream what is left begins.
    pub fn offset(&self) -> usize {
        self.place().offset
    }

    /// What was taken and is not given yet.
    pub fn rest(&self) -> &[u8] {
        let Place { at, end, .. } = self.place();
        &self.buf[at..end]
    }
}

/// The number and the values of the next message.
#[inline]
fn next(buf: &[u8], place: &mut [usize; 3]) -> (u32, [usize; 3]) {
    let mut values = [0; 3];
    let number = unsafe { raw::pumxaqert_stream_next(buf.as_ptr(), buf.len(), place, &mut values) };
    (number, values)
}

/// The whole messages that a reader holds.
pub struct Messages<'b> {
    buf: &'b [u8],
    place: &'b mut [usize; 3],
}

impl<'b> Iterator for Messages<'b> {
    type Item = &'b [u8];

    #[inline]
    fn next(&mut self) -> Option<&'b [u8]> {
        let (number, values) = next(self.buf, self.place);
        answered(number);
        match values {
            [1, start, length] => Some(&self.buf[start..start + length]),
            _ => None,
        }
    }
}
