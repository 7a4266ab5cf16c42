//! The receiving end of a link: bytes come as the link has them, whole messages go to the copy.

use pumxaqert::{Place, Stop, Stream, STREAM_ROOM};

/// A reader's buffer and its place, kept from one piece to the next.
pub struct End {
    buf: [u8; STREAM_ROOM],
    place: Place,
}

impl End {
    /// At the start of a new link's stream.
    pub fn begin() -> End {
        let mut buf = [0; STREAM_ROOM];
        let place = Stream::begin(&mut buf).expect("room enough").place();
        End { buf, place }
    }

    /// The messages that a piece completes, and the stop if it has come to one. There may be more in a piece than there
    /// is room for: what is whole is read, and the rest offered again.
    pub fn arrive(&mut self, mut piece: &[u8]) -> (Vec<Vec<u8>>, Option<Stop>) {
        let mut stream =
            Stream::again(&mut self.buf, self.place).expect("the place it was left in");
        let mut messages = Vec::new();
        while let (Some(_), Ok(taken)) = (piece.first(), stream.take(piece)) {
            messages.extend(stream.messages().map(<[u8]>::to_vec));
            piece = &piece[taken..];
        }
        self.place = stream.place();
        (messages, stream.stop())
    }
}
