//! The stream reader through the wrapper.

use pumxaqert::*;

fn setup(copy: usize) -> Setup {
    Setup { n: 3, s: 4, copy }
}

/// A message of each kind to copy 1, and all of them one after another.
fn written() -> (Vec<Message>, Vec<u8>) {
    let (command, rewire) = (Command::write(7, 100), Command::rewire(7, 8, 100));
    let deps = [1, 0, 2, 0, 0, 0, 0];
    let bodies = [
        Body::PreAccept { command, deps },
        Body::PreAcceptOk { deps },
        Body::Accept { command, deps },
        Body::AcceptOk,
        Body::Commit { command, deps },
        Body::Prepare,
        Body::PrepareOk { voted: 0, status: 1, command, deps },
        Body::Nack { joined: 10 },
        Body::PreAccept { command: rewire, deps },
        Body::Accept { command: rewire, deps },
        Body::Commit { command: rewire, deps },
        Body::PrepareOk { voted: 0, status: 1, command: rewire, deps },
    ];
    let (mut messages, mut all) = (Vec::new(), Vec::new());
    for body in bodies {
        let led_by_sender = matches!(body.kind(), 1 | 3 | 5 | 6 | 9..=11);
        let ballot = if led_by_sender { 8 } else { 9 };
        let message = Message { from: 0, to: 1, owner: 2, number: 1, ballot, body };
        let mut out = [0; ROOM];
        let length = setup(0).write_message(&mut out, &message).unwrap();
        messages.push(message);
        all.extend(&out[..length]);
    }
    (messages, all)
}

/// What comes out of these pieces, and where the rest begins. What is not taken is offered again.
fn read(buf: &mut [u8], pieces: &[&[u8]]) -> (Vec<Vec<u8>>, Result<usize, Stop>) {
    let mut stream = Stream::begin(buf).unwrap();
    let mut messages = Vec::new();
    for piece in pieces {
        let mut piece = *piece;
        while !piece.is_empty() {
            match stream.take(piece) {
                Ok(count) => piece = &piece[count..],
                Err(stop) => return (messages, Err(stop)),
            }
            messages.extend(stream.messages().map(<[u8]>::to_vec));
        }
    }
    assert_eq!(stream.stop(), None);
    (messages, Ok(stream.offset()))
}

/// Written messages come out as they were through every cutting into two, and each reads back.
#[test]
fn written_and_read() {
    let (messages, all) = written();
    for room in [STREAM_ROOM, 100, 300] {
        for at in 0..=all.len() {
            let (bytes, rest) = read(&mut vec![0; room], &[&all[..at], &all[at..]]);
            assert_eq!(rest, Ok(all.len()));
            let back: Vec<Message> =
                bytes.iter().map(|bytes| setup(1).read_message(bytes).unwrap()).collect();
            assert_eq!(back, messages);
        }
        let bytes: Vec<&[u8]> = all.chunks(1).collect();
        assert_eq!(read(&mut vec![0; room], &bytes).0.concat(), all);
    }
}

/// Each message is given once, those not asked for stay, and a part of one waits.
#[test]
fn one_by_one() {
    let (_, all) = written();
    let mut buf = [0; 64];
    let mut stream = Stream::begin(&mut buf).unwrap();
    assert_eq!(stream.messages().next(), None);
    assert_eq!(stream.take(&[]), Ok(0));
    assert_eq!(stream.take(&all), Ok(64));
    assert_eq!(stream.take(&all[64..]), Ok(0));
    assert_eq!(stream.messages().next(), Some(&all[..37]));
    assert_eq!((stream.offset(), stream.rest()), (37, &all[37..64]));
    assert_eq!(stream.messages().collect::<Vec<_>>(), [&all[37..61]]);
    assert_eq!((stream.offset(), stream.rest()), (61, &all[61..64]));
    assert_eq!(stream.messages().next(), None);
    assert_eq!(stream.stop(), None);
    assert_eq!(stream.take(&all[64..]), Ok(61));
    // Two messages of the buffer at a time.
    let mut messages = stream.messages();
    assert_eq!([messages.next(), messages.next()], [Some(&all[61..98]), Some(&all[98..108])]);
}

#[test]
fn stops() {
    let (_, mut all) = written();
    all[61] = 0;
    let (messages, rest) = read(&mut [0; 64], &[&all]);
    assert_eq!((messages.len(), rest), (2, Err(Stop { offset: 61 })));
    let mut buf = [0; 400];
    let mut stream = Stream::begin(&mut buf).unwrap();
    assert_eq!(stream.take(&all), Ok(all.len()));
    assert_eq!(stream.stop(), None, "there are messages before it");
    assert_eq!(stream.messages().count(), 2);
    let stop = Stop { offset: 61 };
    assert_eq!(stream.stop(), Some(stop));
    assert_eq!((stream.take(&all), stream.take(&[])), (Err(stop), Err(stop)));
    assert_eq!(stream.messages().next(), None);
    assert_eq!(stream.stop(), Some(stop));
    assert_eq!((stream.offset(), stream.rest()), (61, &all[61..]));
    assert_eq!(stop.to_string(), "a message of unknown kind at byte 61 of the stream");
}

/// A buffer and a place that were kept read on; what no calls leave behind is refused.
#[test]
fn kept_places() {
    let (_, all) = written();
    let mut buf = [0; 64];
    let mut place = Stream::begin(&mut buf).unwrap().place();
    assert_eq!(place, Place { at: 0, end: 0, offset: 0 });
    let mut messages = Vec::new();
    for byte in &all {
        let mut stream = Stream::again(&mut buf, place).unwrap();
        assert_eq!(stream.take(&[*byte]), Ok(1));
        messages.extend(stream.messages().map(<[u8]>::to_vec));
        place = stream.place();
    }
    assert_eq!((messages.concat(), place.offset), (all.clone(), all.len()));

    let refused = |at, end, offset| {
        let (mut buf, before) = ([1; 64], [1; 64]);
        let refusal = Stream::again(&mut buf, Place { at, end, offset }).err();
        assert_eq!(buf, before);
        refusal
    };
    assert_eq!(refused(37, 64, 37), None);
    assert_eq!(refused(0, 65, 0), Some(Refusal::Unsound));
    assert_eq!(refused(37, 36, 37), Some(Refusal::Unsound));
    assert_eq!(refused(36, 64, 36), Some(Refusal::Unsound));
    assert_eq!(refused(37, 64, 38), Some(Refusal::Unsound));
    assert_eq!(refused(41, 64, 41), None, "a PreAccept of a rewire");
    assert_eq!(refused(46, 64, 46), None, "a PrepareOK of one");
    assert_eq!(refused(0, 1, usize::MAX), Some(Refusal::Unsound));
    assert_eq!(refused(0, 0, usize::MAX), None);
}

#[test]
fn small_buffers() {
    let mut buf = [0; 63];
    assert_eq!(Stream::begin(&mut buf).err(), Some(Refusal::Room));
    assert_eq!(Stream::begin(&mut []).err(), Some(Refusal::Room));
    let start = Place { at: 0, end: 0, offset: 0 };
    assert_eq!(Stream::again(&mut buf, start).err(), Some(Refusal::Room));
    assert_eq!(Stream::again(&mut buf, Place { end: 64, ..start }).err(), Some(Refusal::Unsound));
}
