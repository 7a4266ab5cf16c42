//! The stream reader: any cutting and any buffer give what the uncut stream gives; a stop stays; what no calls leave
//! behind is refused.

mod common;
use common::*;
use second::stream::{begin, next, take, Next, Place, Stream, Took, Uncut, LEAST};

fn message(kind: u8, fill: u8) -> Vec<u8> {
    let mut bytes = vec![fill; LENGTHS[kind as usize]];
    bytes[0] = kind;
    bytes
}

fn all_kinds() -> Vec<u8> {
    (1..=12).flat_map(|kind| message(kind, 0x90 + kind)).collect()
}

/// Messages, stop and rest of a stream, by the lengths alone.
fn framed(bytes: &[u8]) -> (Vec<Vec<u8>>, Option<usize>, usize) {
    let (mut messages, mut at) = (Vec::new(), 0);
    while at < bytes.len() {
        match LENGTHS.get(bytes[at] as usize) {
            None | Some(0) => return (messages, Some(at), at),
            Some(length) if at + length <= bytes.len() => {
                messages.push(bytes[at..at + length].to_vec());
                at += length;
            }
            Some(_) => break,
        }
    }
    (messages, None, at)
}

fn drain(stream: &mut Stream, messages: &mut Vec<Vec<u8>>) -> Option<usize> {
    loop {
        match stream.next_message() {
            Next::Message(bytes) => messages.push(bytes.to_vec()),
            Next::Nothing => return None,
            Next::Stop(offset) => return Some(offset),
        }
    }
}

/// The pieces through a buffer of this room, drained after each take; what was not taken is offered again.
fn read(room: usize, pieces: &[&[u8]]) -> (Vec<Vec<u8>>, Option<usize>, usize) {
    let mut buf = vec![0xee; room];
    let mut stream = Stream::begin(&mut buf).unwrap();
    let (mut messages, mut stop) = (Vec::new(), None);
    for piece in pieces {
        let mut piece = *piece;
        while !piece.is_empty() && stop.is_none() {
            match stream.take(piece) {
                Took::Bytes(count) => {
                    assert!(count > 0, "no progress");
                    piece = &piece[count..];
                }
                Took::Stopped(offset) => panic!("stopped at {offset} before it was said"),
            }
            stop = drain(&mut stream, &mut messages);
        }
    }
    (messages, stop, stream.place().offset)
}

#[test]
fn uncut() {
    let all = all_kinds();
    assert_eq!(all.len(), 380);
    for stream in [all.clone(), all[..100].to_vec(), vec![], vec![0], [&all[..], &[13, 1]].concat()]
    {
        let mut uncut = Uncut::of(&stream);
        let messages: Vec<Vec<u8>> = uncut.by_ref().map(<[u8]>::to_vec).collect();
        assert_eq!((messages, uncut.stop(), uncut.rest()), framed(&stream));
    }
}

#[test]
fn every_cutting() {
    let all = all_kinds();
    let expected = framed(&all);
    assert_eq!(expected.0.len(), 12);
    for room in [64, 65, 100, 380, 400] {
        for i in 0..=all.len() {
            for j in (i..=all.len()).step_by(7) {
                assert_eq!(read(room, &[&all[..i], &all[i..j], &all[j..]]), expected, "{i} {j}");
            }
        }
        for length in 1..=all.len() {
            let pieces: Vec<&[u8]> = all.chunks(length).collect();
            assert_eq!(read(room, &pieces), expected, "pieces of {length}");
        }
    }
}

#[test]
fn random_cuttings() {
    let mut random = Random(1);
    for _ in 0..20_000 {
        let mut stream = Vec::new();
        for _ in 0..random.below(12) {
            stream.extend(message(1 + random.below(12) as u8, random.next() as u8));
        }
        if random.below(2) == 0 && !stream.is_empty() {
            let at = random.below(stream.len() as u64) as usize;
            stream[at] = random.next() as u8;
        }
        let mut pieces: Vec<&[u8]> = Vec::new();
        let mut rest = &stream[..];
        while !rest.is_empty() {
            let (piece, others) = rest.split_at(random.below(rest.len() as u64 + 1) as usize);
            pieces.push(piece);
            rest = others;
        }
        let room = LEAST + random.below(237) as usize;
        assert_eq!(read(room, &pieces), framed(&stream));
    }
}

/// All 256 bytes where a kind is due.
#[test]
fn kinds() {
    for byte in 0..=255 {
        let mut buf = [0; LEAST];
        let mut stream = Stream::begin(&mut buf).unwrap();
        assert_eq!(stream.take(&[byte; LEAST]), Took::Bytes(LEAST));
        match LENGTHS.get(byte as usize) {
            Some(&length) if length > 0 => {
                assert_eq!(stream.next_message(), Next::Message(&[byte; LEAST][..length]));
            }
            _ => {
                assert_eq!(stream.next_message(), Next::Stop(0));
                assert_eq!(stream.next_message(), Next::Stop(0));
                assert_eq!(stream.take(&[1]), Took::Stopped(0));
                assert_eq!(stream.take(&[]), Took::Stopped(0));
                assert_eq!(stream.place(), Place { at: 0, end: LEAST, offset: 0 });
            }
        }
    }
}

/// What is taken without being yielded fills the buffer; then nothing more is taken, and nothing is lost.
#[test]
fn full() {
    let all = all_kinds();
    let mut buf = [0xee; 64];
    let mut stream = Stream::begin(&mut buf).unwrap();
    assert_eq!(stream.take(&all), Took::Bytes(64));
    assert_eq!(stream.take(&all[64..]), Took::Bytes(0));
    assert_eq!(stream.next_message(), Next::Message(&all[..37]));
    assert_eq!(stream.place(), Place { at: 37, end: 64, offset: 37 });
    assert_eq!(stream.take(&all[64..]), Took::Bytes(37));
    assert_eq!(stream.place(), Place { at: 0, end: 64, offset: 37 });
    assert_eq!(stream.next_message(), Next::Message(&all[37..61]));
    assert_eq!(buf, all[37..101]);
}

/// A take moves what is held, puts the bytes behind, and leaves the rest of the buffer alone.
#[test]
fn buffer_after_a_take() {
    let mut buf: Vec<u8> = (0..100).collect();
    (buf[10], buf[20]) = (1, 4);
    let mut place = Place { at: 10, end: 20, offset: 47 };
    assert_eq!(take(&mut buf, &mut place, &[7, 8, 9]), Ok(Took::Bytes(3)));
    assert_eq!(place, Place { at: 0, end: 13, offset: 47 });
    assert_eq!(buf[..16], [1, 11, 12, 13, 14, 15, 16, 17, 18, 19, 7, 8, 9, 13, 14, 15]);
    assert_eq!(take(&mut buf, &mut place, &[]), Ok(Took::Bytes(0)));
    assert_eq!(next(&buf, &mut place), Ok(Next::Nothing));
    assert_eq!(place, Place { at: 0, end: 13, offset: 47 });
}

#[test]
fn small_buffers() {
    for room in 0..LEAST {
        let mut buf = vec![0xee; room];
        assert_eq!(begin(&buf), Err(refused(2)));
        let mut place = Place::default();
        assert_eq!(take(&mut buf, &mut place, &[1]), Err(refused(2)));
        assert_eq!(next(&buf, &mut place), Err(refused(2)));
        let mut wrong = Place { end: room + 1, ..place };
        assert_eq!(take(&mut buf, &mut wrong, &[1]), Err(refused(11)));
        assert_eq!((buf, place), (vec![0xee; room], Place::default()));
    }
    assert_eq!(begin(&[0; LEAST]), Ok(Place::default()));
}

/// What messages add up to, worked out from the numbers that one message more makes of others.
fn sums(most: usize) -> Vec<bool> {
    let mut sums = vec![false; most];
    sums[0] = true;
    for number in 0..most {
        for length in LENGTHS.iter().filter(|&&length| length > 0 && number + length < most) {
            sums[number + length] |= sums[number];
        }
    }
    sums
}

#[test]
fn places() {
    let (sums, mut buf) = (sums(300), [1; 90]);
    for at in 0..=91 {
        for end in 0..=91 {
            for offset in 0..200 {
                let mut place = Place { at, end, offset };
                let whole = || sums[at] && sums[offset - at];
                let sound = at <= end && end <= 90 && at <= offset && whole();
                let before = place;
                let answer = take(&mut buf, &mut place, &[]);
                assert_eq!(answer.is_ok(), sound, "{before:?}");
                match sound {
                    true => assert_eq!(place, Place { at: 0, end: end - at, offset }),
                    false => assert_eq!((place, answer), (before, Err(refused(11)))),
                }
            }
        }
    }
}

/// No byte of a stream stands past the largest offset.
#[test]
fn last_offsets() {
    let most = usize::MAX;
    let mut buf = [4; LEAST];
    let mut take = |at, end, offset, count| {
        let mut place = Place { at, end, offset };
        (take(&mut buf, &mut place, &[4; 64][..count]), place.end)
    };
    assert_eq!(take(0, 0, most, 9), (Ok(Took::Bytes(0)), 0));
    assert_eq!(take(0, 1, most, 9), (Err(refused(11)), 1));
    assert_eq!(take(0, 1, most - 1, 9), (Ok(Took::Bytes(0)), 1));
    assert_eq!(take(0, 1, most - 8, 9), (Ok(Took::Bytes(7)), 8));
    assert_eq!(take(10, 64, most - 54, 9), (Ok(Took::Bytes(0)), 54));
    assert_eq!(take(10, 64, most - 53, 9), (Err(refused(11)), 64));
    let mut place = Place { at: 0, end: 10, offset: most - 10 };
    assert_eq!(next(&buf, &mut place), Ok(Next::Message(&buf[..10])));
    assert_eq!(place, Place { at: 10, end: 10, offset: most });
    assert_eq!(next(&buf, &mut place), Ok(Next::Nothing));
}
