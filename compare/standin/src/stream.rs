//! The calls on a stream, with what is planted in them.

use crate::planted::Planted::{self, *};
use crate::{lent, lent_mut, number_alone};
use second::message::{is_long, LENGTHS, NACK};
use second::refusal::UNSOUND;
use second::stream::{self, Next, Place, Took};
use second::Refusal;

type Lent = [usize; 3];

/// Makes the call on the lent place as the second program's.
fn on_place<T>(lent: &mut Lent, call: impl FnOnce(&mut Place) -> T) -> T {
    let [at, end, offset] = *lent;
    let mut place = Place { at, end, offset };
    let answer = call(&mut place);
    *lent = [place.at, place.end, place.offset];
    answer
}

#[no_mangle]
pub unsafe extern "C" fn pumxaqert_stream_begin(
    buf: *const u8,
    buf_len: usize,
    place: *mut Lent,
) -> u32 {
    let answer = stream::begin(lent(buf, buf_len));
    if let Ok(start) = answer {
        on_place(&mut *place, |place| *place = start);
    }
    number_alone(&answer)
}

#[no_mangle]
pub unsafe extern "C" fn pumxaqert_stream_take(
    buf: *mut u8,
    buf_len: usize,
    place: *mut Lent,
    bytes: *const u8,
    bytes_len: usize,
    values: *mut Lent,
) -> u32 {
    let (buf, bytes) = (lent_mut(buf, buf_len), lent(bytes, bytes_len));
    let answer = on_place(&mut *place, |place| take(Planted::now(), buf, place, bytes));
    *values = match answer {
        Ok(Took::Bytes(count)) => [count, 0, 0],
        Ok(Took::Stopped(offset)) => [0, 1, offset],
        Err(_) => [0; 3],
    };
    number_alone(&answer)
}

#[no_mangle]
pub unsafe extern "C" fn pumxaqert_stream_next(
    buf: *const u8,
    buf_len: usize,
    place: *mut Lent,
    values: *mut Lent,
) -> u32 {
    let buf = lent(buf, buf_len);
    let answer = on_place(&mut *place, |place| next(Planted::now(), buf, place));
    *values = match answer {
        Ok(Next::Message(message)) => [1, (*place)[0] - message.len(), message.len()],
        Ok(Next::Stop(offset)) => [2, offset, 0],
        Ok(Next::Nothing) | Err(_) => [0; 3],
    };
    number_alone(&answer)
}

fn take(
    planted: Planted,
    buf: &mut [u8],
    place: &mut Place,
    bytes: &[u8],
) -> Result<Took, Refusal> {
    let before = *place;
    let answer = judged(planted, place, |place| stream::take(buf, place, bytes));
    match (planted, answer) {
        (RestDropped, Ok(Took::Bytes(count))) if before.at > 0 => {
            buf.copy_within(place.end - count..place.end, 0);
            place.end = count;
        }
        (StopForgotten, Ok(Took::Stopped(_))) => {
            // With a known kind in its place, only this once.
            let unknown = std::mem::replace(&mut buf[place.at], 1);
            let answer = stream::take(buf, place, bytes);
            buf[place.at] = unknown;
            return answer;
        }
        (OffsetInBuffer, Ok(Took::Stopped(_))) => return Ok(Took::Stopped(place.at)),
        (BufferTouched, Ok(Took::Bytes(_))) if place.end < buf.len() => buf[place.end] ^= 1,
        _ => {}
    }
    answer
}

fn next<'b>(planted: Planted, buf: &'b [u8], place: &mut Place) -> Result<Next<'b>, Refusal> {
    let answer = judged(planted, place, |place| stream::next(buf, place));
    let held = &buf[place.at.min(buf.len())..];
    match (planted, answer) {
        (CutTakenForWhole, Ok(Next::Nothing)) if place.end == buf.len() && !held.is_empty() => {
            place.at += held.len();
            place.offset += held.len();
            Ok(Next::Message(held))
        }
        (OffsetInBuffer, Ok(Next::Stop(_))) => Ok(Next::Stop(place.at)),
        (LengthOffByOne, Ok(Next::Message(message))) if message[0] == 8 => {
            place.at -= 1;
            place.offset -= 1;
            Ok(Next::Message(&message[..message.len() - 1]))
        }
        (LongAsShort, Ok(Next::Message(message))) if is_long(message[0]) => {
            place.at -= 4;
            place.offset -= 4;
            Ok(Next::Message(&message[..message.len() - 4]))
        }
        _ => answer,
    }
}

/// Whether messages of kinds 1 to 8 add up to this.
fn is_short_sum(number: usize) -> bool {
    let lengths = &LENGTHS[1..=NACK as usize];
    number == 0
        || number > 100
        || lengths.iter().any(|&length| length <= number && is_short_sum(number - length))
}

/// One call, with what is planted in the judging of its place.
fn judged<T>(
    planted: Planted,
    place: &mut Place,
    mut call: impl FnMut(&mut Place) -> Result<T, Refusal>,
) -> Result<T, Refusal> {
    let Place { at, offset, .. } = *place;
    if planted == OldSums && at <= offset && !(is_short_sum(at) && is_short_sum(offset - at)) {
        return Err(UNSOUND);
    }
    let answer = call(place);
    match (planted, &answer) {
        (UnsoundAccepted, Err(UNSOUND)) if at <= offset => {
            // As if the buffer's first byte were the stream's.
            let mut near = Place { offset: at, ..*place };
            let answer = call(&mut near)?;
            *place = Place { offset: (near.offset - at).wrapping_add(offset), ..near };
            Ok(answer)
        }
        (PlaceForgotten, Err(_)) => {
            *place = Place::default();
            answer
        }
        _ => answer,
    }
}
