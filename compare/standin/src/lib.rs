//! A stand-in for the proved library: every call of include/pumxaqert.h, answered by `second`. It exists to show that
//! the comparison catches a difference: PUMXAQERT_PLANTED names one of those in `planted`; 0, or nothing, is none.
// The header says what each call is lent.
#![allow(clippy::missing_safety_doc, clippy::too_many_arguments)]

mod journal;
mod planted;
mod stream;

use planted::Planted;
use second::fields::{self, Fields};
use second::rules::Command;
use second::{Event, Refusal, Settled};
use std::slice::{from_raw_parts, from_raw_parts_mut};

/// NULL comes only with length 0, and is then an empty area.
unsafe fn lent<'a, T>(at: *const T, length: usize) -> &'a [T] {
    if length == 0 {
        &[]
    } else {
        from_raw_parts(at, length)
    }
}

unsafe fn lent_mut<'a, T>(at: *mut T, length: usize) -> &'a mut [T] {
    if length == 0 {
        &mut []
    } else {
        from_raw_parts_mut(at, length)
    }
}

/// The number of a refusal, 0 for none; where a wrong field begins is put in its place.
fn number<T>(answer: &Result<T, Refusal>, offset: &mut usize) -> u32 {
    let refusal = answer.as_ref().err().copied().unwrap_or(Refusal::of(0));
    *offset = refusal.offset as usize;
    refusal.number as u32
}

/// The same of a call that knows of no field.
fn number_alone<T>(answer: &Result<T, Refusal>) -> u32 {
    number(answer, &mut 0)
}

fn answered(answer: Result<Event, Refusal>, values: &mut [usize; 4]) -> u32 {
    *values = match answer {
        Ok(Event { owner, number, written }) => [owner, number, written, 0],
        Err(_) => [0; 4],
    };
    let number = number(&answer, &mut values[3]);
    values[3] = planted::offset(Planted::now(), values[3]);
    number
}

#[no_mangle]
pub extern "C" fn pumxaqert_table_length(n: usize, s: usize) -> usize {
    second::table_len(n, s)
}

#[no_mangle]
pub unsafe extern "C" fn pumxaqert_blank(
    table: *mut u8,
    table_len: usize,
    n: usize,
    s: usize,
    c: usize,
) -> u32 {
    number_alone(&second::blank_table(lent_mut(table, table_len), n, s, c))
}

#[no_mangle]
pub unsafe extern "C" fn pumxaqert_judge(
    table: *const u8,
    table_len: usize,
    n: usize,
    s: usize,
    c: usize,
) -> u32 {
    let t = lent(table, table_len);
    let seen = planted::before_judge(Planted::now(), t);
    number_alone(&second::judge_table(seen.as_deref().unwrap_or(t), n, s, c))
}

#[no_mangle]
pub unsafe extern "C" fn pumxaqert_part(
    table: *const u8,
    table_len: usize,
    n: usize,
    s: usize,
    c: usize,
    owner: usize,
    number: usize,
    length: *mut usize,
) -> usize {
    let (start, long) = second::record_part(lent(table, table_len), n, s, c, owner, number);
    *length = long;
    start
}

#[no_mangle]
pub unsafe extern "C" fn pumxaqert_request(
    table: *mut u8,
    table_len: usize,
    n: usize,
    s: usize,
    c: usize,
    out: *mut u8,
    out_len: usize,
    op: usize,
    key: u32,
    second: u32,
    edit: u64,
    values: *mut [usize; 4],
) -> u32 {
    let (t, out) = (lent_mut(table, table_len), lent_mut(out, out_len));
    let command = Command { op: op.try_into().unwrap_or(u8::MAX), key, second, edit };
    let setup = planted::Setup { n, s, copy: c };
    let answer = planted::request(Planted::now(), setup, t, out, command);
    planted::sent(Planted::now(), &answer, out);
    answered(answer, &mut *values)
}

#[no_mangle]
pub unsafe extern "C" fn pumxaqert_message(
    table: *mut u8,
    table_len: usize,
    n: usize,
    s: usize,
    c: usize,
    out: *mut u8,
    out_len: usize,
    bytes: *const u8,
    bytes_len: usize,
    values: *mut [usize; 4],
) -> u32 {
    let (t, out) = (lent_mut(table, table_len), lent_mut(out, out_len));
    let setup = planted::Setup { n, s, copy: c };
    let answer = planted::message(Planted::now(), setup, t, out, lent(bytes, bytes_len));
    planted::sent(Planted::now(), &answer, out);
    answered(answer, &mut *values)
}

#[no_mangle]
pub unsafe extern "C" fn pumxaqert_recover(
    table: *mut u8,
    table_len: usize,
    n: usize,
    s: usize,
    c: usize,
    out: *mut u8,
    out_len: usize,
    owner: usize,
    number: usize,
    values: *mut [usize; 4],
) -> u32 {
    let (t, out) = (lent_mut(table, table_len), lent_mut(out, out_len));
    answered(second::recover(t, n, s, c, out, owner, number), &mut *values)
}

#[no_mangle]
pub unsafe extern "C" fn pumxaqert_nudge(
    table: *mut u8,
    table_len: usize,
    n: usize,
    s: usize,
    c: usize,
    out: *mut u8,
    out_len: usize,
    owner: usize,
    number: usize,
    values: *mut [usize; 4],
) -> u32 {
    let (t, out) = (lent_mut(table, table_len), lent_mut(out, out_len));
    let answer = second::nudge(t, n, s, c, out, owner, number);
    planted::after_nudge(Planted::now(), &answer, out);
    planted::sent(Planted::now(), &answer, out);
    let number = answered(answer, &mut *values);
    if number != 0 && Planted::now() == Planted::ValuesLeft {
        *values = [owner, number as usize, 0, 0];
    }
    number
}

#[no_mangle]
pub unsafe extern "C" fn pumxaqert_settled(
    table: *const u8,
    table_len: usize,
    n: usize,
    s: usize,
    c: usize,
    owner: usize,
    number: usize,
    values: *mut [u64; 5],
) -> u32 {
    let answer = second::settled(lent(table, table_len), n, s, c, owner, number);
    let answer = planted::settled(Planted::now(), answer);
    *values = match answer {
        Ok(Settled::Command { op, key, second, edit }) => {
            [1, op as u64, key as u64, second as u64, edit]
        }
        Ok(Settled::Waits { owner, number }) => [0, owner as u64, number as u64, 0, 0],
        Err(_) => [0; 5],
    };
    number_alone(&answer)
}

#[no_mangle]
pub unsafe extern "C" fn pumxaqert_hand_out(
    table: *mut u8,
    table_len: usize,
    n: usize,
    s: usize,
    c: usize,
    list: *mut u16,
    list_len: usize,
    codes: *mut usize,
) -> u32 {
    let (t, list) = (lent_mut(table, table_len), lent_mut(list, list_len));
    let answer = second::hand_out(t, n, s, c, list);
    *codes = answer.unwrap_or(0);
    planted::after_hand_out(Planted::now(), *codes, list);
    if Planted::now() == Planted::PastTheEnd && list_len > 0 {
        list.as_mut_ptr().add(list_len).write(0);
    }
    number_alone(&answer)
}

#[no_mangle]
pub unsafe extern "C" fn pumxaqert_read_message(
    n: usize,
    s: usize,
    c: usize,
    bytes: *const u8,
    bytes_len: usize,
    fields: *mut Fields,
    offset: *mut usize,
) -> u32 {
    let answer =
        planted::read(Planted::now(), planted::Setup { n, s, copy: c }, lent(bytes, bytes_len));
    *fields = answer.map_or([0; fields::COUNT], |m| fields::fields(&m));
    number(&answer, &mut *offset)
}

#[no_mangle]
pub unsafe extern "C" fn pumxaqert_write_message(
    n: usize,
    s: usize,
    c: usize,
    out: *mut u8,
    out_len: usize,
    fields: *const Fields,
    written: *mut usize,
    offset: *mut usize,
) -> u32 {
    let setup = planted::Setup { n, s, copy: c };
    let answer = planted::write(Planted::now(), setup, lent_mut(out, out_len), &*fields);
    *written = answer.unwrap_or(0);
    number(&answer, &mut *offset)
}
