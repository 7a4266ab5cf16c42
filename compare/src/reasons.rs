//! Messages to one copy, chosen and not drawn: reader, writer and event must answer the same on both sides, down to the
//! reason and the field.

use crate::both::{Answer, Both, Call, Pair};
use crate::{make, not_valid, LONGEST};
use pumxaqert::{Setup, ROOM};
use second::fields::{self, Fields};
use second::message::{decode, encode, LAST_KIND, PREPARE, PREPARE_OK};
use second::{broken, Message, Refusal};

#[derive(Default)]
pub struct Counts {
    /// Clauses of valid broken, alone or two together.
    pub broken: u64,
    pub read: u64,
    pub valid: u64,
    pub written: u64,
    pub taken: u64,
}

/// All that is chosen for this copy.
pub fn all(setup: Setup, counts: &mut Counts) -> Result<(), String> {
    let mut both = Both::default();
    broken_clauses(&mut both, setup, counts)?;
    for m in valid(setup) {
        let mut bytes = [0; LONGEST];
        let length = encode(&m, &mut bytes);
        every_byte(&mut both, setup, &bytes[..length], counts)?;
        large_numbers(&mut both, setup, &fields::fields(&m), counts)?;
    }
    Ok(())
}

/// Several of each kind.
fn valid(setup: Setup) -> Vec<Message> {
    let Setup { n, s, copy } = setup;
    let mut all = Vec::new();
    for kind in 1..=LAST_KIND {
        let m = broken::valid(n, copy, kind, 3);
        all.extend([m, broken::no_op(&m), broken::nothing(&m)]);
        if !matches!(m.body(), PREPARE | PREPARE_OK) {
            all.push(broken::valid(n, copy, kind, 0));
        }
        let last = u32::MAX - 7 + m.ballot % 8;
        all.push(Message { ballot: last, number: s as u16, ..m });
        // Keys as near as they may be, at a byte's bound.
        all.push(Message { key: m.second.wrapping_sub(1), ..m });
        all.push(Message { key: 0xff, second: 0x100, ..m });
    }
    let read = |m: &Message| {
        let mut bytes = [0; LONGEST];
        let length = encode(m, &mut bytes);
        second::read_message(n, s, copy, &bytes[..length]).is_ok()
    };
    all.retain(read);
    all.dedup();
    all
}

/// Each clause of valid broken alone, and every two together.
fn broken_clauses(both: &mut Both, setup: Setup, counts: &mut Counts) -> Result<(), String> {
    let Setup { n, s, copy } = setup;
    let blank = make::blank(setup);
    let mut tables = Pair::of(&blank);
    let mut held = Ok(());
    broken::each(n, s, copy, &mut |case| {
        if held.is_err() {
            return;
        }
        counts.broken += 1;
        held = same_reason(both, setup, case.bytes, case.reason, &mut tables);
        if let (Ok(()), Some(f)) = (&held, &case.fields) {
            held = write(both, setup, f, counts);
        }
    });
    held
}

/// Reader and event give this reason, and the event leaves the tables alone.
fn same_reason(
    both: &mut Both,
    setup: Setup,
    bytes: &[u8],
    reason: Refusal,
    tables: &mut Pair,
) -> Result<(), String> {
    let read = both.read(setup, bytes)?.map_err(Answer::Refused);
    let heard = both.call(setup, ROOM, Call::Message(bytes), tables)?;
    if heard != Answer::Refused(reason) || read != Err(heard) {
        return Err(format!(
            "{setup:?}, {bytes:02x?}: {reason} is the reason, not {read:?}, {heard:?}"
        ));
    }
    Ok(())
}

/// Each byte of a valid message with all 256 values, as bytes and as the numbers that they say; and every length.
pub fn every_byte(
    both: &mut Both,
    setup: Setup,
    bytes: &[u8],
    counts: &mut Counts,
) -> Result<(), String> {
    let mut changed = bytes.to_vec();
    for at in 0..bytes.len() {
        for value in 0..=255 {
            changed[at] = value;
            read(both, setup, &changed, counts)?;
            write(both, setup, &numbers(&changed, bytes[0]), counts)?;
        }
        changed[at] = bytes[at];
    }
    changed.resize(64, 0);
    (0..=64).try_for_each(|length| read(both, setup, &changed[..length], counts))
}

/// The bytes taken for a message of this kind, with the kind that they say.
fn numbers(bytes: &[u8], kind: u8) -> Fields {
    let mut as_kind = bytes.to_vec();
    as_kind[0] = kind;
    let mut f = fields::fields(&decode(&as_kind).expect("a whole message"));
    f[0] = bytes[0] as u64;
    f
}

/// One number, and any two at once, at the bounds of what a place can hold.
fn large_numbers(
    both: &mut Both,
    setup: Setup,
    f: &Fields,
    counts: &mut Counts,
) -> Result<(), String> {
    let bounds = [8, 16, 32].map(|width| 1u64 << width);
    let values = bounds.iter().flat_map(|&above| [above - 1, above]).chain([0, 3, u64::MAX]);
    for a in 0..f.len() {
        for b in a..f.len() {
            for value in values.clone() {
                let mut changed = *f;
                changed[a] = value;
                changed[b] = value;
                write(both, setup, &changed, counts)?;
            }
        }
    }
    Ok(())
}

fn read(both: &mut Both, setup: Setup, bytes: &[u8], counts: &mut Counts) -> Result<(), String> {
    counts.read += 1;
    match both.read(setup, bytes)? {
        Ok(_) => counts.valid += 1,
        Err(refusal) if not_valid(refusal.number) => {}
        Err(refusal) => return Err(format!("{setup:?} refuses {bytes:02x?}: {refusal}")),
    }
    Ok(())
}

fn write(both: &mut Both, setup: Setup, f: &Fields, counts: &mut Counts) -> Result<(), String> {
    counts.written += 1;
    match both.write(setup, f)? {
        Ok(_) => counts.taken += 1,
        Err(refusal) if not_valid(refusal.number) => {}
        Err(refusal) => return Err(format!("{setup:?} does not write {f:?}: {refusal}")),
    }
    Ok(())
}
