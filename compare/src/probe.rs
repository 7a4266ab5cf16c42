//! Calls beside a run, on a copy of one table that is thrown away: damaged tables and messages, and arguments that are
//! refused. The run itself goes on as if they had not been.

use crate::both::{Answer, Call, Pair, OUT};
use crate::places::Place;
use crate::random::Random;
use crate::world::World;
use crate::{make, not_valid, LONGEST};
use pumxaqert::{Setup, ROOM};
use second::message::{kind_of, COMMIT};
use second::table::{Record, COMMITTED, HEAD_LEN, MARK_AT, RECORD_LEN};

pub fn probe(world: &mut World, q: usize) -> Result<(), String> {
    let mut setup = world.copies[q].setup;
    let mut table = world.copies[q].saved.clone();
    let mut room = ROOM;
    let mut bytes = [0; LONGEST];
    let mut length = 0;
    let random = &mut world.random;
    match random.below(5) {
        0 => damage_table(random, setup, &mut table),
        1 => length = damaged_message(random, setup, &table, &mut bytes),
        2 => wrong_setup(random, &mut setup, &mut table),
        3 => room = random.pick(&[0, 255, 256, OUT]),
        _ => rare_record(random, setup, &mut table),
    }
    let call = match length {
        0 => some_call(random, setup, &table, &mut bytes),
        _ => Call::Message(&bytes[..length]),
    };
    check(world, setup, room, call, table, length > 0)
}

fn check(
    world: &mut World,
    setup: Setup,
    room: usize,
    call: Call,
    table: Vec<u8>,
    damaged: bool,
) -> Result<(), String> {
    let mut tables = Pair::of(&table);
    let places = &mut world.places;
    places.calls += 2;
    let sound = world.both.call(setup, ROOM, Call::Judge, &mut tables)?;
    places.reach(match sound {
        Answer::Refused(_) => Place::TableDamaged,
        _ => Place::TableOther,
    });
    let answer = world.both.call(setup, room, call, &mut tables)?;
    if let Answer::Refused(refusal) = answer {
        places.refused(refusal.number);
        if tables.ours != table {
            return Err(format!("{call:?} was refused {refusal} and changed the table"));
        }
    }
    if damaged {
        places.reach(match answer {
            Answer::Refused(refusal) if not_valid(refusal.number) => Place::MessageDamaged,
            _ => Place::MessageInvented,
        });
    }
    Ok(())
}

fn damage_table(random: &mut Random, setup: Setup, table: &mut [u8]) {
    let record = random.below(setup.n * setup.s);
    let at = HEAD_LEN + RECORD_LEN * record;
    match random.below(4) {
        0 => make::damage(random, &mut table[..HEAD_LEN]),
        // The vote, mark, phase and set: where most of what is judged stands.
        1 | 2 => make::damage(random, &mut table[at..at + MARK_AT + 3]),
        _ => make::damage(random, &mut table[at..at + RECORD_LEN]),
    }
}

/// A message that the copy might get, with some of its bytes changed, or cut short, or as it stands.
fn damaged_message(
    random: &mut Random,
    setup: Setup,
    table: &[u8],
    bytes: &mut [u8; LONGEST],
) -> usize {
    let mut m = make::message(random, setup, table);
    // A Commit over what is committed, so that it may differ.
    let kept = make::get(table, make::place(setup, m.owner as usize, m.number as usize));
    if kept.own.status == COMMITTED && random.chance(60) {
        let kind = kind_of(COMMIT, kept.own.command.op);
        m = second::Message { kind, voted: 0, joined: 0, status: 0, ..m };
        m = m.with(&kept.own.command, &kept.own.deps);
        match random.below(3) {
            0 => m.edit = m.edit.wrapping_add(1),
            1 => m.second = m.second.wrapping_add(1),
            _ => {}
        }
    }
    let length = make::bytes(&m, bytes);
    match random.below(5) {
        0 => random.between(1, length),
        1 => (length + 1).min(LONGEST),
        2 | 3 => {
            make::damage(random, &mut bytes[..length]);
            length
        }
        _ => length,
    }
}

fn wrong_setup(random: &mut Random, setup: &mut Setup, table: &mut Vec<u8>) {
    match random.below(5) {
        0 => setup.n = random.pick(&[0, 1, 2, 4, 6, 8, 9, 259, usize::MAX]),
        1 => setup.s = random.pick(&[0, 65, 256 + setup.s, usize::MAX]),
        2 => setup.copy = random.pick(&[setup.n, 256 + setup.copy, usize::MAX]),
        3 => table.truncate(table.len() - 1),
        _ => table.push(0),
    }
}

/// Records that runs seldom or never reach: any sound one, and the last ballots.
fn rare_record(random: &mut Random, setup: Setup, table: &mut [u8]) {
    let (o, j) = (random.below(setup.n), random.between(1, setup.s));
    let mut record = make::record(random, setup, o);
    if random.chance(40) {
        record = Record { joined: 4_294_967_280 + random.below(16) as u32, ..Record::default() };
    }
    make::put(table, make::place(setup, o, j), &record);
}

/// Any call, with arguments that are out of range now and then.
fn some_call<'a>(
    random: &mut Random,
    setup: Setup,
    table: &[u8],
    bytes: &'a mut [u8; LONGEST],
) -> Call<'a> {
    let out_of_range = random.chance(10);
    let mut named = |most: usize| match out_of_range {
        true => random.pick(&[0, most, most + 1, 256, usize::MAX]),
        false => random.below(most.max(1)),
    };
    let (o, j) = (named(setup.n.min(7)), named(setup.s.min(64)).wrapping_add(1));
    let good = second::table_len(setup.n, setup.s) == table.len() && setup.copy < setup.n;
    match random.below(9) {
        0 => Call::Blank,
        1 => Call::Part(o, j),
        2 => {
            let op = random.pick(&[0, 1, 2, 3, 3, 3, 258, usize::MAX]);
            Call::Request(op, 1, random.pick(&[0, 0, 1, 2]), random.word())
        }
        3 | 4 => Call::Recover(o, j),
        5 => Call::Nudge(o, j),
        6 => Call::Settled(o, j),
        7 => Call::HandOut(random.below(400)),
        _ if good => {
            let m = make::message(random, setup, table);
            let length = make::bytes(&m, bytes);
            Call::Message(&bytes[..length])
        }
        _ => Call::Judge,
    }
}
