//! Tables of the layout that had no second keys: what is left of one of today's without them, and back, by the second
//! program and by the wrapper.

use crate::make;
use crate::random::Random;
use crate::UNTOUCHED;
use pumxaqert::{earlier, Setup};
use second::old::{OLD_RECORD_LEN, OLD_VOTE_LEN};
use second::rules::{Command, REWIRE, WRITE};
use second::table::{HEAD_LEN, MARK_AT, RECORD_LEN, VOTE_LEN};
use second::{bring_over, table_len, Refusal};

/// In a record: its own vote, and its replies.
const OWN: usize = MARK_AT - VOTE_LEN;
const REPLIES: usize = MARK_AT + 3;
/// In a vote, the second key.
const SECOND: std::ops::Range<usize> = 10..14;

/// The table in the old layout, its second keys lost.
pub fn without_seconds(table: &[u8]) -> Vec<u8> {
    let mut old = table[..HEAD_LEN].to_vec();
    for record in table[HEAD_LEN..].chunks_exact(RECORD_LEN) {
        old.extend(&record[..OWN]);
        put_vote(&mut old, &record[OWN..MARK_AT]);
        old.extend(&record[MARK_AT..REPLIES]);
        record[REPLIES..].chunks_exact(VOTE_LEN).for_each(|vote| put_vote(&mut old, vote));
    }
    debug_assert_eq!((old.len() - HEAD_LEN) % OLD_RECORD_LEN, 0);
    old
}

fn put_vote(old: &mut Vec<u8>, vote: &[u8]) {
    old.extend(&vote[..SECOND.start]);
    old.extend(&vote[SECOND.end..]);
    debug_assert_eq!(vote.len() - SECOND.len(), OLD_VOTE_LEN);
}

/// What the second program brings over, in a table of its own.
pub fn brought_over(setup: Setup, old: &[u8]) -> Result<Vec<u8>, Refusal> {
    let Setup { n, s, copy } = setup;
    let mut table = vec![0; table_len(n, s)];
    bring_over(&mut table, n, s, copy, old).map(|()| table)
}

#[derive(Clone, Copy, Debug, Default)]
pub struct Counts {
    pub tables: u64,
    pub brought: u64,
}

/// The wrapper brings the same tables over, to the last byte, and refuses the others as the second program does; but a head
/// that does not fit is 1 there, and not 11. A table that is not brought over is blank then, or untouched.
pub fn compare(setup: Setup, old: &[u8], counts: &mut Counts) -> Result<(), String> {
    let Setup { n, s, copy } = setup;
    let ours = brought_over(setup, old);
    let other_head = !old.iter().map(|&byte| byte as usize).take(HEAD_LEN).eq([n, s, copy]);
    let number = |refusal: Refusal| if other_head { 1 } else { refusal.number as u32 };
    let mut table = vec![UNTOUCHED; table_len(n, s)];
    let theirs = earlier::bring_over(setup, &mut table, old).map_err(|refusal| refusal.number());
    let (wanted, answer) = match &ours {
        Ok(ours) => (ours.clone(), Ok(filled(ours))),
        Err(refusal) => match number(*refusal) {
            1 => (vec![UNTOUCHED; table.len()], Err(1)),
            number => (make::blank(setup), Err(number)),
        },
    };
    counts.tables += 1;
    counts.brought += ours.is_ok() as u64;
    match theirs == answer && table == wanted {
        true => Ok(()),
        false => {
            let answers = format!("wrapper {theirs:?}, second {answer:?}");
            Err(format!("an old table brought over: {answers}, with {setup:?}\n  {old:02x?}"))
        }
    }
}

/// How many records are not blank.
fn filled(table: &[u8]) -> usize {
    let records = table[HEAD_LEN..].chunks_exact(RECORD_LEN);
    records.filter(|record| record.iter().any(|&byte| byte != 0)).count()
}

const VALUES: [u8; 12] = [0, 1, 2, 3, 4, 5, 7, 8, 16, 64, 128, 255];

/// An old table as it is, by other setups, of other lengths, and with some values at every byte.
pub fn every_byte(setup: Setup, old: &[u8], counts: &mut Counts) -> Result<(), String> {
    compare(setup, old, counts)?;
    for other in [3, 5, 7].map(|n| Setup { n, ..setup }) {
        (0..other.n).try_for_each(|copy| compare(Setup { copy, ..other }, old, counts))?;
    }
    let longer = [old, &[0; OLD_RECORD_LEN]].concat();
    for length in [0, 1, old.len() - 1, old.len() + 1, longer.len()] {
        compare(setup, &longer[..length], counts)?;
    }
    let mut damaged = old.to_vec();
    for at in 0..old.len() {
        for value in VALUES {
            damaged[at] = value;
            compare(setup, &damaged, counts)?;
        }
        damaged[at] = old[at];
    }
    Ok(())
}

/// Old tables of random sizes, sound ones and some that held a rewire, each also damaged.
pub fn some(random: &mut Random, counts: &mut Counts) -> Result<(), String> {
    let n = random.pick(&[3, 5, 7]);
    let setup = Setup { n, s: random.between(1, 9), copy: random.below(n) };
    let mut table = make::blank(setup);
    let filled = random.pick(&[5, 20, 90]);
    make::fill(random, setup, &mut table, filled);
    if random.chance(80) {
        without_rewires(&mut table);
    }
    let mut old = without_seconds(&table);
    compare(setup, &old, counts)?;
    make::damage(random, &mut old);
    compare(setup, &old, counts)
}

/// Every rewire becomes a write of its first key.
pub fn without_rewires(table: &mut [u8]) {
    for at in (HEAD_LEN..table.len()).step_by(RECORD_LEN) {
        let mut record = make::get(table, at);
        for vote in std::iter::once(&mut record.own).chain(&mut record.replies) {
            if vote.command.op == REWIRE {
                vote.command = Command { op: WRITE, second: 0, ..vote.command };
            }
        }
        make::put(table, at, &record);
    }
}

#[cfg(test)]
mod tests {
    use super::*;
    use crate::journals::{Journals, Told};
    use second::table::Record;

    fn some_setup(random: &mut Random) -> Setup {
        let n = random.pick(&[3, 5, 7]);
        Setup { n, s: random.between(1, 5), copy: random.below(n) }
    }

    fn has_rewire(record: &Record) -> bool {
        record.own.command.op == REWIRE
            || record.replies.iter().any(|vote| vote.command.op == REWIRE)
    }

    /// Whatever has no rewire in it comes back the same; with one it was not sound.
    #[test]
    fn there_and_back() {
        let mut random = Random(5);
        let (mut same, mut refused) = (0, 0);
        for _ in 0..2000 {
            let setup = some_setup(&mut random);
            let mut table = make::blank(setup);
            let filled = random.pick(&[5, 20, 50]);
            make::fill(&mut random, setup, &mut table, filled);
            let mut records = (0..setup.n * setup.s).map(|i| HEAD_LEN + RECORD_LEN * i);
            let wanted = match records.any(|at| has_rewire(&make::get(&table, at))) {
                true => Err(Refusal::of(11)),
                false => Ok(table.clone()),
            };
            assert_eq!(brought_over(setup, &without_seconds(&table)), wanted);
            same += wanted.is_ok() as u32;
            refused += wanted.is_err() as u32;
        }
        assert!(same > 300 && refused > 300, "{same} {refused}");
    }

    /// Whatever is brought over is sound, and has all that it had.
    #[test]
    fn nothing_is_made_up() {
        let mut random = Random(6);
        let mut taken = 0;
        for _ in 0..20_000 {
            let setup = some_setup(&mut random);
            let mut table = make::blank(setup);
            make::fill(&mut random, setup, &mut table, 10);
            let mut old = without_seconds(&table);
            make::damage(&mut random, &mut old);
            match brought_over(setup, &old) {
                Ok(table) => {
                    assert_eq!(second::judge_table(&table, setup.n, setup.s, setup.copy), Ok(()));
                    assert_eq!(without_seconds(&table), old);
                    taken += 1;
                }
                Err(refusal) => assert_eq!(refusal.number, 11),
            }
        }
        assert!(taken > 300, "{taken}");
    }

    /// An old record with 32 bytes of further entries behind it is never taken for one of today's, whatever it holds:
    /// the kind of what is behind it stands where the last reply's status is. With fewer it is a rest.
    #[test]
    fn old_entries_are_not_misread() {
        let mut random = Random(7);
        let mut journals = Journals::default();
        for _ in 0..20_000 {
            let setup = some_setup(&mut random);
            let mut table = make::blank(setup);
            make::fill(&mut random, setup, &mut table, 50);
            without_rewires(&mut table);
            let old = without_seconds(&table);
            let mut bytes = Vec::new();
            for (place, record) in old[HEAD_LEN..].chunks_exact(OLD_RECORD_LEN).enumerate() {
                let (o, j) = (place / setup.s, place % setup.s + 1);
                bytes.extend([20, o as u8, j as u8, 0]);
                bytes.extend(record);
                if random.chance(30) {
                    bytes.extend([21, o as u8, j as u8, 0]);
                }
            }
            bytes.truncate(random.pick(&[267, 298, 299, bytes.len()]));
            let number = if bytes.len() < 299 { 0 } else { 43 };
            let told = journals.replay(setup, &table, &bytes).unwrap();
            assert_eq!(told, Told { number, value: 0 });
            assert!(journals.table == table);
        }
    }
}
