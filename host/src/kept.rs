//! What the lives of one log told as saved, and what each later one is held to.

use crate::facts::{COMMITTED, CUT_OFF, FULL, HANDED_OUT, LOST, READY, TOOK};
use crate::store::Store;
use std::collections::BTreeMap;
use std::fmt;
use std::io::Result;

/// What one or more lives told: copy, verb and instance, with what was said of it; and each copy's order.
#[derive(Clone, Default)]
struct Told {
    facts: BTreeMap<[String; 3], String>,
    orders: BTreeMap<String, Vec<String>>,
}

/// A log's lives: the earlier ones together, and this one.
#[derive(Default)]
pub struct Kept {
    before: Told,
    now: Told,
    /// What each instance was committed as, by whichever copy told it first.
    agreed: BTreeMap<String, String>,
}

fn wrong<T>(what: String) -> Result<T> {
    Err(Store::bad(what))
}

impl Kept {
    /// One line, as its words.
    pub fn hear(&mut self, words: &[&str]) -> Result<()> {
        match *words {
            [READY] => self.now.has_all_of(&self.before),
            [FULL] | ["copy", _, CUT_OFF, _] => Ok(()),
            ["copy", copy, HANDED_OUT, at] if self.agreed.contains_key(at) => {
                self.now.orders.entry(copy.into()).or_default().push(at.into());
                Ok(())
            }
            ["copy", copy, verb, at, _, ..] => self.fact(copy, verb, at, words[4..].join(" ")),
            _ => wrong(format!("told out of place: {words:?}")),
        }
    }

    /// One instance has one content, at every copy and in every life.
    fn fact(&mut self, copy: &str, verb: &str, at: &str, what: String) -> Result<()> {
        if verb == COMMITTED {
            let agreed = self.agreed.entry(at.into()).or_insert_with(|| what.clone());
            if *agreed != what {
                return wrong(format!("{at} is committed as {agreed} and, at {copy}, as {what}"));
            }
        }
        match self.now.facts.insert([copy, verb, at].map(String::from), what.clone()) {
            Some(other) if other != what => {
                wrong(format!("copy {copy} {verb} {at} {other}, and then {what}"))
            }
            _ => Ok(()),
        }
    }

    /// Life ends, perhaps before it was ready: what it told counts all the same.
    pub fn end_life(&mut self) -> Result<()> {
        let Told { facts, orders } = std::mem::take(&mut self.now);
        self.before.facts.extend(facts);
        for (copy, order) in orders {
            longer(self.before.orders.entry(copy).or_default(), order)?;
        }
        self.taken_came_in()?;
        self.cells_agree()
    }

    /// Where an edit is committed, it is the one that was taken, and it had not lost.
    fn taken_came_in(&self) -> Result<()> {
        let other = |([_, verb, at], what): &(&[String; 3], &String)| match self.edit(at) {
            Some(edit) if verb == TOOK => edit_in(what) != Some(edit),
            Some(_) => verb == LOST,
            None => false,
        };
        match self.before.facts.iter().find(other) {
            Some(([copy, verb, at], what)) => {
                wrong(format!("copy {copy} {verb} {at} {what}: {} is committed", self.agreed[at]))
            }
            None => Ok(()),
        }
    }

    /// The edits of each cell were handed out in one order, as far as each copy has come.
    fn cells_agree(&self) -> Result<()> {
        let mut longest: BTreeMap<&str, Vec<&str>> = BTreeMap::new();
        for (cell, order) in self.before.orders.values().flat_map(|order| self.cells(order)) {
            longer(longest.entry(cell).or_default(), order)?;
        }
        Ok(())
    }

    /// A copy's order as one of edits for each cell.
    fn cells(&self, order: &[String]) -> BTreeMap<&str, Vec<&str>> {
        let mut cells: BTreeMap<&str, Vec<&str>> = BTreeMap::new();
        for (of, edit) in order.iter().filter_map(|at| self.edit(at)) {
            of.split(',').for_each(|cell| cells.entry(cell).or_default().push(edit));
        }
        cells
    }

    /// The cell, or both with a comma between, and the edit that an instance was committed as; none for a no-op.
    fn edit(&self, at: &str) -> Option<(&str, &str)> {
        edit_in(self.agreed.get(at)?)
    }

    /// The log is full: every edit that was committed has been handed out everywhere, once.
    pub fn end_log(&self) -> Result<()> {
        let mut all: Vec<&str> =
            self.agreed.values().filter_map(|what| edit_in(what)).map(|(_, edit)| edit).collect();
        all.sort();
        for order in self.before.orders.values() {
            let mut edits: Vec<&str> =
                order.iter().filter_map(|at| self.edit(at)).map(|(_, edit)| edit).collect();
            edits.sort();
            if edits != all {
                return wrong(format!("edits {all:?} were committed, {edits:?} handed out"));
            }
        }
        match all.windows(2).find(|pair| pair[0] == pair[1]) {
            Some(pair) => wrong(format!("edit {} came in twice", pair[0])),
            None => Ok(()),
        }
    }
}

impl Told {
    /// Nothing told before is taken back. An edit that was taken may be gone only where its owner has a no-op.
    fn has_all_of(&self, before: &Told) -> Result<()> {
        for (key, what) in &before.facts {
            let [copy, verb, at] = key;
            let lost = [copy.clone(), LOST.into(), at.clone()];
            let is_lost = verb == TOOK && self.facts.contains_key(&lost);
            if self.facts.get(key) != Some(what) && !is_lost {
                return wrong(format!("copy {copy} {verb} {at} {what}: taken back"));
            }
        }
        let kept = |(copy, order): (&String, &Vec<String>)| {
            self.orders.get(copy).map_or(&[][..], Vec::as_slice).starts_with(order)
        };
        match before.orders.iter().all(kept) {
            true => Ok(()),
            false => wrong(format!("the order was {:?} and is {:?}", before.orders, self.orders)),
        }
    }
}

/// The cell or cells and the edit of what was taken or committed. A no-op is of no cell.
fn edit_in(what: &str) -> Option<(&str, &str)> {
    let mut words = what.split(' ');
    let (cell, edit) = (words.nth(1)?, words.nth(1)?);
    (cell != "0").then_some((cell, edit))
}

/// Of two orders one begins with the other: it goes on where that ends.
fn longer<T: PartialEq + fmt::Debug>(longest: &mut Vec<T>, order: Vec<T>) -> Result<()> {
    if order.starts_with(longest) {
        *longest = order;
        return Ok(());
    }
    match longest.starts_with(&order) {
        true => Ok(()),
        false => wrong(format!("two orders, {longest:?} and {order:?}")),
    }
}
