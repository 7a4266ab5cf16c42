//! What a copy has saved, told line by line, each once in a life and at once: to the program that kills this one and
//! holds the next life to it.

use crate::host::cells;
use crate::site::Site;
use pumxaqert::{Command, Instance, Op, Settling};
use std::collections::BTreeSet;

/// After this line all is told that the files had at the start.
pub const READY: &str = "ready";
/// No copy has room for another edit, and all have come through at all copies.
pub const FULL: &str = "full";

pub const TOOK: &str = "took";
/// The owner has a no-op where it may have taken an edit.
pub const LOST: &str = "lost";
pub const COMMITTED: &str = "committed";
pub const SETTLED: &str = "settled";
pub const HANDED_OUT: &str = "handed-out";
/// How many bytes were no whole entry when the copy started.
pub const CUT_OFF: &str = "cut-off";

#[derive(Default)]
pub struct Facts {
    told: BTreeSet<String>,
}

impl Facts {
    /// What the copy's table says, as far as it was not told before.
    pub fn tell_new(&mut self, site: &Site) {
        let copy = site.setup.copy;
        for at in (0..site.setup.n).flat_map(|owner| site.row(owner)) {
            self.tell_instance(site, at);
        }
        for Instance { owner, number } in site.order() {
            self.tell(format!("copy {copy} {HANDED_OUT} {owner}.{number}"));
        }
    }

    fn tell_instance(&mut self, site: &Site, at: Instance) {
        let (copy, Instance { owner, number }) = (site.setup.copy, at);
        let mut tell =
            |verb, what: String| self.tell(format!("copy {copy} {verb} {owner}.{number} {what}"));
        match site.command(at) {
            Some(Command { op: Op::NoOp, .. }) if copy == owner => tell(LOST, "to a no-op".into()),
            Some(command) if copy == owner => tell(TOOK, content(&command)),
            _ => {}
        }
        if let Some((command, deps)) = site.committed(at) {
            tell(COMMITTED, format!("{} after {deps:?}", content(&command)));
        }
        if let Some(Settling::Settled(command)) = site.settled(at) {
            tell(SETTLED, content(&command));
        }
    }

    /// Standard output writes a line as soon as it ends.
    fn tell(&mut self, line: String) {
        if !self.told.contains(&line) {
            println!("{line}");
            self.told.insert(line);
        }
    }
}

fn content(command: &Command) -> String {
    format!("cell {} edit {}", cells(command), command.edit)
}
