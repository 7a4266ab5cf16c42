//! One site with its copy: hands events in, saves what changed, and only then lets messages go.

use crate::end::End;
use crate::store::{Disk, Store};
use pumxaqert::{
    entries, Body, Command, Deps, EntryKind, Event, Instance, Message, Op, Refusal, Settling,
    Setup, ROOM,
};
use std::fmt;
use std::io::Result;

/// When a site is cut off.
#[derive(Clone, Copy, Debug, PartialEq, Eq)]
pub enum Moment {
    BeforeEntry,
    /// After so many bytes of it; at most all but one.
    InsideEntry(usize),
    BetweenEntryAndSending,
    BetweenTwoMarks,
    /// After so many bytes of a hand-out's last one.
    InsideMark(usize),
    BeforeNewTable,
    AfterNewTable,
}

impl fmt::Display for Moment {
    fn fmt(&self, f: &mut fmt::Formatter) -> fmt::Result {
        f.write_str(match self {
            Moment::BeforeEntry => "before an entry",
            Moment::InsideEntry(_) => "inside an entry",
            Moment::BetweenEntryAndSending => "between an entry and the sending",
            Moment::BetweenTwoMarks => "between two marks",
            Moment::InsideMark(_) => "inside a mark's entry",
            Moment::BeforeNewTable => "while its journal is begun anew, before the new one counts",
            Moment::AfterNewTable => "while its journal is begun anew, once the new one counts",
        })
    }
}

pub enum Outcome {
    /// Saved; these bytes may leave.
    Answered(Event, Vec<u8>),
    Refused(Refusal),
    /// Cut off and started again; the event is as the files have it.
    Cut,
}

/// A journal as long as so many tables is begun anew. A real host has a larger number here: this one shall come to it.
const TABLES: usize = 2;
/// No ballot of a run comes near it.
const HIGHEST: u32 = u32::MAX - 7;

pub struct Site {
    pub setup: Setup,
    disk: Disk,
    store: Store,
    table: Vec<u8>,
    /// The table as the files have it, to know what changed by.
    saved: Vec<u8>,
    /// The instances whose marks are saved, in that order.
    order: Vec<Instance>,
    /// How many bytes of the journal were no whole entry when the site started.
    pub rest: usize,
    /// The link from each copy. What they hold of a message is in no file: after a cut their streams begin anew.
    pub ends: Vec<End>,
    /// The next event that comes to this moment is cut off there.
    pub cut: Option<Moment>,
}

impl Site {
    /// Begins with what the files hold: the table that the journal gives is all the state there is.
    pub fn start(disk: &Disk, setup: Setup) -> Result<Site> {
        let length = setup.table_len().ok_or_else(|| Store::bad("no such setup"))?;
        let mut blank = vec![0; length];
        setup.blank(&mut blank).map_err(Store::bad)?;
        let name = format!("copy-{}", setup.copy);
        let (mut store, mut table, journal) = Store::open(disk, &name, &blank)?;
        let end = setup.replay(&mut table, &journal).map_err(Store::bad)?;
        store.cut_off(end)?;
        let marks = entries(&journal).filter(|entry| entry.kind == EntryKind::Mark);
        let order = marks.map(|entry| entry.instance).collect();
        let (disk, rest, saved) = (disk.clone(), journal.len() - end, table.clone());
        let ends = (0..setup.n).map(|_| End::begin()).collect();
        Ok(Site { setup, disk, store, table, saved, order, rest, ends, cut: None })
    }

    fn is_cut(&mut self, moment: Moment) -> Result<bool> {
        if self.cut != Some(moment) {
            return Ok(false);
        }
        *self = Site::start(&self.disk, self.setup)?;
        Ok(true)
    }

    /// One event: call, save, and then the bytes to send.
    pub fn event(
        &mut self,
        call: impl FnOnce(&Setup, &mut [u8], &mut [u8]) -> std::result::Result<Event, Refusal>,
    ) -> Result<Outcome> {
        if self.store.length() > TABLES * self.table.len() && !self.begin_anew()? {
            return Ok(Outcome::Cut);
        }
        let mut out = [0; ROOM];
        let event = match call(&self.setup, &mut self.table, &mut out) {
            Ok(event) => event,
            Err(refusal) => return Ok(Outcome::Refused(refusal)),
        };
        if self.changed(event.instance) && !self.save(event.instance)? {
            return Ok(Outcome::Cut);
        }
        if event.written > 0 && self.is_cut(Moment::BetweenEntryAndSending)? {
            return Ok(Outcome::Cut);
        }
        Ok(Outcome::Answered(event, out[..event.written].to_vec()))
    }

    /// Whether the record is another one than the files have.
    fn changed(&self, at: Instance) -> bool {
        let (start, length) = self.setup.part(&self.table, at);
        let part = start..start + length;
        self.table[part.clone()] != self.saved[part]
    }

    /// The entry of the record, on disk when this returns. False where it was cut off.
    fn save(&mut self, at: Instance) -> Result<bool> {
        if self.is_cut(Moment::BeforeEntry)? {
            return Ok(false);
        }
        let mut entry = vec![0; EntryKind::Record.entry_len()];
        self.setup.record_entry(&self.table, &mut entry, at).map_err(Store::bad)?;
        if let Some(moment @ Moment::InsideEntry(bytes)) = self.cut {
            self.store.append_torn(&entry, bytes.min(entry.len() - 1))?;
            self.is_cut(moment)?;
            return Ok(false);
        }
        self.store.append(&entry)?;
        self.saved.clone_from(&self.table);
        Ok(true)
    }

    /// Hands out all that is ready; the marks are saved in list order. False where it was cut off.
    pub fn hand_out(&mut self) -> Result<bool> {
        let mut list = [0; 64];
        let count = self.setup.hand_out(&mut self.table, &mut list).map_err(Store::bad)?;
        if count == 0 {
            return Ok(true);
        }
        let handed: Vec<Instance> =
            list[..count].iter().map(|&code| Instance::of_code(code)).collect();
        let marks = self.marks(&handed)?;
        let one = EntryKind::Mark.entry_len();
        let torn = match self.cut {
            Some(Moment::BetweenTwoMarks) if count > 1 => Some(one),
            Some(Moment::InsideMark(bytes)) => Some(marks.len() - one + bytes.min(one - 1)),
            _ => None,
        };
        if let (Some(moment), Some(bytes)) = (self.cut, torn) {
            self.store.append_torn(&marks, bytes)?;
            self.is_cut(moment)?;
            return Ok(false);
        }
        self.store.append(&marks)?;
        self.saved.clone_from(&self.table);
        self.order.extend(handed);
        Ok(true)
    }

    /// The entries of these marks.
    fn marks(&self, handed: &[Instance]) -> Result<Vec<u8>> {
        let one = EntryKind::Mark.entry_len();
        let mut marks = vec![0; one * handed.len()];
        for (&at, entry) in handed.iter().zip(marks.chunks_mut(one)) {
            self.setup.mark_entry(&self.table, entry, at).map_err(Store::bad)?;
        }
        Ok(marks)
    }

    /// Begins the journal anew from the table, which is all saved. False where it was cut off.
    fn begin_anew(&mut self) -> Result<bool> {
        self.store.write_next(&self.table, &self.marks(&self.order)?)?;
        if self.is_cut(Moment::BeforeNewTable)? {
            return Ok(false);
        }
        self.store.count_next()?;
        if self.is_cut(Moment::AfterNewTable)? {
            return Ok(false);
        }
        self.store.remove_old()?;
        Ok(true)
    }

    /// How often the journal was begun anew, in all lives.
    pub fn begun_anew(&self) -> u64 {
        self.store.generation() - 1
    }

    pub fn settled(&self, at: Instance) -> Option<Settling> {
        self.setup.settled(&self.table, at).ok()
    }

    /// What this copy has of the instance: what it would answer a Prepare, which a table that is thrown away is asked.
    fn answer(&self, at: Instance) -> Option<Body> {
        let Setup { n, copy, .. } = self.setup;
        let asker = Setup { copy: (copy + 1) % n, ..self.setup };
        let message = Message {
            from: asker.copy as u8,
            to: copy as u8,
            owner: at.owner as u8,
            number: at.number as u16,
            ballot: HIGHEST + asker.copy as u32,
            body: Body::Prepare,
        };
        let (mut table, mut bytes, mut out) = (self.table.clone(), [0; ROOM], [0; ROOM]);
        let length = asker.write_message(&mut bytes, &message).ok()?;
        let event = self.setup.message(&mut table, &mut out, &bytes[..length]).ok()?;
        asker.read_message(&out[..event.written]).ok().map(|message| message.body)
    }

    /// The command that this copy has for the instance, committed or not.
    pub fn command(&self, at: Instance) -> Option<Command> {
        match self.answer(at)? {
            Body::PrepareOk { status: 0, .. } => None,
            Body::Commit { command, .. } | Body::PrepareOk { command, .. } => Some(command),
            _ => None,
        }
    }

    /// The same where it is not a no-op.
    pub fn edit(&self, at: Instance) -> Option<Command> {
        self.command(at).filter(|command| command.op != Op::NoOp)
    }

    pub fn committed(&self, at: Instance) -> Option<(Command, Deps)> {
        match self.answer(at)? {
            Body::Commit { command, deps } => Some((command, deps)),
            _ => None,
        }
    }

    /// The instances of this owner.
    pub fn row(&self, owner: usize) -> impl Iterator<Item = Instance> {
        (1..=self.setup.s).map(move |number| Instance { owner, number })
    }

    /// What the files say was handed out, in order.
    pub fn order(&self) -> &[Instance] {
        &self.order
    }

    /// No place for another edit is left here.
    pub fn is_full(&self) -> bool {
        let (mut table, mut out) = (self.table.clone(), [0; ROOM]);
        let command = Command::write(0, 0);
        self.setup.request(&mut table, &mut out, command) == Err(Refusal::NoBlank)
    }
}
