//! Three copies, the network between them, and the client that asks them for edits.

use crate::end::End;
use crate::facts::Facts;
use crate::network::{Link, Network};
use crate::site::{Moment, Outcome, Site};
use crate::store::Disk;
use pumxaqert::{Command, Instance, Op, Refusal, Settling, Setup};
use std::io::Result;

pub const COPIES: usize = 3;
pub const NUMBERS: usize = 8;
pub const CELLS: [u32; 2] = [7, 9];

/// What the client asks for: writes of the two cells in turn, and every fourth edit moves a pin from one to the other.
pub fn wish(edit: u64) -> Command {
    match edit % 4 {
        0 => Command::rewire(CELLS[0], CELLS[1], edit),
        _ => Command::write(CELLS[edit as usize % 2], edit),
    }
}

/// The cells that it changes, as one word; a no-op's is 0.
pub fn cells(command: &Command) -> String {
    match command.op {
        Op::Rewire => format!("{},{}", command.key, command.second),
        _ => command.key.to_string(),
    }
}

/// What is told while the copies work.
pub enum Voice {
    /// What happens, to people.
    Story,
    /// What is saved, to the program that kills this one.
    Facts(Facts),
}

pub struct Host {
    pub sites: Vec<Site>,
    pub network: Network,
    /// Edits that no copy has taken yet.
    wanted: Vec<Command>,
    /// The instance that each taken edit was given.
    pub taken: Vec<(Instance, Command)>,
    /// How many messages came to a copy.
    pub heard: usize,
    pub cuts: usize,
    voice: Voice,
}

impl Host {
    /// The copies begin with their files; of the edits 1 to `edits`, those that an earlier life took are not asked for
    /// again. What was in flight then is lost as any message may be.
    pub fn start(disk: &Disk, edits: u64, seed: u64, voice: Voice) -> Result<Host> {
        disk.make()?;
        let start = |copy| Site::start(disk, Setup { n: COPIES, s: NUMBERS, copy });
        let sites = (0..COPIES).map(start).collect::<Result<Vec<Site>>>()?;
        let taken = taken(&sites);
        let is_new = |command: &Command| taken.iter().all(|(_, other)| other != command);
        let wanted = (1..=edits).rev().map(wish).filter(is_new).collect();
        let network = Network::new(seed);
        Ok(Host { sites, network, wanted, taken, heard: 0, cuts: 0, voice })
    }

    pub fn step(&mut self) -> Result<()> {
        let copy = self.network.below(COPIES as u64) as usize;
        match self.network.below(10) {
            0 | 1 if !self.wanted.is_empty() => self.request(copy),
            2 => self.hand_out(copy),
            _ => match self.network.deliver() {
                Some((link, piece)) => self.arrive(link, &piece),
                None => self.push(copy),
            },
        }
    }

    fn say(&self, line: String) {
        if let Voice::Story = self.voice {
            println!("{line}");
        }
    }

    /// Once all that the copy's table says is in its files.
    pub fn tell_saved(&mut self, copy: usize) {
        if let Voice::Facts(facts) = &mut self.voice {
            facts.tell_new(&self.sites[copy]);
        }
    }

    /// The client asks again where it got no answer: an edit that was cut off before its entry was whole was not taken.
    fn request(&mut self, copy: usize) -> Result<()> {
        let Some(command) = self.wanted.pop() else { return Ok(()) };
        let moment = self.sites[copy].cut;
        match self.sites[copy].event(|s, table, out| s.request(table, out, command))? {
            Outcome::Answered(event, bytes) => {
                let (Instance { owner, number }, edit) = (event.instance, command.edit);
                let cells = cells(&command);
                self.say(format!(
                    "copy {copy} takes edit {edit} of cell {cells} as {owner}.{number}"
                ));
                self.taken.push((event.instance, command));
                self.tell_saved(copy);
                self.network.send(copy, &bytes);
            }
            Outcome::Refused(Refusal::NoBlank) => self.wanted.push(command),
            Outcome::Refused(refusal) => {
                self.say(format!("edit {} is refused: {refusal}", command.edit))
            }
            Outcome::Cut => {
                self.account(copy, moment);
                self.asked_again(copy, command);
            }
        }
        Ok(())
    }

    /// After a cut the files say whether the edit was taken.
    fn asked_again(&mut self, copy: usize, command: Command) {
        let (site, edit) = (&self.sites[copy], command.edit);
        match site.row(copy).find(|&at| site.edit(at) == Some(command)) {
            Some(at) => {
                self.say(format!("  its files have edit {edit} as {}.{}", at.owner, at.number));
                self.taken.push((at, command));
            }
            None => {
                self.say(format!("  its files do not have edit {edit}: it is asked for again"));
                self.wanted.push(command);
            }
        }
    }

    /// Where a no-op was agreed on instead, the edit lost, and the client asks again.
    fn ask_for_lost(&mut self, copy: usize) {
        let site = &self.sites[copy];
        let lost = |&(at, _): &(Instance, Command)| {
            matches!(site.settled(at), Some(Settling::Settled(Command { op: Op::NoOp, .. })))
        };
        if let Some(place) = self.taken.iter().position(lost) {
            let (Instance { owner, number }, command) = self.taken.remove(place);
            let edit = command.edit;
            self.say(format!("{owner}.{number} became a no-op: edit {edit} is asked for again"));
            self.wanted.push(command);
        }
    }

    /// Bytes came in on a link: each message that they complete is an event, in its order. A stop leaves nothing to be
    /// read from the link, so that it is dropped; the messages lost with it are lost as any may be.
    fn arrive(&mut self, link: Link, piece: &[u8]) -> Result<()> {
        let (from, to) = link;
        let (messages, stop) = self.sites[to].ends[from].arrive(piece);
        let cuts = self.cuts;
        for message in messages {
            self.hear(to, &message)?;
            if self.cuts > cuts {
                // Its memory is gone, and with it the messages that it had not come to.
                return Ok(());
            }
        }
        if let Some(stop) = stop {
            self.say(format!("copy {to} drops the link from copy {from}: {stop}"));
            self.drop_link(link);
        }
        Ok(())
    }

    fn hear(&mut self, copy: usize, message: &[u8]) -> Result<()> {
        self.heard += 1;
        let moment = self.sites[copy].cut;
        let outcome = self.sites[copy].event(|s, table, out| s.message(table, out, message))?;
        self.after(copy, moment, outcome);
        Ok(())
    }

    /// What is on the link is lost, and its receiving end begins with the new one's first byte.
    fn drop_link(&mut self, link: Link) {
        let (from, to) = link;
        self.network.drop_link(link);
        self.sites[to].ends[from] = End::begin();
    }

    /// Nothing is in flight: the first taken edit that is not settled here is pushed on.
    fn push(&mut self, copy: usize) -> Result<()> {
        let site = &self.sites[copy];
        let waits = self.taken.iter().find_map(|&(at, _)| match site.settled(at) {
            Some(Settling::Waits(first)) => Some(first),
            _ => None,
        });
        let Some(at) = waits else { return self.spread(copy) };
        let moment = site.cut;
        let site = &mut self.sites[copy];
        let mut outcome = site.event(|s, table, out| s.nudge(table, out, at))?;
        if let Outcome::Refused(Refusal::NudgeIdle) = outcome {
            outcome = site.event(|s, table, out| s.recover(table, out, at))?;
        }
        self.after(copy, moment, outcome);
        Ok(())
    }

    /// All is settled here: another copy may have missed a Commit.
    fn spread(&mut self, copy: usize) -> Result<()> {
        let Some(&(at, _)) = self.taken.iter().find(|(at, _)| !self.settled_everywhere(*at)) else {
            return Ok(());
        };
        let moment = self.sites[copy].cut;
        let outcome = self.sites[copy].event(|s, table, out| s.nudge(table, out, at))?;
        self.after(copy, moment, outcome);
        Ok(())
    }

    fn after(&mut self, copy: usize, moment: Option<Moment>, outcome: Outcome) {
        match outcome {
            Outcome::Answered(_, bytes) => {
                self.tell_saved(copy);
                self.network.send(copy, &bytes);
            }
            Outcome::Refused(refusal) => self.say(format!("copy {copy} refuses: {refusal}")),
            Outcome::Cut => self.account(copy, moment),
        }
    }

    pub fn hand_out(&mut self, copy: usize) -> Result<()> {
        self.ask_for_lost(copy);
        let moment = self.sites[copy].cut;
        match self.sites[copy].hand_out()? {
            true => self.tell_saved(copy),
            false => self.account(copy, moment),
        }
        Ok(())
    }

    fn account(&mut self, copy: usize, moment: Option<Moment>) {
        self.cuts += 1;
        let words = moment.map_or("unasked".into(), |moment| moment.to_string());
        self.say(format!("copy {copy} is cut off {words}, and starts again from its files"));
        let rest = self.sites[copy].rest;
        if rest > 0 {
            self.say(format!("  bytes of a rest that are cut off its journal: {rest}"));
        }
        for other in 0..COPIES {
            self.drop_link((copy, other));
            self.drop_link((other, copy));
        }
    }

    pub fn settled_everywhere(&self, at: Instance) -> bool {
        self.sites.iter().all(|site| matches!(site.settled(at), Some(Settling::Settled(_))))
    }
}

/// What the files have as taken: the edit is in its owner's record, and no copy knows that a no-op was agreed on instead.
/// An owner that has a no-op voted for it after two others had heard of nothing; of three copies, none has the edit then.
fn taken(sites: &[Site]) -> Vec<(Instance, Command)> {
    let is_lost = |at| {
        let no_op = |site: &Site| matches!(site.committed(at), Some((c, _)) if c.op == Op::NoOp);
        sites.iter().any(no_op)
    };
    let of_copy = |site: &Site| {
        let with_edit = |at| Some((at, site.edit(at)?));
        site.row(site.setup.copy).filter_map(with_edit).collect::<Vec<_>>()
    };
    sites.iter().flat_map(of_copy).filter(|&(at, _)| !is_lost(at)).collect()
}
