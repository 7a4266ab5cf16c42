//! A run that ends, told to people: the copies are cut off at every bad moment, and go on.

use crate::host::{wish, Host, Voice, CELLS, COPIES};
use crate::site::{Moment, Site};
use crate::store::Disk;
use pumxaqert::{Command, Instance, Op, Settling};
use std::io::Result;
use std::path::Path;

const EDITS: u64 = 12;
/// Far more than a run takes.
const STEPS: usize = 5000;

/// After so many steps this copy is cut off at its next such moment.
const CUTS: [(usize, usize, Moment); 12] = [
    (3, 0, Moment::BeforeEntry),
    (12, 1, Moment::BetweenEntryAndSending),
    (20, 2, Moment::InsideEntry(1)),
    (35, 0, Moment::BetweenEntryAndSending),
    (50, 1, Moment::BeforeEntry),
    (60, 2, Moment::BetweenTwoMarks),
    (80, 0, Moment::InsideEntry(133)),
    (90, 1, Moment::InsideMark(1)),
    (100, 1, Moment::InsideEntry(usize::MAX)),
    (110, 0, Moment::BeforeNewTable),
    (120, 1, Moment::AfterNewTable),
    (130, 2, Moment::InsideMark(3)),
];

/// Whether all copies agree in the end. In a folder that an earlier life left, the copies go on where it was cut off;
/// this life is not cut off then.
pub fn run(folder: &Path, seed: u64) -> Result<bool> {
    let disk = Disk { folder: folder.to_path_buf(), slow: false };
    let mut host = Host::start(&disk, EDITS, seed, Voice::Story)?;
    println!("{COPIES} copies, {EDITS} edits of cells {CELLS:?}, seed {seed}");
    let mut due = CUTS.to_vec();
    if !host.taken.is_empty() {
        let mut edits: Vec<u64> = host.taken.iter().map(|(_, command)| command.edit).collect();
        edits.sort();
        println!("an earlier life took edits {edits:?}");
        due.clear();
    }
    for step in 0..STEPS {
        give_cuts(&mut due, step, &mut host.sites);
        host.step()?;
        let to_come = !due.is_empty() || host.sites.iter().any(|site| site.cut.is_some());
        if all_settled(&host) && !to_come {
            break;
        }
    }
    let Host { heard, cuts, network, sites, .. } = &host;
    let (pieces, lost) = (network.pieces, network.lost);
    println!("{heard} messages heard in {pieces} pieces, {lost} lost, {cuts} cuts");
    let begun: u64 = sites.iter().map(Site::begun_anew).sum();
    println!("journals begun anew: {begun}");
    judge(&mut host, &disk)
}

/// A site has one cut before it at a time.
fn give_cuts(due: &mut Vec<(usize, usize, Moment)>, step: usize, sites: &mut [Site]) {
    due.retain(|&(from, copy, moment)| {
        let waits = step < from || sites[copy].cut.is_some();
        if !waits {
            sites[copy].cut = Some(moment);
        }
        waits
    });
}

/// Every edit has come through, at every copy.
fn all_settled(host: &Host) -> bool {
    let through = |&(at, command): &(Instance, _)| {
        host.sites.iter().all(|site| site.settled(at) == Some(Settling::Settled(command)))
    };
    host.taken.len() == EDITS as usize && host.taken.iter().all(through)
}

/// The edits of each cell as each copy's files have them; whether all copies agree and none is missing.
fn judge(host: &mut Host, disk: &Disk) -> Result<bool> {
    for site in &mut host.sites {
        // Twice: the first may still be cut off.
        site.hand_out()?;
        site.hand_out()?;
        *site = Site::start(disk, site.setup)?;
    }
    let mut good = true;
    for cell in CELLS {
        let orders: Vec<Vec<u64>> = host.sites.iter().map(|site| edits(site, cell)).collect();
        for (copy, edits) in orders.iter().enumerate() {
            println!("cell {cell} at copy {copy}: edits {edits:?}");
        }
        let mut all = orders[0].clone();
        all.sort();
        let asked: Vec<u64> = (1..=EDITS).filter(|&edit| changes(&wish(edit), cell)).collect();
        good &= all == asked && orders.iter().all(|order| *order == orders[0]);
    }
    let words = if good { "all copies agree" } else { "THE COPIES DIFFER, or an edit is missing" };
    println!("{words}");
    Ok(good)
}

fn edits(site: &Site, cell: u32) -> Vec<u64> {
    let commands = site.order().iter().filter_map(|&at| site.edit(at));
    commands.filter(|command| changes(command, cell)).map(|command| command.edit).collect()
}

fn changes(command: &Command, cell: u32) -> bool {
    command.key == cell || (command.op == Op::Rewire && command.second == cell)
}
