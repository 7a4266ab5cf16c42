//! What is killed from outside: the copies work until no room is left, and tell what is saved.

use crate::facts::{Facts, CUT_OFF, FULL, READY};
use crate::host::{Host, Voice, COPIES, NUMBERS};
use crate::site::Site;
use crate::store::Disk;
use std::io::Result;
use std::path::Path;

pub fn run(folder: &Path, seed: u64) -> Result<bool> {
    let disk = Disk { folder: folder.to_path_buf(), slow: true };
    // As many edits as there are instances; not all come in, where some of these became no-ops.
    let edits = (COPIES * NUMBERS) as u64;
    let mut host = Host::start(&disk, edits, seed, Voice::Facts(Facts::default()))?;
    for copy in 0..COPIES {
        let rest = host.sites[copy].rest;
        if rest > 0 {
            println!("copy {copy} {CUT_OFF} {rest}");
        }
        host.tell_saved(copy);
    }
    println!("{READY}");
    while !all_through(&host) {
        host.step()?;
    }
    for copy in 0..COPIES {
        host.hand_out(copy)?;
    }
    println!("{FULL}");
    Ok(true)
}

fn all_through(host: &Host) -> bool {
    host.sites.iter().all(Site::is_full)
        && host.taken.iter().all(|&(at, _)| host.settled_everywhere(at))
}
