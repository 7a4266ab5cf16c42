//! waits COUNT [SEED [READS]]: of what so many random runs commit, how much waits for something else: by the
//! interference of document 01 at all copies, and with the same seeds by that of 4/12; a rewire has two keys in both. The
//! second program works alone, on one key to three, and rewires one more; of a hundred requests READS are reads (50 if left
//! out). Run i has the seed SEED + i (SEED is 1 if left out).
//!
//! An instance waits if its committed dependencies cover another one: before that is committed too, no copy hands it
//! out. No-ops are left out; nobody asked for them.

use compare::both::Sides;
use compare::demand::Chosen;
use compare::places::{Place, Places};
use compare::{threads, world};
use second::rules::{covers, NO_OP, READ, REWIRE};
use std::process::ExitCode;

/// Instances that were committed, and those of them that wait.
#[derive(Clone, Copy, Default)]
struct Count {
    committed: u64,
    waiting: u64,
}

impl Count {
    fn add(&mut self, other: Count) {
        self.committed += other.committed;
        self.waiting += other.waiting;
    }

    fn percent(self) -> f64 {
        100.0 * self.waiting as f64 / self.committed as f64
    }
}

/// By one interference.
#[derive(Default)]
struct Tally {
    reads: Count,
    writes: Count,
    rewires: Count,
    places: Places,
}

impl Tally {
    fn take(&mut self, chosen: &[Chosen]) {
        for &(o, j, command, deps) in chosen.iter().filter(|its| its.2.op != NO_OP) {
            let other = |p: usize| (1..=deps[p] as usize).any(|i| covers(&deps, o, j, p, i));
            let waits = (0..deps.len()).any(other);
            let count = match command.op {
                READ => &mut self.reads,
                REWIRE => &mut self.rewires,
                _ => &mut self.writes,
            };
            count.add(Count { committed: 1, waiting: waits as u64 });
        }
    }

    fn add(&mut self, other: &Tally) {
        self.reads.add(other.reads);
        self.writes.add(other.writes);
        self.rewires.add(other.rewires);
        self.places.add(&other.places);
    }

    fn all(&self) -> Count {
        let mut all = self.reads;
        all.add(self.writes);
        all.add(self.rewires);
        all
    }

    fn print(&self, name: &str) {
        println!("{name}");
        let Tally { reads, writes, rewires, .. } = *self;
        let kinds = [("reads", reads), ("writes", writes), ("rewires", rewires)];
        for (what, count) in [("instances", self.all())].into_iter().chain(kinds) {
            let Count { committed, waiting } = count;
            println!("{committed:>12}  {what} committed");
            println!("{waiting:>12}  of them wait ({:.1} percent)", count.percent());
        }
        let reached = |place| self.places.reached(place);
        let slow = reached(Place::SlowDiffering) + reached(Place::SlowAll);
        println!("{:>12}  fast commits", reached(Place::FastCommit));
        println!("{slow:>12}  times replies at ballot 0 led to accepting");
    }
}

/// The run of this seed by either interference.
fn one_seed(tallies: &mut [Tally; 2], seed: u64, reads: usize) -> Result<(), String> {
    for (tally, sides) in tallies.iter_mut().zip([Sides::SecondWide, Sides::Second]) {
        let chosen = world::chosen(seed, sides, reads, &mut tally.places)
            .map_err(|(step, wrong)| format!("seed {seed}, step {step}: {wrong}"))?;
        tally.take(&chosen);
    }
    Ok(())
}

fn main() -> ExitCode {
    let words: Vec<u64> = std::env::args().skip(1).filter_map(|word| word.parse().ok()).collect();
    let Some(&count) = words.first() else {
        eprintln!("usage: waits COUNT [SEED [READS]]");
        return ExitCode::from(2);
    };
    let seed = words.get(1).copied().unwrap_or(1);
    let reads = words.get(2).map_or(50, |&reads| reads as usize);
    let job = |tallies: &mut [Tally; 2], i: u64| one_seed(tallies, seed.wrapping_add(i), reads);
    let states = match threads::over_all(count, Default::default, job) {
        Ok(states) => states,
        Err(wrong) => {
            println!("{wrong}");
            return ExitCode::FAILURE;
        }
    };
    let mut tallies: [Tally; 2] = Default::default();
    for state in &states {
        tallies.iter_mut().zip(state).for_each(|(all, its)| all.add(its));
    }
    let [before, after] = &tallies;
    before.print("by document 01");
    after.print("by 4/12");
    let [was, is] = [before, after].map(|tally| tally.all().percent());
    println!("{count} runs: of the committed instances {was:.1} percent wait by document 01, {is:.1} by 4/12");
    ExitCode::SUCCESS
}
