//! runs COUNT [SEED]: so many random runs on both sides; run i has the seed SEED + i (SEED is 1 if left out).
//! runs COUNT SEED only: the same, and it does not matter which places are reached.
//! runs COUNT SEED alone: the library stands on both sides, so that only demand 3 can fail.
//! runs COUNT SEED mixed: the second program stands on both sides, its copies by the interference of document 01 or by
//! that of 4/12, and go over at random; demand 3 is watched by that of 4/12.
//!
//! A difference, or a break of demand 3, prints the run's seed and step and what differed.

use compare::both::Sides;
use compare::places::Places;
use compare::{threads, world};
use std::process::ExitCode;
use std::time::Instant;

fn one(word: &str, seed: u64, places: &mut Places) -> Result<(), (usize, String)> {
    match word {
        "mixed" => world::mixed(seed, places),
        "alone" => world::run(seed, Sides::Library, places),
        _ => world::run(seed, Sides::Compared, places),
    }
}

fn main() -> ExitCode {
    let words: Vec<String> = std::env::args().skip(1).collect();
    let number = |at: usize, left_out: Option<u64>| match words.get(at) {
        Some(word) => word.parse().ok(),
        None => left_out,
    };
    let (Some(count), Some(seed)) = (number(0, None), number(1, Some(1))) else {
        eprintln!("usage: runs COUNT [SEED [only | alone | mixed]]");
        return ExitCode::from(2);
    };
    let word = words.get(2).map_or("only", String::as_str);
    let begun = Instant::now();
    let job = |places: &mut Places, i: u64| {
        let seed = seed.wrapping_add(i);
        one(word, seed, places).map_err(|(step, wrong)| (seed, step, wrong))
    };
    let states = match threads::over_all(count, Places::default, job) {
        Ok(states) => states,
        Err((seed, step, wrong)) => {
            println!("seed {seed}, step {step}: {wrong}\nagain: runs 1 {seed} {word}");
            return ExitCode::FAILURE;
        }
    };
    let mut places = Places::default();
    states.iter().for_each(|state| places.add(state));
    places.print();
    eprintln!("{:.1} seconds", begun.elapsed().as_secs_f64());
    let missing = places.missing();
    if !missing.is_empty() && words.len() < 3 {
        println!("never reached: {}", missing.join("; "));
        return ExitCode::FAILURE;
    }
    match word {
        "mixed" => println!("{count} mixed runs: demand 3 held"),
        _ => println!("{count} runs: no difference, and demand 3 held"),
    }
    ExitCode::SUCCESS
}
