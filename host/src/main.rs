//! Three copies in files of a folder take edits of two cells over a bad network, are cut off at every bad moment, and go
//! on; in the end all must have handed out the edits of each cell in the same order.
//!
//!     host FOLDER [SEED]              one run, told; on the folder that an earlier one left, it goes on from there
//!     host kill FOLDER TIMES [SEED]   kills a working host so many times, and holds each life to what was told as saved
//!     host work FOLDER SEED           what is killed
//!     host bring-over OLD-FILE N S C NEW-FILE
//!                                     copy C's table from before there was a second key, as one of today's

mod earlier;
mod end;
mod facts;
mod host;
mod kept;
mod kill;
mod network;
mod site;
mod store;
mod story;
#[cfg(test)]
mod tests;
mod work;

use pumxaqert::Setup;
use std::io::Result;
use std::path::Path;
use std::process::ExitCode;

const SEED: u64 = 1;
const USAGE: &str = "usage: host FOLDER [SEED]; host kill FOLDER TIMES [SEED]; \
                     host bring-over OLD-FILE N S C NEW-FILE";

fn main() -> ExitCode {
    let words: Vec<String> = std::env::args().skip(1).collect();
    match run(&words.iter().map(String::as_str).collect::<Vec<_>>()) {
        None => {
            eprintln!("{USAGE}");
            ExitCode::from(2)
        }
        Some(Ok(true)) => ExitCode::SUCCESS,
        Some(Ok(false)) => ExitCode::FAILURE,
        Some(Err(wrong)) => {
            eprintln!("host: {wrong}");
            ExitCode::FAILURE
        }
    }
}

/// Whether all went well; none for words that say nothing.
fn run(words: &[&str]) -> Option<Result<bool>> {
    Some(match *words {
        ["kill", folder, times] => kill::run(Path::new(folder), times.parse().ok()?, SEED),
        ["kill", folder, times, seed] => {
            kill::run(Path::new(folder), times.parse().ok()?, seed.parse().ok()?)
        }
        ["work", folder, seed] => work::run(Path::new(folder), seed.parse().ok()?),
        ["bring-over", old, n, s, copy, new] => {
            let [n, s, copy] = [n, s, copy].map(|word| word.parse().ok());
            earlier::run(Path::new(old), Setup { n: n?, s: s?, copy: copy? }, Path::new(new))
        }
        [folder] => story::run(Path::new(folder), SEED),
        [folder, seed] => story::run(Path::new(folder), seed.parse().ok()?),
        _ => return None,
    })
}
