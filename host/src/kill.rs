//! Kills a working host from outside, at random moments, and starts it again on the same files: nothing that it told as
//! saved may ever be taken back, and no order may change. A log that is full is followed by one in a new folder.

use crate::facts::{CUT_OFF, FULL, READY};
use crate::kept::Kept;
use crate::network::Random;
use crate::store::{Disk, Store};
use std::io::{BufRead, BufReader, Result};
use std::os::unix::process::ExitStatusExt;
use std::path::Path;
use std::process::{Child, ChildStdout, Command, Stdio};
use std::thread::sleep;
use std::time::Duration;

/// So many kills are sure to fall inside an entry.
const SURE: usize = 100;
const SIGKILL: i32 = 9;

#[derive(Default)]
struct Count {
    kills: usize,
    /// Starts that found a rest to cut off.
    rests: usize,
    logs: usize,
    /// Lines heard.
    lines: usize,
}

/// Whether nothing was taken back, and moments fell inside entries too. The last life is not killed and fills its log, so
/// that the last kill is judged as well.
pub fn run(folder: &Path, times: usize, seed: u64) -> Result<bool> {
    Disk { folder: folder.to_path_buf(), slow: true }.make()?;
    let (mut random, mut count, mut kept) = (Random::new(seed), Count::default(), Kept::default());
    let mut is_full = false;
    while !is_full || count.kills < times {
        let log = folder.join(format!("log-{}", count.logs + 1));
        let mut life = Life::start(&log, random.below(u64::MAX))?;
        let ended = match count.kills < times {
            true => life.kill(&mut random, &mut kept, &mut count),
            false => Ok(()),
        };
        is_full = ended.and_then(|()| life.end(&mut kept, &mut count)).map_err(|wrong| {
            Store::bad(format!("{wrong}, after {} kills in {}", count.kills, log.display()))
        })?;
        if is_full {
            kept = Kept::default();
            count.logs += 1;
        }
    }
    let Count { kills, rests, logs, lines } = count;
    println!("{lines} lines heard, {logs} logs filled");
    println!("{kills} kills, {rests} of them inside an entry: nothing told was taken back");
    Ok(times < SURE || rests > 0)
}

/// One life of a working host.
struct Life {
    child: Child,
    lines: BufReader<ChildStdout>,
}

/// Also where something was wrong: nobody hears it any more.
impl Drop for Life {
    fn drop(&mut self) {
        // Both fail only where it has ended.
        let _ = self.child.kill();
        let _ = self.child.wait();
    }
}

impl Life {
    fn start(log: &Path, seed: u64) -> Result<Life> {
        let mut child = Command::new(std::env::current_exe()?)
            .arg("work")
            .arg(log)
            .arg(seed.to_string())
            .stdout(Stdio::piped())
            .spawn()?;
        let lines = BufReader::new(child.stdout.take().expect("it is piped"));
        Ok(Life { child, lines })
    }

    /// Kills it at some moment; one life in eight while it starts. It may have ended before.
    fn kill(&mut self, random: &mut Random, kept: &mut Kept, count: &mut Count) -> Result<()> {
        if random.below(8) > 0 {
            self.hear_until(READY, usize::MAX, kept, count)?;
            self.hear_until(FULL, random.below(25) as usize, kept, count)?;
        }
        sleep(Duration::from_micros(random.below(2000)));
        self.child.kill()
    }

    /// Hears the rest of what it told; whether it ended by itself, with a full log.
    fn end(mut self, kept: &mut Kept, count: &mut Count) -> Result<bool> {
        self.hear_until(FULL, usize::MAX, kept, count)?;
        let status = self.child.wait()?;
        kept.end_life()?;
        match (status.signal(), status.success()) {
            (Some(SIGKILL), _) => count.kills += 1,
            (_, true) => kept.end_log()?,
            _ => return Err(Store::bad(format!("the host ended by itself: {status}"))),
        }
        Ok(status.success())
    }

    /// Hears lines, at most so many, up to this one or to the end of all.
    fn hear_until(
        &mut self,
        last: &str,
        most: usize,
        kept: &mut Kept,
        count: &mut Count,
    ) -> Result<()> {
        let mut line = String::new();
        for _ in 0..most {
            line.clear();
            // A line without its end was not told.
            if self.lines.read_line(&mut line)? == 0 || !line.ends_with('\n') {
                break;
            }
            let words: Vec<&str> = line.split_whitespace().collect();
            count.rests += words.contains(&CUT_OFF) as usize;
            count.lines += 1;
            kept.hear(&words)?;
            if words == [last] {
                break;
            }
        }
        Ok(())
    }
}
