//! Numbered jobs over all processors; the calls are pure, so that a job depends on its number alone.

use std::sync::atomic::{AtomicBool, AtomicU64, Ordering};
use std::sync::Mutex;

/// Does the jobs `0..count`, each thread with a state of its own, and hands the states back. A failure stops all.
pub fn over_all<State: Send, Failure: Send>(
    count: u64,
    start: impl Fn() -> State + Sync,
    job: impl Fn(&mut State, u64) -> Result<(), Failure> + Sync,
) -> Result<Vec<State>, Failure> {
    let (next, stop) = (AtomicU64::new(0), AtomicBool::new(false));
    let (states, failure) = (Mutex::new(Vec::new()), Mutex::new(None));
    let work = || {
        let mut state = start();
        while !stop.load(Ordering::Relaxed) {
            let number = next.fetch_add(1, Ordering::Relaxed);
            if number >= count {
                break;
            }
            if let Err(wrong) = job(&mut state, number) {
                stop.store(true, Ordering::Relaxed);
                failure.lock().expect("no thread panicked").get_or_insert(wrong);
            }
        }
        states.lock().expect("no thread panicked").push(state);
    };
    let threads = std::thread::available_parallelism().map_or(1, |n| n.get());
    std::thread::scope(|scope| {
        for _ in 0..threads {
            scope.spawn(work);
        }
    });
    match failure.into_inner().expect("no thread panicked") {
        Some(wrong) => Err(wrong),
        None => Ok(states.into_inner().expect("no thread panicked")),
    }
}
