//! Times as medians of interleaved rounds.

use std::time::{Duration, Instant};

pub struct Rounds {
    pub rounds: usize,
    /// Each function runs about so long in each round.
    pub each: Duration,
}

impl Rounds {
    /// Nanoseconds that one turn of each function takes.
    pub fn medians(&self, functions: &mut [&mut dyn FnMut()]) -> Vec<f64> {
        let turns: Vec<u32> = functions.iter_mut().map(|f| self.turns(*f)).collect();
        let mut times = vec![Vec::new(); functions.len()];
        for _ in 0..self.rounds {
            for (at, f) in functions.iter_mut().enumerate() {
                let begun = Instant::now();
                (0..turns[at]).for_each(|_| f());
                times[at].push(begun.elapsed().as_nanos() as f64 / turns[at] as f64);
            }
        }
        times.iter_mut().map(|times| median(times)).collect()
    }

    /// How many turns fill a round; doing them warms the caches up too.
    fn turns(&self, f: &mut dyn FnMut()) -> u32 {
        let mut turns = 1;
        loop {
            let begun = Instant::now();
            (0..turns).for_each(|_| f());
            if begun.elapsed() >= self.each || turns > 1 << 24 {
                return turns;
            }
            turns *= 2;
        }
    }
}

fn median(times: &mut [f64]) -> f64 {
    times.sort_by(f64::total_cmp);
    times[times.len() / 2]
}
