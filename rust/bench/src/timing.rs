//! How time is taken.

use std::time::{Duration, Instant};

use crate::calls::Repeated;
use crate::world::World;

/// How long a batch of one program lasts, and how many of each there are.
pub const BATCH: Duration = Duration::from_micros(15);
pub const ROUNDS: usize = 1500;

/// A program that is timed beside others, and its name in the output.
pub struct Contender {
    pub name: &'static str,
    pub program: Repeated,
}

impl Contender {
    fn time(&mut self, world: &mut World, count: usize) -> Duration {
        let began = Instant::now();
        (self.program)(world, count);
        began.elapsed()
    }

    /// How many calls fill a batch.
    fn batch_size(&mut self, world: &mut World) -> usize {
        let mut count = 1;
        while self.time(world, count) < BATCH {
            count *= 2;
        }
        count
    }
}

/// The best time of one call of each, in nanoseconds.
pub fn best_times(contenders: &mut [Contender], world: &mut World) -> Vec<f64> {
    let counts: Vec<usize> = contenders
        .iter_mut()
        .map(|contender| contender.batch_size(world))
        .collect();
    let mut best = vec![f64::INFINITY; contenders.len()];
    for _ in 0..ROUNDS {
        for (i, contender) in contenders.iter_mut().enumerate() {
            let time = contender.time(world, counts[i]).as_secs_f64() * 1e9;
            best[i] = best[i].min(time / counts[i] as f64);
        }
    }
    best
}
