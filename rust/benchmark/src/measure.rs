//! Interleaved repetitions of two sides, and their medians.

use std::time::{Duration, Instant};

const REPETITIONS: usize = 9;
/// A repetition calls a quick side as often as this takes.
const REPETITION: Duration = Duration::from_millis(10);
/// A slow pair is repeated less often, but at least once.
const BUDGET: Duration = Duration::from_secs(6);

/// The median time of one call on each side.
pub struct Pair {
    pub library: Duration,
    pub independent: Duration,
}

impl Pair {
    /// How many times as long the library takes.
    pub fn ratio(&self) -> f64 {
        self.library.as_secs_f64() / self.independent.as_secs_f64().max(1e-9)
    }
}

/// Measures both sides in turn, so that a disturbance of the machine meets both.
pub fn pair(mut library: impl FnMut(), mut independent: impl FnMut()) -> Pair {
    let start = Instant::now();
    // The first calls warm up and tell how many make a repetition.
    let calls = [calls_for(time(1, &mut library)), calls_for(time(1, &mut independent))];
    let (mut libraries, mut independents) = (Vec::new(), Vec::new());
    while libraries.is_empty() || (libraries.len() < REPETITIONS && start.elapsed() < BUDGET) {
        libraries.push(time(calls[0], &mut library) / calls[0]);
        independents.push(time(calls[1], &mut independent) / calls[1]);
    }
    Pair { library: median(libraries), independent: median(independents) }
}

fn time(calls: u32, side: &mut impl FnMut()) -> Duration {
    let start = Instant::now();
    for _ in 0..calls {
        side();
    }
    start.elapsed()
}

fn calls_for(one: Duration) -> u32 {
    (REPETITION.as_nanos() / one.as_nanos().max(1)).clamp(1, 10_000) as u32
}

fn median(mut times: Vec<Duration>) -> Duration {
    times.sort_unstable();
    times[times.len() / 2]
}

#[cfg(test)]
mod tests {
    use super::*;

    #[test]
    fn the_median_is_the_middle() {
        let times = [5, 1, 9, 3, 7].map(Duration::from_millis).to_vec();
        assert_eq!(median(times), Duration::from_millis(5));
    }

    #[test]
    fn both_sides_are_called() {
        let (mut one, mut other) = (0, 0);
        pair(|| one += 1, || other += 1);
        assert!(one > REPETITIONS && other > REPETITIONS);
    }
}
