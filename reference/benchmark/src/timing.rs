//! The clock: the implementations take turns over the same jobs, and the median of each one's turns counts.

use crate::implementations::{Call, Implementations, Which};
use crate::jobs::Job;
use crate::places::Places;
use std::hint::black_box;
use std::time::Instant;

pub const REPETITIONS: usize = 61;

/// In this order, and so in the times of a row.
const TURNS: [Which; 4] = [Which::Proved, Which::AllRounds, Which::EarlyStop, Which::OwnStop];

/// Microseconds for a call.
pub struct Times {
    pub proved: f64,
    pub all_rounds: f64,
    pub early_stop: f64,
    pub own_stop: f64,
}

impl Times {
    pub fn of_all_rounds(&self) -> f64 {
        self.proved / self.all_rounds
    }

    pub fn of_early_stop(&self) -> f64 {
        self.proved / self.early_stop
    }

    pub fn of_own_stop(&self) -> f64 {
        self.proved / self.own_stop
    }
}

/// Microseconds for each of the jobs, in one turn over all of them.
fn turn(implementations: &mut Implementations, which: Which, call: Call, jobs: &mut [Job]) -> f64 {
    let start = Instant::now();
    for job in jobs.iter_mut() {
        let _ = black_box(implementations.call(which, call, job));
    }
    start.elapsed().as_secs_f64() * 1e6 / jobs.len() as f64
}

pub fn median(mut times: Vec<f64>) -> f64 {
    times.sort_by(f64::total_cmp);
    times[times.len() / 2]
}

/// Each repetition has a turn of each implementation, and each repetition another one goes first.
fn turns(implementations: &mut Implementations, call: Call, jobs: &mut [Job]) -> [f64; 4] {
    let mut times = [(); 4].map(|()| Vec::with_capacity(REPETITIONS));
    for repetition in 0..REPETITIONS {
        for place in 0..TURNS.len() {
            let which = (repetition + place) % TURNS.len();
            times[which].push(turn(implementations, TURNS[which], call, jobs));
        }
    }
    times.map(median)
}

/// The times of a row: from the clock, or the least of those that this program had at other places.
pub fn measure(
    places: &mut Places,
    implementations: &mut Implementations,
    call: Call,
    jobs: &mut [Job],
) -> Result<Times, String> {
    let [proved, all_rounds, early_stop, own_stop] = places.times(|| turns(implementations, call, jobs))?;
    Ok(Times { proved, all_rounds, early_stop, own_stop })
}
