//! Job lists: mostly a few jobs, some of them wanting what another one wants; sometimes another word count. And buffers for
//! their answers.

use crate::buffer::Lent;
use crate::cases::{holds, lent, Call};
use crate::nets::Net;
use crate::requests::{circuit, request};
use document01::opening::{ANSWER_WORDS, JOB_WORDS, MOST_JOBS};
use line::Request;
use seeded::Random;

/// Word counts around the limits: no jobs, one, and 64.
const COUNTS: [usize; 12] = [1, 6, 7, 8, 447, 448, 449, 454, 455, 456, 462, 896];

/// A job's words.
pub fn job(circuit: u32, r: &Request) -> [u32; JOB_WORDS] {
    [circuit, r.s, r.t, r.units, r.delay_bound, r.cost_bound, r.coefficient]
}

/// How many jobs. Their searches take long where there are many nodes.
fn count(rng: &mut Random, net: &Net) -> usize {
    let few = rng.range(1, 8) as usize;
    match rng.range(0, 31) {
        0 | 1 => 0,
        2 | 3 if net.n < 12 => MOST_JOBS,
        4..=6 if net.n < 12 => rng.range(9, 63) as usize,
        2 if rng.one_in(8) => MOST_JOBS,
        _ if net.n < 12 => few,
        _ => few.div_ceil(2),
    }
}

/// The words of some jobs; one in four is another one's request over again, mostly with another number.
fn jobs(rng: &mut Random, net: &Net, pool: u32) -> Vec<u32> {
    let mut jobs: Vec<[u32; JOB_WORDS]> = Vec::new();
    let count = count(rng, net);
    let pool = if rng.one_in(2) { pool } else { pool.max(2 * count as u32) };
    for _ in 0..count {
        let number = circuit(rng, pool);
        let fresh = job(number, &request(rng, net));
        let again = if jobs.is_empty() || !rng.one_in(4) { fresh } else { rng.pick(&jobs) };
        jobs.push(if rng.one_in(8) { again } else { [&[number], &again[1..]].concat().try_into().unwrap() });
    }
    jobs.concat()
}

/// Words enough for the answers to so many words of jobs; else more, one too few, or some.
fn room(rng: &mut Random, words: usize) -> usize {
    let least = ANSWER_WORDS * (words / JOB_WORDS);
    match rng.range(0, 15) {
        0 | 1 => least.saturating_sub(1),
        2 => least.saturating_sub(ANSWER_WORDS),
        3 => rng.range(0, 99) as usize,
        4..=6 => least + rng.pick(&[1, 5, 35, 36, 37]),
        7 => ANSWER_WORDS * MOST_JOBS,
        _ => least,
    }
}

pub fn call(rng: &mut Random, net: &Net, pool: u32) -> Call {
    let mut words = jobs(rng, net, pool);
    match rng.range(0, 15) {
        0 => words.resize(rng.pick(&COUNTS), 1),
        1 => words.push(rng.word()),
        2 => drop(words.pop()),
        _ => {}
    }
    let answers = Lent { words: room(rng, words.len()), holds: holds(rng) };
    Call::AdmitJobs { jobs: words, work: lent(rng, 16_384), answers }
}
