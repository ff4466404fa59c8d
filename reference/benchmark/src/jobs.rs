//! A job is a net with its held circuits and a request: once as an area for the proved archive, once as a network for
//! the plain search. All implementations must give a job the same answer before it is timed.

use crate::answer::{agree, Outcome};
use crate::implementations::{held_number, Call, Implementations, Which};
use crate::plain::Network;
use crate::proved::Proved;
use crate::requests::{two_nodes, wide};
use line::Request;
use seeded::Random;

/// So many nets are tried for the jobs of a row before the program gives up.
const TRIES: usize = 1_000_000;

pub struct Job {
    pub request: Request,
    pub area: Vec<u32>,
    pub network: Network,
}

impl Job {
    /// A job without circuits, and without hold times, which the plain network does not know.
    pub fn new(n: u32, words: &[u32], request: Request) -> Result<Job, String> {
        let area = Proved::load(n, words).map_err(|refusal| format!("a net was not loaded: {refusal}"))?;
        Ok(Job { request, area, network: Network::new(n, words) })
    }

    /// Admits circuits between random nodes, and gives the plain network the same circuits.
    fn hold(&mut self, proved: &mut Proved, n: u32, circuits: u32, seed: u64) -> Result<(), String> {
        let mut random = Random::new(seed);
        for index in 0..circuits {
            let number = held_number(index);
            let (s, t) = two_nodes(&mut random, n);
            let request = wide(s, t, n - 1);
            let granted = proved.admit(&mut self.area, number, &request);
            granted.map_err(|refusal| format!("a circuit to hold was refused: {refusal}"))?;
            self.network.hold(number, request.units, proved.path());
        }
        Ok(())
    }

    /// An error unless all implementations answer both calls alike and with this outcome.
    pub fn check(&mut self, implementations: &mut Implementations, outcome: Outcome) -> Result<(), String> {
        for call in [Call::Quote, Call::Admission] {
            let proved = implementations.call(Which::Proved, call, self);
            let plain = [Which::AllRounds, Which::EarlyStop, Which::OwnStop];
            let plain = plain.map(|which| implementations.call(which, call, self));
            if Outcome::of(&proved) != Some(outcome) || !plain.iter().all(|plain| agree(&proved, plain)) {
                return Err(format!("answers differ: {:?}: proved {proved:?}, plain {plain:?}", self.request));
            }
        }
        Ok(())
    }
}

/// So many jobs with this outcome and so many held circuits, from the nets and requests that `draw` gives.
pub fn with_outcome(
    implementations: &mut Implementations,
    n: u32,
    outcome: Outcome,
    count: usize,
    circuits: u32,
    mut draw: impl FnMut() -> (Vec<u32>, Request),
) -> Result<Vec<Job>, String> {
    let mut jobs = Vec::with_capacity(count);
    for _ in 0..TRIES {
        if jobs.len() == count {
            return Ok(jobs);
        }
        let (words, request) = draw();
        let mut job = Job::new(n, &words, request)?;
        if Outcome::of(&implementations.call(Which::Proved, Call::Quote, &mut job)) == Some(outcome) {
            job.hold(&mut implementations.proved, n, circuits, jobs.len() as u64)?;
            job.check(implementations, outcome)?;
            jobs.push(job);
        }
    }
    Err(format!("too few jobs with outcome {}", outcome.name()))
}
