//! The proved archive, called through its C interface with work memory and a path buffer of its own.

use crate::answer::{Answer, Grant};

/// Least words of a station area, of work memory and of a path buffer.
const AREA: usize = 3491;
const WORK: usize = 16384;
const PATH: usize = 31;

/// The words that answer a job, where all jobs come in one call.
const ANSWER: usize = 36;

const MOST_NODES: usize = 32;

/// No node of the benchmark's nets holds a message: the plain search knows no hold times.
pub const NO_HOLDS: [u32; MOST_NODES] = [0; MOST_NODES];

pub struct Proved {
    work: Vec<u32>,
    path: [u32; PATH],
    answer: [u32; 4],
}

impl Proved {
    pub fn new() -> Proved {
        Proved { work: vec![0; WORK], path: [0; PATH], answer: [0; 4] }
    }

    /// A fresh area with this link table, without hold times.
    pub fn load(n: u32, links: &[u32]) -> Result<Vec<u32>, u32> {
        let mut area = vec![0; AREA];
        match line::load(n, links, &NO_HOLDS[..n as usize], &mut area) {
            0 => Ok(area),
            refusal => Err(refusal),
        }
    }

    pub fn quote(&mut self, area: &[u32], request: &line::Request) -> Answer {
        let code = line::quote(area, &mut self.work, &mut self.path, request, &mut self.answer);
        self.answer_of(code)
    }

    pub fn admit(&mut self, area: &mut [u32], number: u32, request: &line::Request) -> Answer {
        let code = line::admit(area, &mut self.work, &mut self.path, number, request, &mut self.answer);
        self.answer_of(code)
    }

    pub fn release(area: &mut [u32], number: u32) -> Result<(), u32> {
        match line::release(area, number) {
            0 => Ok(()),
            refusal => Err(refusal),
        }
    }

    /// The links of the path granted last.
    pub fn path(&self) -> &[u32] {
        &self.path[..self.answer[3] as usize]
    }

    /// The 36 words that all jobs in one call would answer this admission with, which was the last.
    pub fn words(&self, answer: &Answer) -> [u32; ANSWER] {
        let mut words = [0; ANSWER];
        match answer {
            Ok(_) => {
                words[1..5].copy_from_slice(&self.answer);
                words[5..5 + self.path().len()].copy_from_slice(self.path());
            }
            Err(refusal) => words[0] = *refusal,
        }
        words
    }

    fn answer_of(&self, code: u32) -> Answer {
        match code {
            0 => Ok(Grant { problem: self.answer[0], delay: self.answer[1], cost: self.answer[2] }),
            refusal => Err(refusal),
        }
    }
}

/// All jobs in one call, with work memory and an answer buffer of its own.
pub struct Opened {
    work: Vec<u32>,
    answers: Vec<u32>,
}

impl Opened {
    pub fn new(jobs: usize) -> Opened {
        Opened { work: vec![0; WORK], answers: vec![0; ANSWER * jobs] }
    }

    pub fn admit_jobs(&mut self, area: &mut [u32], list: &[u32]) -> u32 {
        line::admit_jobs(area, &mut self.work, list, &mut self.answers, &mut [0])
    }

    /// The words that answer a job.
    pub fn answer(&self, job: usize) -> &[u32] {
        &self.answers[ANSWER * job..ANSWER * (job + 1)]
    }
}
