//! All jobs in one call. Jobs are taken off the front of a job list until no whole job is left, and answer words off the
//! front of the room for them. Each job of a granted call is one admission to the ledger, with a path buffer of 31 words,
//! as the ledger stands when the job comes; which path it gets is open, so what it was answered is judged there.

use crate::judge::{require, Grant};
use crate::ledger::{Ledger, Reply, PATH_WORDS, WORK_WORDS};
use crate::rules::{Rule, Rules};
use crate::table::Request;

pub const JOB_WORDS: usize = 7;
pub const MOST_JOBS: usize = 64;
/// The words that answer a job, and those of them in front of its path.
pub const ANSWER_WORDS: usize = HEAD_WORDS + PATH_WORDS;
pub const HEAD_WORDS: usize = 5;

#[derive(Clone, Copy, Debug, PartialEq, Eq)]
pub struct Job {
    pub number: u32,
    pub request: Request,
}

/// What a job was answered: a grant, or the refusal's number.
pub type Said = Result<Grant, u32>;

impl Job {
    fn of(words: &[u32; JOB_WORDS]) -> Job {
        let &[number, s, t, units, delay_bound, cost_bound, coefficient] = words;
        Job { number, request: Request { s, t, units, delay_bound, cost_bound, coefficient } }
    }
}

/// The jobs of a list, and whether it was a list of whole jobs, not too many of them.
fn whole_jobs(mut words: &[u32], rules: Rules) -> (Vec<Job>, bool) {
    let mut jobs = Vec::new();
    while let Some((job, rest)) = words.split_first_chunk() {
        jobs.push(Job::of(job));
        words = rest;
    }
    let most = if rules.hold(Rule::FullJobList) { MOST_JOBS } else { MOST_JOBS - 1 };
    let whole = words.is_empty() && jobs.len() <= most;
    (jobs, whole)
}

/// Whether 36 words for each job can be taken off so many.
fn have_room(jobs: &[Job], room: usize) -> bool {
    jobs.iter().try_fold(room, |left, _| left.checked_sub(ANSWER_WORDS)).is_some()
}

/// The words that answer a job, read where the words before the call were these: each that is not used is 0.
pub fn said(words: &[u32], before: &[u32], rules: Rules) -> Result<Said, String> {
    let (head, path) = words.split_at(HEAD_WORDS);
    let (used, said) = match head[0] {
        0 => {
            let links = head[4] as usize;
            require((1..=PATH_WORDS).contains(&links), &format!("answered {links} links"))?;
            let grant = Grant { problem: head[1], delay: head[2], cost: head[3], path: path[..links].to_vec() };
            (HEAD_WORDS + links, Ok(grant))
        }
        number => (1, Err(number)),
    };
    let cleared = rules.hold(Rule::AnswersClear);
    let unused = |at: usize| if cleared { 0 } else { before[at] };
    match (used..ANSWER_WORDS).find(|&at| words[at] != unused(at)) {
        None => Ok(said),
        Some(at) => Err(format!("answer word {at} is {}, expected {}", words[at], unused(at))),
    }
}

impl Ledger {
    /// 6, 23 and 24, else the jobs. `work` and `room` are the lengths of work memory and answer buffer.
    pub fn jobs(&self, work: usize, words: &[u32], room: usize) -> Result<Vec<Job>, u32> {
        let (jobs, whole) = whole_jobs(words, self.rules());
        let room = have_room(&jobs, room);
        if work < WORK_WORDS {
            Err(6)
        } else if !room && !self.rules().hold(Rule::JobsBeforeRoom) {
            Err(24)
        } else if !whole {
            Err(23)
        } else if !room {
            Err(24)
        } else {
            Ok(jobs)
        }
    }

    /// Admits the jobs of a granted call one after another. `judged` is given the ledger as each job comes, the job and the
    /// ledger's reply to it; it looks at what the job was answered and gives the path of a grant. The call gives the
    /// number of jobs.
    pub fn admit_jobs<Judged>(&mut self, work: usize, jobs: &[Job], mut judged: Judged) -> Result<u32, String>
    where
        Judged: FnMut(&Ledger, &Job, Reply) -> Result<Vec<u32>, String>,
    {
        let every = self.rules().hold(Rule::EveryJobCounts);
        let mut counted = if every { jobs.len() as u32 } else { 0 };
        self.by_this_call = 0;
        for job in jobs {
            let reply = self.admission(work, PATH_WORDS, job.number, &job.request);
            let path = judged(self, job, reply)?;
            match reply {
                Reply::Granted { .. } => {
                    self.admit(job.number, job.request.units, &path);
                    self.by_this_call += 1;
                    counted += u32::from(!every);
                }
                Reply::Refused(_) if !self.rules().hold(Rule::JobsGoOn) => break,
                Reply::Refused(_) => {}
            }
        }
        self.by_this_call = 0;
        Ok(counted)
    }
}
