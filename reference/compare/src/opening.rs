//! All jobs in one call. Each job is judged where it comes, as one admission with a path buffer of 31 words. Then the
//! archive's own single admissions are made on a copy of the area as it was, in work memory of the same length and other
//! contents: they must leave the same area, all its words, and answer the same words.

use crate::buffer::{Buffer, Holds, Lent};
use crate::grants::{grant_is_due, line_request, refusal_is_due, Choices};
use crate::memory::Memory;
use crate::station::{refused, Answer, Checked, Station};
use crate::table_tally::TableTally;
use crate::tables;
use crate::tally::Tally;
use document01::judge::require;
use document01::ledger::PATH_WORDS;
use document01::opening::{said, Job, Said, ANSWER_WORDS, HEAD_WORDS};
use document01::{Ledger, Reply};

/// The call's name in what is printed.
pub const ALL_JOBS: &str = "admit jobs";

/// Turns the contents of work memory into others for the single admissions.
const SINGLY: u64 = 0x9fb2_1c65_1e98_df25;

impl Station {
    pub fn admit_jobs(
        &mut self,
        words: &[u32],
        [work, answers]: [Lent; 2],
        memory: &mut Memory,
        choices: &mut Choices,
        tally: &mut Tally,
    ) -> Checked {
        memory.lend_work(work);
        memory.lend_out(answers, 1);
        memory.lend_read(words);
        let (lent_work, lent_answers) = (memory.work.slice_mut(), memory.out.slice_mut());
        let (area, jobs) = (self.area.slice_mut(), memory.read.slice());
        let code = line::admit_jobs(area, lent_work, jobs, lent_answers, memory.answer.array_mut());
        let Some(ledger) = &self.ledger else {
            return refused(code, 5, memory);
        };
        match ledger.jobs(work.words, words, answers.words) {
            Err(number) => {
                let answer = refused(code, number, memory)?;
                tally.opening.refused(number, words.len(), answers.words);
                Ok(answer)
            }
            Ok(jobs) => {
                require(code == 0, &format!("gave {code}, expected to be granted"))?;
                self.jobs_agree(&jobs, work, memory, choices, tally)
            }
        }
    }

    /// After a granted call: every job is answered as the ledger says, and the area is what single admissions leave.
    fn jobs_agree(
        &mut self,
        jobs: &[Job],
        work: Lent,
        memory: &mut Memory,
        choices: &mut Choices,
        tally: &mut Tally,
    ) -> Checked {
        let ledger = self.ledger.as_mut().ok_or("granted on an area that is not well formed")?;
        let before = ledger.clone();
        if !jobs.is_empty() {
            // Whose table is left is known after the last job alone.
            memory.table = None;
        }
        let mut judging = Judging { before: &before, jobs, memory, choices, tally, said: Vec::new() };
        let count = ledger.admit_jobs(work.words, jobs, |ledger, job, reply| judging.job(ledger, job, reply))?;
        let judged = judging.said;
        let answered: [u32; 1] = memory.answer.array();
        require(answered == [count], &format!("answered {answered:?}, expected {count} jobs"))?;
        let end = ANSWER_WORDS * judged.len();
        require(memory.out.same_from(end), "a word of the answer buffer past the last job's changed")?;
        self.books_agree()?;
        let booked = judged.iter().any(|said| said.is_ok());
        require(booked || self.area.same_from(0), "the area changed, but no job was granted")?;
        let words = &memory.out.slice()[..end];
        self.singly_agree(jobs, work, memory.other, words)?;
        tally.opening.granted(&judged, memory.out.slice().len());
        Ok(Answer { code: 0, numbers: [&answered, words].concat(), path: Vec::new() })
    }

    /// Holds what all jobs left and were answered against the archive's single admissions.
    fn singly_agree(&self, jobs: &[Job], work: Lent, other: u64, answered: &[u32]) -> Result<(), String> {
        let mut area = Buffer::of(self.area.before());
        let work = Lent { holds: Holds::Random(SINGLY ^ other ^ answered.len() as u64), ..work };
        let words = singly(&mut area, jobs, work)?;
        if let Some(at) = (0..words.len()).find(|&at| answered.get(at) != Some(&words[at])) {
            let (job, word) = (at / ANSWER_WORDS, at % ANSWER_WORDS);
            let said = answered.get(at);
            return Err(format!("answer word {word} of job {job} is {said:?}, admitted singly {}", words[at]));
        }
        let (all, single) = (self.area.slice(), area.slice());
        match (0..all.len()).find(|&at| all[at] != single[at]) {
            None => Ok(()),
            Some(at) => Err(format!("word {at} of the area is {}, admitted singly {}", all[at], single[at])),
        }
    }
}

/// Admits jobs singly, each with a path buffer of 31 zeros; gives the words that would answer them in one call.
fn singly(area: &mut Buffer, jobs: &[Job], lent: Lent) -> Result<Vec<u32>, String> {
    let [mut work, mut path, mut answer] = [(); 3].map(|()| Buffer::default());
    let mut words = Vec::new();
    work.lend(lent);
    for job in jobs {
        path.lend(Lent { words: PATH_WORDS, holds: Holds::Zeros });
        answer.lend(Lent { words: 4, holds: Holds::Ones });
        let (lent_work, lent_path, request) = (work.slice_mut(), path.slice_mut(), line_request(&job.request));
        let code = line::admit(area.slice_mut(), lent_work, lent_path, job.number, &request, answer.array_mut());
        let [problem, delay, cost, links] = if code == 0 { answer.array() } else { [0; 4] };
        let head: [u32; HEAD_WORDS] = [code, problem, delay, cost, links];
        words.extend(head);
        words.extend(path.slice());
        let guarded = [&*area, &work, &path, &answer].iter().all(|buffer| buffer.guards_stand());
        require(guarded, "a word beside a buffer changed in an admission")?;
    }
    Ok(words)
}

/// The jobs of a granted call, judged one after another.
struct Judging<'a> {
    /// The ledger as the call found it.
    before: &'a Ledger,
    jobs: &'a [Job],
    memory: &'a mut Memory,
    choices: &'a mut Choices,
    tally: &'a mut Tally,
    /// What the jobs so far were answered.
    said: Vec<Said>,
}

impl Judging<'_> {
    /// The next job, where the ledger stands so and replies this; gives the path of a grant.
    fn job(&mut self, ledger: &Ledger, job: &Job, reply: Reply) -> Result<Vec<u32>, String> {
        let at = self.said.len();
        let words = ANSWER_WORDS * at..ANSWER_WORDS * (at + 1);
        let before = &self.memory.out.before()[words.clone()];
        let answered = &self.memory.out.slice()[words];
        let named = |why: String| format!("job {at}: {why}");
        let said = said(answered, before, ledger.rules()).map_err(named)?;
        self.tally.opening.answered(&said, before);
        self.agrees(ledger, job, reply, &said).map_err(named)?;
        if at + 1 == self.jobs.len() {
            self.table_agrees(ledger, job, &said).map_err(named)?;
        }
        self.seen(ledger, job, &said);
        let path = said.as_ref().map_or(Vec::new(), |grant| grant.path.clone());
        self.said.push(said);
        Ok(path)
    }

    fn agrees(&mut self, ledger: &Ledger, job: &Job, reply: Reply, said: &Said) -> Result<(), String> {
        let r = line_request(&job.request);
        match (reply, said) {
            (Reply::Granted { problem, least }, Ok(grant)) => {
                grant_is_due(ledger, (problem, least), &r, grant, self.choices)
            }
            (Reply::Refused(number), Err(said)) if number == *said => refusal_is_due(ledger, number, &r, self.choices),
            _ => Err(format!("answered {said:?}, expected {reply:?}")),
        }
    }

    /// After the last job: where it was searched for, work memory has its table. What stood there before was left by the
    /// jobs in front, so that such a table is not counted.
    fn table_agrees(&mut self, ledger: &Ledger, job: &Job, said: &Said) -> Result<(), String> {
        let answer = match said {
            Ok(grant) => Answer { numbers: vec![grant.problem], ..Answer::default() },
            Err(number) => Answer { code: *number, ..Answer::default() },
        };
        tables::agree(ledger, &line_request(&job.request), &answer, self.memory, &mut TableTally::default())
    }

    /// What the tally keeps of a job.
    fn seen(&mut self, ledger: &Ledger, job: &Job, said: &Said) {
        self.tally.opening.job(self.before, &self.jobs[..self.said.len()], &self.said, job, said);
        if said.is_ok() {
            let held = ledger.entries.iter().map(|entry| entry.number);
            self.tally.order.booked(ALL_JOBS, job.number, held);
        }
    }
}
