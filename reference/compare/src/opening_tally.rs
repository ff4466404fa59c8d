//! What a run has seen of all jobs in one call.

use document01::ledger::{MOST_HELD, PATH_WORDS, WORK_WORDS};
use document01::opening::{Job, Said, ANSWER_WORDS, HEAD_WORDS, JOB_WORDS, MOST_JOBS};
use document01::{Ledger, Reply};
use std::collections::BTreeMap;

/// What a job may be answered: 0, or the refusals in their order.
const ANSWERED: [u32; 6] = [0, 8, 11, 12, 9, 10];

#[derive(Clone, Copy, Debug, PartialEq, Eq, PartialOrd, Ord)]
enum Seen {
    NoMultiple,
    OverLong,
    ShortToo,
    NoJobs,
    MostJobs,
    MostGranted,
    AllGranted,
    NoneGranted,
    BehindRefused,
    NoPathLeft,
    NoSolutionLeft,
    RoomMade,
    NumberTwice,
    NumberRefused,
    PlaceTaken,
    Longer,
    Exact,
    Cleared,
    FullPath,
    ByTwo,
}

/// What has to come up.
const DUE: [(Seen, &str); 20] = [
    (Seen::NoMultiple, "23 for no multiple of seven words up to 448"),
    (Seen::OverLong, "23 for a multiple of seven words over 448"),
    (Seen::ShortToo, "23 where the answer buffer was too short as well"),
    (Seen::NoJobs, "no jobs, granted"),
    (Seen::MostJobs, "64 jobs, some refused"),
    (Seen::MostGranted, "64 jobs, all granted"),
    (Seen::AllGranted, "some jobs, all granted"),
    (Seen::NoneGranted, "some jobs, none granted"),
    (Seen::BehindRefused, "a job granted behind a refused one"),
    (Seen::NoPathLeft, "a job with 9 that alone would be granted"),
    (Seen::NoSolutionLeft, "a job with 10 that alone would be granted"),
    (Seen::RoomMade, "a job granted that alone would be refused"),
    (Seen::NumberTwice, "11 for a number of a job in front"),
    (Seen::NumberRefused, "a number granted that a job in front was refused"),
    (Seen::PlaceTaken, "12 since a job in front took the last place"),
    (Seen::Longer, "an answer buffer with words past the last job's"),
    (Seen::Exact, "an answer buffer just long enough"),
    (Seen::Cleared, "an unused answer word that was not 0 before"),
    (Seen::FullPath, "a job whose path takes all 31 words"),
    (Seen::ByTwo, "a job granted by problem two"),
];

#[derive(Clone, Default)]
pub struct OpeningTally {
    /// The jobs of granted calls, by what they were answered.
    jobs: BTreeMap<u32, u64>,
    seen: BTreeMap<Seen, u64>,
}

impl OpeningTally {
    fn saw(&mut self, what: Seen, is_so: bool) {
        if is_so {
            *self.seen.entry(what).or_default() += 1;
        }
    }

    /// A call that was refused with this number, with a list and an answer buffer of so many words.
    pub fn refused(&mut self, number: u32, words: usize, room: usize) {
        let (whole, long) = (words.is_multiple_of(JOB_WORDS), words > JOB_WORDS * MOST_JOBS);
        let short = room < ANSWER_WORDS * (words / JOB_WORDS);
        self.saw(Seen::NoMultiple, number == 23 && !whole && !long);
        self.saw(Seen::OverLong, number == 23 && whole && long);
        self.saw(Seen::ShortToo, number == 23 && short);
    }

    /// A granted call whose jobs were answered so, in an answer buffer of so many words.
    pub fn granted(&mut self, said: &[Said], room: usize) {
        let (jobs, granted) = (said.len(), said.iter().filter(|said| said.is_ok()).count());
        self.saw(Seen::NoJobs, jobs == 0);
        self.saw(Seen::MostJobs, jobs == MOST_JOBS && granted < jobs);
        self.saw(Seen::MostGranted, jobs == MOST_JOBS && granted == jobs);
        self.saw(Seen::AllGranted, jobs > 1 && granted == jobs);
        self.saw(Seen::NoneGranted, jobs > 1 && granted == 0);
        self.saw(Seen::Longer, room > ANSWER_WORDS * jobs);
        self.saw(Seen::Exact, jobs > 0 && room == ANSWER_WORDS * jobs);
    }

    /// A job's answer, where the words before the call were these.
    pub fn answered(&mut self, said: &Said, before: &[u32]) {
        let used = said.as_ref().map_or(1, |grant| HEAD_WORDS + grant.path.len());
        self.saw(Seen::Cleared, before[used..].iter().any(|&word| word != 0));
        self.saw(Seen::FullPath, used == ANSWER_WORDS);
        self.saw(Seen::ByTwo, said.as_ref().is_ok_and(|grant| grant.problem == 2));
        *self.jobs.entry(*said.as_ref().err().unwrap_or(&0)).or_default() += 1;
    }

    /// A job beside those in front of it and what they were answered; `before` is the ledger as the call found it.
    pub fn job(&mut self, before: &Ledger, front: &[Job], answered: &[Said], job: &Job, said: &Said) {
        let refused = said.as_ref().err().copied().unwrap_or(0);
        let same_number = |granted| {
            let mut both = front.iter().zip(answered);
            both.any(|(other, said)| other.number == job.number && said.is_ok() == granted)
        };
        self.saw(Seen::BehindRefused, refused == 0 && answered.iter().any(|said| said.is_err()));
        self.saw(Seen::NumberTwice, refused == 11 && same_number(true));
        self.saw(Seen::NumberRefused, refused == 0 && same_number(false));
        self.saw(Seen::PlaceTaken, refused == 12 && before.entries.len() < MOST_HELD);
        if matches!(refused, 0 | 9 | 10) && answered.iter().any(|said| said.is_ok()) && before.rules().all_hold() {
            self.beside_alone(before, job, refused);
        }
    }

    /// A job that was searched for, beside what it would be answered if it came before all others.
    fn beside_alone(&mut self, before: &Ledger, job: &Job, refused: u32) {
        match before.admission(WORK_WORDS, PATH_WORDS, job.number, &job.request) {
            Reply::Granted { .. } => {
                self.saw(Seen::NoPathLeft, refused == 9);
                self.saw(Seen::NoSolutionLeft, refused == 10);
            }
            Reply::Refused(_) => self.saw(Seen::RoomMade, refused == 0),
        }
    }

    pub fn add(&mut self, other: &OpeningTally) {
        for (key, count) in &other.jobs {
            *self.jobs.entry(*key).or_default() += count;
        }
        for (key, count) in &other.seen {
            *self.seen.entry(*key).or_default() += count;
        }
    }

    /// What a whole run ought to have seen and has not.
    pub fn missing(&self) -> Vec<String> {
        let numbers = ANSWERED.iter().filter(|number| !self.jobs.contains_key(number));
        let seen = DUE.iter().filter(|(what, _)| !self.seen.contains_key(what));
        let numbers = numbers.map(|number| format!("no job of several was answered {number}"));
        numbers.chain(seen.map(|(_, name)| format!("never with all jobs in one call: {name}"))).collect()
    }

    pub fn print(&self) {
        let answered = |number| format!("{number}: {}", self.jobs.get(number).unwrap_or(&0));
        let counts: Vec<String> = ANSWERED.iter().map(answered).collect();
        println!("  all jobs        {}", counts.join("  "));
        for (what, name) in DUE {
            println!("                  {name}: {}", self.seen.get(&what).unwrap_or(&0));
        }
    }
}
