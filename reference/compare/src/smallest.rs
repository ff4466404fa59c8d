//! The smallest list of calls that shows a failure.

use crate::buffer::Lent;
use crate::cases::{Call, Case};
use crate::history::{run, Failure};
use crate::tally::Tally;
use document01::opening::{ANSWER_WORDS, JOB_WORDS};
use document01::Rules;

fn failure(case: &Case, rules: Rules) -> Option<Failure> {
    run(case, rules, &mut Tally::default()).err()
}

fn with_calls(case: &Case, calls: Vec<Call>) -> Case {
    Case { calls, ..case.clone() }
}

/// The fewest calls, and then the fewest jobs of their job lists. No call and no job of what is left can be left out.
pub fn smallest(case: &Case, rules: Rules) -> (Case, Failure) {
    fewest_jobs(fewest_calls(case, rules), rules)
}

/// Every list of at most two of the calls is tried, the shorter first; where none fails, calls are left out one by one,
/// from the first, as long as the rest still fails.
fn fewest_calls(case: &Case, rules: Rules) -> (Case, Failure) {
    let found = failure(case, rules).expect("the case fails");
    let case = with_calls(case, case.calls.iter().take(found.call + 1).cloned().collect());
    for first in 0..case.calls.len() {
        if let Some(small) = failing(&case, &[first], rules) {
            return small;
        }
    }
    for first in 0..case.calls.len() {
        for second in first + 1..case.calls.len() {
            if let Some(small) = failing(&case, &[first, second], rules) {
                return small;
            }
        }
    }
    left_out(case, rules)
}

fn failing(case: &Case, keep: &[usize], rules: Rules) -> Option<(Case, Failure)> {
    let small = with_calls(case, keep.iter().map(|&at| case.calls[at].clone()).collect());
    failure(&small, rules).map(|failure| (small, failure))
}

fn left_out(mut case: Case, rules: Rules) -> (Case, Failure) {
    let mut found = failure(&case, rules).expect("the case fails");
    loop {
        let before = case.calls.len();
        let mut at = 0;
        while at < case.calls.len() {
            let keep: Vec<usize> = (0..case.calls.len()).filter(|&other| other != at).collect();
            match failing(&case, &keep, rules) {
                Some(smaller) => (case, found) = smaller,
                None => at += 1,
            }
        }
        if case.calls.len() == before {
            return (case, found);
        }
    }
}

/// Leaves out jobs one by one as long as it still fails.
fn fewest_jobs((mut case, mut found): (Case, Failure), rules: Rules) -> (Case, Failure) {
    for at in 0..case.calls.len() {
        let mut job = 0;
        while let Some(call) = without_job(&case.calls[at], job) {
            let mut calls = case.calls.clone();
            calls[at] = call;
            let smaller = with_calls(&case, calls);
            match failure(&smaller, rules) {
                Some(failure) => (case, found) = (smaller, failure),
                None => job += 1,
            }
        }
    }
    (case, found)
}

/// The call with one job of its list fewer, and the words for its answer.
fn without_job(call: &Call, job: usize) -> Option<Call> {
    match call {
        Call::AdmitJobs { jobs, work, answers } => {
            let at = JOB_WORDS * job;
            let jobs = [jobs.get(..at)?, jobs.get(at + JOB_WORDS..)?].concat();
            let answers = Lent { words: answers.words.saturating_sub(ANSWER_WORDS), ..*answers };
            Some(Call::AdmitJobs { jobs, work: *work, answers })
        }
        Call::Damaged { damage, call } => {
            let call = Box::new(without_job(call, job)?);
            Some(Call::Damaged { damage: *damage, call })
        }
        _ => None,
    }
}

/// The seed, the table with its hold times and the calls, to read and to run again.
pub fn print(case: &Case, failure: &Failure) {
    println!("failure: seed {}: {}", case.seed, failure.what);
    println!("  the whole case again: compare --case {}", case.seed);
    let links = case.words.len() / 5;
    println!("  n {}, {links} links drawn as {:?}, an area of {} words", case.n, case.style, case.area.words);
    for (number, link) in case.words.chunks(5).enumerate() {
        println!(
            "  link {number}: {} -> {}, delay {}, cost {}, capacity {}",
            link[0], link[1], link[2], link[3], link[4]
        );
    }
    println!("  hold times {:?}", case.hold_times);
    println!("  the smallest list of calls that shows it ({}):", case.calls.len());
    for (number, call) in case.calls.iter().enumerate() {
        let mark = if number == failure.call { "  <- here" } else { "" };
        println!("  {number}: {call:?}{mark}");
    }
}
