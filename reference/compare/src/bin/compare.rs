//! compare [--calls N] [--seed S] [--case S] [--fault NAME] [--faults]
//!
//! Makes at least N calls (600,000 where nothing is said) on the archive, in cases of the seeds S, S + 1, .. (from 0
//! where nothing is said), and compares each with the other implementation. It exits with 0 where all agree and every
//! number of every call has come, 1 at a failure, which it prints with its seed and its smallest list of calls, and 3
//! where a number has not come. `--case` runs one case; `--fault` switches on a deliberate fault; `--faults` lists them.

use compare::cases::{case, Case};
use compare::faults::FAULTS;
use compare::history::run;
use compare::smallest::{print, smallest};
use compare::tally::Tally;
use document01::Rules;
use std::process::exit;
use std::sync::atomic::{AtomicBool, AtomicU64, Ordering};
use std::sync::Mutex;
use std::thread;

struct Asked {
    calls: u64,
    seed: u64,
    only: Option<u64>,
    rules: Rules,
}

fn usage() -> ! {
    eprintln!("usage: compare [--calls N] [--seed S] [--case S] [--fault NAME] [--faults]");
    exit(2)
}

fn asked() -> Asked {
    let mut asked = Asked { calls: 600_000, seed: 0, only: None, rules: Rules::all() };
    let mut words = std::env::args().skip(1);
    while let Some(word) = words.next() {
        if word == "--faults" {
            FAULTS.iter().for_each(|(name, _)| println!("{name}"));
            exit(0);
        }
        let value = words.next().unwrap_or_else(|| usage());
        let number = || value.parse().unwrap_or_else(|_| usage());
        match word.as_str() {
            "--calls" => asked.calls = number(),
            "--seed" => asked.seed = number(),
            "--case" => asked.only = Some(number()),
            "--fault" => {
                let fault = FAULTS.iter().find(|(name, _)| *name == value);
                asked.rules = Rules::without(fault.unwrap_or_else(|| usage()).1);
            }
            _ => usage(),
        }
    }
    asked
}

/// Runs cases of rising seeds, one after another, until there are enough calls or one failed. The seed of a failure is
/// the least that was met.
struct Cases {
    next: AtomicU64,
    calls: AtomicU64,
    wanted: u64,
    stopped: AtomicBool,
    failed: Mutex<Option<Case>>,
    tally: Mutex<Tally>,
    rules: Rules,
}

impl Cases {
    fn work(&self) {
        while !self.stopped.load(Ordering::Relaxed) && self.calls.load(Ordering::Relaxed) < self.wanted {
            let case = case(self.next.fetch_add(1, Ordering::Relaxed));
            let mut tally = Tally::default();
            let outcome = run(&case, self.rules, &mut tally);
            self.calls.fetch_add(tally.calls, Ordering::Relaxed);
            self.tally.lock().unwrap().add(&tally);
            if outcome.is_err() {
                self.stopped.store(true, Ordering::Relaxed);
                let mut failed = self.failed.lock().unwrap();
                if failed.as_ref().is_none_or(|before| case.seed < before.seed) {
                    *failed = Some(case);
                }
            }
        }
    }
}

fn one_case(seed: u64, rules: Rules) -> Cases {
    let cases = all_cases(seed, 1, rules);
    cases.work();
    cases
}

fn all_cases(seed: u64, wanted: u64, rules: Rules) -> Cases {
    Cases {
        next: AtomicU64::new(seed),
        calls: AtomicU64::new(0),
        wanted,
        stopped: AtomicBool::new(false),
        failed: Mutex::new(None),
        tally: Mutex::new(Tally::default()),
        rules,
    }
}

fn main() {
    let asked = asked();
    let cases = match asked.only {
        Some(seed) => one_case(seed, asked.rules),
        None => {
            let cases = all_cases(asked.seed, asked.calls, asked.rules);
            let threads = thread::available_parallelism().map_or(1, |count| count.get());
            thread::scope(|scope| (0..threads).for_each(|_| drop(scope.spawn(|| cases.work()))));
            cases
        }
    };
    let tally = cases.tally.into_inner().unwrap();
    if let Some(failed) = cases.failed.into_inner().unwrap() {
        let (case, failure) = smallest(&failed, asked.rules);
        print(&case, &failure);
        println!("compare: failed after {} calls", tally.calls);
        exit(1);
    }
    tally.print();
    let missing = if asked.only.is_some() { Vec::new() } else { tally.missing() };
    missing.iter().for_each(|what| println!("compare: {what}"));
    println!("compare: {} calls from seed {}, 0 failures", tally.calls, asked.only.unwrap_or(asked.seed));
    if !missing.is_empty() {
        exit(3);
    }
}
