//! The three tables: by outcome and size, by held circuits, and by x.

use crate::answer::Outcome;
use crate::goals::Goals;
use crate::implementations::{Call, Implementations};
use crate::jobs::{with_outcome, Job};
use crate::nets;
use crate::places::Places;
use crate::requests;
use crate::timing::{measure, Times, REPETITIONS};
use seeded::Random;

/// The sizes (n, m).
const SIZES: [(u32, u32); 3] = [(8, 64), (16, 128), (32, 256)];

/// How many jobs a row of the first two tables has, and of the third.
const JOBS: usize = 64;
const LONG_JOBS: usize = 8;

/// Circuits held in the first table; in the second.
const HELD: u32 = 16;
const HELD_COUNTS: [u32; 4] = [0, 16, 32, 63];

/// Where a row's nets begin in the random numbers.
const SEED: u64 = 7;

const CALLS: [(Call, &str); 2] = [(Call::Quote, "quote"), (Call::Admission, "admission")];

/// The columns of times, with a heading for those before them.
fn heading(columns: &str) {
    println!("{columns}   proved  all rounds  early stop  own stop  of all rounds  of early stop  of own stop");
}

fn row(columns: &str, times: &Times) {
    println!(
        "{columns}{:>9.2}{:>12.2}{:>12.2}{:>10.2}{:>15.2}{:>15.2}{:>13.2}",
        times.proved,
        times.all_rounds,
        times.early_stop,
        times.own_stop,
        times.of_all_rounds(),
        times.of_early_stop(),
        times.of_own_stop()
    );
}

fn ring_jobs(
    implementations: &mut Implementations,
    (n, m): (u32, u32),
    outcome: Outcome,
    circuits: u32,
) -> Result<Vec<Job>, String> {
    let mut random = Random::new(SEED);
    let draw = || (nets::ring(&mut random, n, m), requests::any(&mut random, n));
    with_outcome(implementations, n, outcome, JOBS, circuits, draw)
}

pub fn by_outcome(places: &mut Places, implementations: &mut Implementations, goals: &mut Goals) -> Result<(), String> {
    println!("Microseconds for a call: median of {REPETITIONS} interleaved repetitions over {JOBS} nets and requests.");
    println!("{HELD} circuits are held. An admission is timed with its release; where refused, alone.");
    heading("  n    m  outcome      call     ");
    for (n, m) in SIZES {
        for outcome in Outcome::ALL {
            let mut jobs = ring_jobs(implementations, (n, m), outcome, HELD)?;
            for (call, name) in CALLS {
                let times = measure(places, implementations, call, &mut jobs)?;
                row(&format!("{n:>3}{m:>5}  {:<11}  {name:<9}", outcome.name()), &times);
                goals.take((n, m), &format!("({n}, {m}), {}, {name}", outcome.name()), &times);
            }
        }
    }
    Ok(())
}

pub fn by_held_circuits(
    places: &mut Places,
    implementations: &mut Implementations,
    goals: &mut Goals,
) -> Result<(), String> {
    println!("The same by the number of circuits held, for problem one: a quote, then an admission with its release.");
    println!("Half of the circuits that are held stand behind the timed one and move when it comes and goes.");
    let columns = "    proved  of all rounds  of early stop";
    println!("  n    m  held{columns}{columns}");
    for (n, m) in SIZES {
        for circuits in HELD_COUNTS {
            let mut jobs = ring_jobs(implementations, (n, m), Outcome::ProblemOne, circuits)?;
            print!("{n:>3}{m:>5}{circuits:>6}");
            for (call, _) in CALLS {
                let times = measure(places, implementations, call, &mut jobs)?;
                goals.take_held((n, m), circuits, call, &times);
                print!("{:>10.2}{:>15.2}{:>15.2}", times.proved, times.of_all_rounds(), times.of_early_stop());
            }
            println!();
        }
    }
    Ok(())
}

/// Requests from node 0 to node t of a row: with wide bounds, which cut nothing off, or a tenth of them, which refuse.
fn row_jobs(
    implementations: &mut Implementations,
    (n, m): (u32, u32),
    t: u32,
    outcome: Outcome,
) -> Result<Vec<Job>, String> {
    let mut random = Random::new(SEED);
    let wide = requests::wide(0, t, t);
    let request = match outcome {
        Outcome::Refused => requests::request(0, t, wide.delay_bound / 10, wide.cost_bound / 10),
        _ => wide,
    };
    let draw = || (nets::row(&mut random, n, m), request);
    with_outcome(implementations, n, outcome, LONG_JOBS, 0, draw)
}

/// The row of nodes for which neither problem ends its rounds early.
fn slow_jobs(implementations: &mut Implementations, (n, m): (u32, u32)) -> Result<Vec<Job>, String> {
    let mut job = Job::new(n, &nets::slow_row(n, m), requests::request(0, n - 1, 1, 1))?;
    job.check(implementations, Outcome::Refused)?;
    Ok(vec![job])
}

pub fn by_x(places: &mut Places, implementations: &mut Implementations) -> Result<(), String> {
    let (n, m) = (32, 256);
    println!("Quotes by x: {n} nodes in a row, {m} links between neighbours, {LONG_JOBS} nets, no circuits held.");
    println!("The last row has a net on which neither problem ends its rounds early.");
    heading("  x  outcome               ");
    for t in [1, 4, 8, 16, 31] {
        for outcome in [Outcome::ProblemOne, Outcome::Refused] {
            let mut jobs = row_jobs(implementations, (n, m), t, outcome)?;
            let times = measure(places, implementations, Call::Quote, &mut jobs)?;
            row(&format!("{:>3}  {:<22}", 8 * t, outcome.name()), &times);
        }
    }
    let mut jobs = slow_jobs(implementations, (n, m))?;
    let times = measure(places, implementations, Call::Quote, &mut jobs)?;
    row(&format!("{:>3}  {:<22}", 8 * (n - 1), "refused 10, all rounds"), &times);
    Ok(())
}
