//! The table of all jobs in one call: a station's jobs admitted by one call, and the same jobs admitted one at a time, both by
//! the proved archive. Before they are timed, both must leave the same words of the area and give the same answers.

use crate::answer::Outcome;
use crate::goals::Goals;
use crate::nets;
use crate::places::Places;
use crate::proved::{Opened, Proved};
use crate::requests;
use crate::timing::{median, REPETITIONS};
use line::Request;
use seeded::Random;
use std::hint::black_box;
use std::time::Instant;

/// The sizes (n, m), and how many stations a row has, each with so many jobs, as many as one call takes.
const SIZES: [(u32, u32); 3] = [(8, 64), (16, 128), (32, 256)];
const STATIONS: usize = 8;
const JOBS: usize = 64;

/// The last row's target: nodes in a row, so many links from the source.
const FAR: u32 = 8;

const SEED: u64 = 11;
const TRIES: usize = 1_000_000;

/// A net that holds no circuit, its jobs one behind the other as one call takes them, and each with its circuit number.
struct Station {
    fresh: Vec<u32>,
    area: Vec<u32>,
    list: Vec<u32>,
    jobs: Vec<(u32, Request)>,
}

impl Station {
    /// The jobs come in any order of their circuit numbers.
    fn new(random: &mut Random, fresh: Vec<u32>, requests: &[Request]) -> Station {
        let mut numbers: Vec<u32> = (1..=requests.len() as u32).collect();
        random.shuffle(&mut numbers);
        let jobs: Vec<(u32, Request)> = numbers.into_iter().zip(requests.iter().copied()).collect();
        let words =
            |(number, r): &(u32, Request)| [*number, r.s, r.t, r.units, r.delay_bound, r.cost_bound, r.coefficient];
        let list = jobs.iter().flat_map(words).collect();
        Station { area: fresh.clone(), fresh, list, jobs }
    }

    fn singly(&mut self, proved: &mut Proved) {
        for (number, request) in &self.jobs {
            let _ = black_box(proved.admit(&mut self.area, *number, request));
        }
    }

    fn in_one_call(&mut self, opened: &mut Opened) {
        black_box(opened.admit_jobs(&mut self.area, &self.list));
    }

    /// An error unless both ways leave the same words of the area and answer each job alike, and this outcome.
    fn check(&mut self, proved: &mut Proved, opened: &mut Opened, outcome: Outcome) -> Result<(), String> {
        let mut singly = self.fresh.clone();
        let code = opened.admit_jobs(&mut self.area, &self.list);
        for (k, (number, request)) in self.jobs.iter().enumerate() {
            let answer = proved.admit(&mut singly, *number, request);
            if code != 0 || opened.answer(k) != proved.words(&answer) || Outcome::of(&answer) != Some(outcome) {
                return Err(format!("job {k}: in one call {code}, {:?}, singly {answer:?}", opened.answer(k)));
            }
        }
        let same = self.area == singly;
        same.then_some(()).ok_or_else(|| "the area differs after one call and after single ones".to_string())
    }
}

/// So many requests with this outcome, on a net that every job finds with enough free units.
fn requests_with(
    proved: &mut Proved,
    area: &[u32],
    outcome: Outcome,
    mut draw: impl FnMut() -> Request,
) -> Result<Vec<Request>, String> {
    let mut found = Vec::with_capacity(JOBS);
    for _ in 0..TRIES {
        if found.len() == JOBS {
            return Ok(found);
        }
        let request = draw();
        if Outcome::of(&proved.quote(area, &request)) == Some(outcome) {
            found.push(request);
        }
    }
    Err(format!("too few jobs with outcome {}", outcome.name()))
}

fn stations(proved: &mut Proved, (n, m): (u32, u32), outcome: Outcome, row: bool) -> Result<Vec<Station>, String> {
    let mut random = Random::new(SEED);
    let mut opened = Opened::new(JOBS);
    let mut stations = Vec::with_capacity(STATIONS);
    for _ in 0..STATIONS {
        let words = if row { nets::row(&mut random, n, m) } else { nets::ring(&mut random, n, m) };
        let fresh = Proved::load(n, &words).map_err(|refusal| format!("a net was not loaded: {refusal}"))?;
        let draw = || if row { requests::wide(0, FAR, FAR) } else { requests::any(&mut random, n) };
        let requests = requests_with(proved, &fresh, outcome, draw)?;
        let mut station = Station::new(&mut random, fresh, &requests);
        station.check(proved, &mut opened, outcome)?;
        stations.push(station);
    }
    Ok(stations)
}

/// Microseconds for a job, in one turn over all stations, each of which is as loaded before.
fn turn(stations: &mut [Station], mut admit: impl FnMut(&mut Station)) -> f64 {
    for station in stations.iter_mut() {
        station.area.copy_from_slice(&station.fresh);
    }
    let start = Instant::now();
    for station in stations.iter_mut() {
        admit(station);
    }
    start.elapsed().as_secs_f64() * 1e6 / (stations.len() * JOBS) as f64
}

/// In one call, and singly: the medians of turns that take turns.
fn turns(proved: &mut Proved, stations: &mut [Station]) -> [f64; 2] {
    let mut opened = Opened::new(JOBS);
    let mut times = [(); 2].map(|()| Vec::with_capacity(REPETITIONS));
    for repetition in 0..REPETITIONS {
        for place in 0..2 {
            let which = (repetition + place) % 2;
            times[which].push(match which {
                0 => turn(stations, |station| station.in_one_call(&mut opened)),
                _ => turn(stations, |station| station.singly(proved)),
            });
        }
    }
    times.map(median)
}

pub fn table(places: &mut Places, proved: &mut Proved, goals: &mut Goals) -> Result<(), String> {
    println!("All jobs in one call: microseconds for a job, {JOBS} jobs at each of {STATIONS} stations that hold no circuit;");
    println!("the same jobs admitted singly; and one by the other.");
    println!("  n    m  jobs                    in one call    singly  of singly");
    let rings = SIZES.into_iter().flat_map(|size| Outcome::ALL.map(|outcome| (size, outcome, false)));
    for (size, outcome, row) in rings.chain([(SIZES[2], Outcome::ProblemOne, true)]) {
        let mut stations = stations(proved, size, outcome, row)?;
        let [in_one, singly] = places.times(|| turns(proved, &mut stations))?;
        let name = format!("{}{}", outcome.name(), if row { ", x = 64" } else { "" });
        let (n, m) = size;
        println!("{n:>3}{m:>5}  {name:<22}{in_one:>13.2}{singly:>10.2}{:>11.2}", in_one / singly);
        goals.take_opening(size, outcome, &format!("({n}, {m}), {name}"), in_one / singly);
    }
    Ok(())
}
