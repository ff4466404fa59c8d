//! A case: a link table with hold times and a list of calls, both from one seed. Each call has all its own numbers, so
//! that leaving out a call leaves the others as they are.

use crate::buffer::{Holds, Lent};
use crate::class_tables;
use crate::damage::{damage, Damage};
use crate::files;
use crate::hold_times;
use crate::job_lists;
use crate::nets::{net, style, Net, Style};
use crate::requests::{circuit, request};
use crate::sweep;
use document01::area::AREA_WORDS;
use document01::opening::ANSWER_WORDS;
use document01::table::MOST_DELAY_BOUND;
use line::Request;
use seeded::Random;

#[derive(Clone, Debug)]
pub enum Call {
    Quote {
        request: Request,
        work: Lent,
        path: Lent,
    },
    Admit {
        circuit: u32,
        request: Request,
        work: Lent,
        path: Lent,
    },
    Release {
        circuit: u32,
    },
    /// All jobs in one call.
    AdmitJobs {
        jobs: Vec<u32>,
        work: Lent,
        answers: Lent,
    },
    List {
        numbers: Lent,
    },
    FreeUnits {
        link: u32,
    },
    CheckClasses {
        rows: Vec<u32>,
    },
    Class {
        rows: Vec<u32>,
        class: u32,
    },
    SampleClasses,
    /// On an area of its own.
    Load {
        n: u32,
        words: Vec<u32>,
        hold_times: Vec<u32>,
        area: Lent,
    },
    ReadLinkFile {
        file: Vec<u8>,
        table: Lent,
    },
    /// A quote, and again on a copy of the area without hold times whose links take as long.
    Folded {
        request: Request,
        work: Lent,
        path: Lent,
    },
    /// The call on a damaged copy of the area.
    Damaged {
        damage: Damage,
        call: Box<Call>,
    },
}

impl Call {
    /// Whether it may change the bookings. Such calls remain in the second run: with the quotes, all others are struck.
    pub fn books(&self) -> bool {
        matches!(self, Call::Admit { .. } | Call::Release { .. } | Call::AdmitJobs { .. })
    }
}

#[derive(Clone, Debug)]
pub struct Case {
    pub seed: u64,
    pub style: Style,
    pub n: u32,
    pub words: Vec<u32>,
    pub hold_times: Vec<u32>,
    pub area: Lent,
    pub calls: Vec<Call>,
}

pub fn holds(rng: &mut Random) -> Holds {
    match rng.range(0, 6) {
        0..=2 => Holds::Random(rng.double_word()),
        3 | 4 => Holds::Kept,
        5 => Holds::Zeros,
        _ => rng.pick(&[Holds::Ones, Holds::AllBits]),
    }
}

/// A buffer of mostly enough words; else around its least length.
pub fn lent(rng: &mut Random, least: usize) -> Lent {
    let enough = least + rng.pick(&[0, 0, 1, 9]);
    let words = match rng.range(0, 27) {
        0 => rng.range(0, 3) as usize,
        1 => least - 2 + rng.range(0, 4) as usize,
        _ => enough,
    };
    Lent { words, holds: holds(rng) }
}

fn load(rng: &mut Random, net: &Net) -> Call {
    let n = if rng.one_in(5) { rng.pick(&[0, 1, 2, 31, 32, 33, u32::MAX]) } else { net.n };
    let mut words = net.words.clone();
    match rng.range(0, 3) {
        0 => words.resize((words.len() + rng.range(0, 9) as usize).saturating_sub(4), 1),
        1 if rng.one_in(3) => words.resize(rng.pick(&[1_275, 1_280, 1_281, 1_285]), 0),
        2 if !words.is_empty() => {
            let at = rng.range(0, words.len() as u32 - 1) as usize;
            words[at] = rng.pick(&[0, n.wrapping_sub(1), n, 65_535, 65_536, 1_000_000, 1_000_001, u32::MAX]);
        }
        _ => {}
    }
    let hold_times = hold_times::list(rng, n, &net.hold_times);
    let lengths = [0, 1, 3_458, 3_459, 3_460, 3_489, 3_490, 3_492, 3_493];
    let length = if rng.one_in(3) { rng.pick(&lengths) } else { AREA_WORDS };
    Call::Load { n, words, hold_times, area: Lent { words: length, holds: Holds::Random(rng.double_word()) } }
}

fn list(rng: &mut Random) -> Call {
    let words = if rng.one_in(2) { rng.range(0, 8) } else { rng.range(56, 66) } as usize;
    Call::List { numbers: Lent { words, holds: Holds::Random(rng.double_word()) } }
}

fn read_link_file(rng: &mut Random, net: &Net) -> Call {
    let least = net.words.len();
    let words = rng.pick(&[least, least + 1, least + 3, 1_280, least.saturating_sub(1), least.saturating_sub(2), 0]);
    Call::ReadLinkFile { file: files::file(rng, net), table: Lent { words, holds: Holds::Random(rng.double_word()) } }
}

/// A call on the area: quotes and admissions most of all.
fn on_area(rng: &mut Random, net: &Net, pool: u32) -> Call {
    let (work, path) = (lent(rng, 16_384), lent(rng, 31));
    match rng.range(0, 21) {
        0..=5 => Call::Quote { request: request(rng, net), work, path },
        6..=13 => Call::Admit { circuit: circuit(rng, pool), request: request(rng, net), work, path },
        14..=16 => Call::Release { circuit: circuit(rng, pool) },
        17 => list(rng),
        18 | 19 => job_lists::call(rng, net, pool),
        _ => {
            let m = net.words.len() as u32 / 5;
            let link = rng.range(0, m + 1);
            Call::FreeUnits { link: if rng.one_in(9) { rng.pick(&[255, 256, u32::MAX]) } else { link } }
        }
    }
}

fn call(rng: &mut Random, net: &Net, pool: u32) -> Call {
    match rng.range(0, 39) {
        0 => load(rng, net),
        1 => read_link_file(rng, net),
        2 => class_tables::call(rng),
        3..=8 => {
            let damage = damage(rng, net.n, net.words.len() as u32 / 5);
            Call::Damaged { damage, call: Box::new(on_area(rng, net, pool)) }
        }
        9..=11 => Call::Folded { request: request(rng, net), work: lent(rng, 16_384), path: lent(rng, 31) },
        _ => on_area(rng, net, pool),
    }
}

/// More admissions than there is place for, one by one or some together.
fn filling(rng: &mut Random, net: &Net) -> Vec<Call> {
    let asks =
        |rng: &mut Random| Request { units: 1, delay_bound: MOST_DELAY_BOUND, cost_bound: 1_000, ..request(rng, net) };
    let mut numbers: Vec<u32> = (1..=90).collect();
    rng.shuffle(&mut numbers);
    if rng.one_in(3) {
        let jobs = numbers.chunks(rng.pick(&[7, 30, 64]));
        return jobs.map(|numbers| together(rng, numbers, asks)).collect();
    }
    let admit = |circuit| Call::Admit { circuit, request: asks(rng), work: lent(rng, 16_384), path: lent(rng, 31) };
    numbers.into_iter().map(admit).collect()
}

/// All these circuits in one call.
fn together(rng: &mut Random, numbers: &[u32], asks: impl Fn(&mut Random) -> Request) -> Call {
    let jobs: Vec<u32> = numbers.iter().flat_map(|&circuit| job_lists::job(circuit, &asks(rng))).collect();
    let answers = Lent { words: ANSWER_WORDS * numbers.len(), holds: holds(rng) };
    Call::AdmitJobs { jobs, work: lent(rng, 16_384), answers }
}

/// The case of a seed; the first seeds are those of the cases that go through everything.
pub fn case(seed: u64) -> Case {
    if seed < sweep::COUNT {
        return sweep::case(seed);
    }
    let mut rng = Random::new(seed);
    let style = style(&mut rng);
    let net = net(&mut rng, style);
    let count = if style.is_large() { rng.range(6, 30) } else { rng.range(8, 60) };
    let pool = if style == Style::Roomy { 90 } else { rng.pick(&[2, 4, 12]) };
    let mut calls = if style == Style::Roomy { filling(&mut rng, &net) } else { Vec::new() };
    calls.extend((0..count).map(|_| call(&mut rng, &net, pool)));
    // With zeros the hold words past n are in range, where a damaged n takes them in.
    let holds = if rng.one_in(3) { Holds::Zeros } else { Holds::Random(rng.double_word()) };
    let area = Lent { words: AREA_WORDS + rng.pick(&[0, 0, 1, 7]), holds };
    Case { seed, style, n: net.n, words: net.words, hold_times: net.hold_times, area, calls }
}
